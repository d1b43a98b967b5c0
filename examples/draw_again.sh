#!/bin/bash
# Draws a sample again as the book drew it: of the packs on standard input, one a line in ascending
# order, so many by a word of 64 bits. It prints them in drawing order.
#
# usage: examples/draw_again.sh WORD COUNT < PACKS
#
# WORD is 0 to 18446744073709551615, COUNT at most the number of packs. Status 2 where they aren't,
# or where a line isn't a number.
MOST_WORD=18446744073709551615

refuse() {
    echo "draw_again: $*" >&2
    exit 2
}

# the digits of a number without zeros before them; it is refused where it isn't one
digits() {
    case $1 in '' | *[!0-9]*) refuse "$2 is a number, not $1" ;; esac
    local digits=${1#"${1%%[!0]*}"}
    echo "${digits:-0}"
}

[ $# -eq 2 ] || refuse "usage: draw_again.sh WORD COUNT < PACKS"
word=$(digits "$1" WORD) || exit
count=$(digits "$2" COUNT) || exit
# as texts: 20 digits are more than a number of bash
# shellcheck disable=SC2071
if [ ${#word} -gt ${#MOST_WORD} ] ||
    { [ ${#word} -eq ${#MOST_WORD} ] && [ "$word" \> "$MOST_WORD" ]; }; then
    refuse "WORD is at most $MOST_WORD, not $word"
fi
mapfile -t packs
for pack in "${packs[@]}"; do digits "$pack" "each line" >/dev/null || exit; done
if [ ${#count} -gt 9 ] || [ "$count" -gt ${#packs[@]} ]; then
    refuse "COUNT is at most the number of packs, ${#packs[@]}, not $count"
fi
while [ "$count" -gt 0 ]; do
    word=$((word * 6364136223846793005 + 1442695040888963407))
    place=$(((word >> 33 & 0x7fffffff) % ${#packs[@]}))
    echo "${packs[place]}"
    packs=("${packs[@]:0:place}" "${packs[@]:place + 1}")
    count=$((count - 1))
done
