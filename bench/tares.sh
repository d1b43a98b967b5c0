#!/bin/sh
# Fills registers with tares of 100 products, day by day or backwards (each before all that are
# held), and then asks one for the tare of a drawn product on a drawn day.
# Figures are processor time, so that they can be had beside other work.
#
# usage: bench/tares.sh [CRATES [LOOK_UPS]]     CRATES is another folder of crates, as an older
#        checkout's; LOOK_UPS is 1 000 000 if it isn't named
set -eu
here=$(dirname "$(readlink -f "$0")")
work=$(mktemp -d)
trap 'rm -rf "$work"' EXIT
. "$here/program.sh"
CRATES=${1:-$here/../crates} left_out=./out run_words='-- 100 100 1 0'
build_program tares_bench tare_register

# milliseconds of processor time, best of 5 of a run with so many entries, look-ups and registers,
# in one of the two orders
best() {
    for _ in 1 2 3 4 5; do
        /usr/bin/time -o "$work/time" -f '%U %S' "$program" "$@" || [ $? -lt 128 ]
        tail -n 1 "$work/time"
    done | awk '{ t = ($1 + $2) * 1000; if (NR == 1 || t < least) least = t }
        END { print int(least + 0.5) }'
}
asked=${2:-1000000}
for entries in 1000 10000; do
    rounds=$((500000 / entries))
    one=$(best "$entries" 0 1 0)
    echo "$entries entries: $asked look-ups $(($(best "$entries" "$asked" 1 0) - one)) ms;" \
        "500000 puts $(best "$entries" 0 "$rounds" 0) ms," \
        "backwards $(best "$entries" 0 "$rounds" 1) ms"
done
