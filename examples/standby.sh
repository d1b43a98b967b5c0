#!/bin/sh
# Keeps a copy of a book: what is new is shipped as it comes, and one `follow` of the copy stays
# open, here or on another machine, also while a hall runs over the book. Says each second how many
# rows the book has and how many the copy. It may be killed at any moment and started again, and so
# may the machine of the copy.
#
# usage: standby.sh BOOK COPY [COMMAND [WORD..]]    as: standby.sh day.book day.copy ssh hall@second
#
# COMMAND runs `hall` where the copy is; without it that is this machine. HALL is the program
# (hall). DOOR is a port of the hall that serves the book, which nobody else asks at; without it,
# and while no hall is there, the book's file is shipped whenever it has changed. EVERY is the
# seconds between two looks for what is new (0.2), TIMES how many there are (without it no end).
#
# At the start, and whenever `follow` ends, the first rows of both are compared by fingerprint.
# It ends with status 1 where the copy isn't a beginning of the book, or is one of another hall than
# that at DOOR, or where a path, a command or a book can't be used; with 2 at wrong words.
set -u
[ $# -ge 2 ] || { sed -n '2,17s/^# \{0,1\}//p' "$0" >&2; exit 2; }
book=$1 copy=$2
shift 2
hall=${HALL:-hall} times=${TIMES:--1}
export HALL="$hall"
FIRST_PAUSE=1 LONGEST_PAUSE=30 LONG_RUN=60
NO_BOOK=8 DAMAGED=9 USAGE=2 NOT_RUN=126 NOT_FOUND=127
here=$(dirname "$0")
room=$(mktemp -d) || exit 1
follower=
trap 'rm -rf "$room"' EXIT
trap 'kill $follower 2>/dev/null; exit 130' INT TERM
exec 3>&1

refuse() {
    echo "standby: $*" >&2
    exit 1
}

# runs `hall` over the copy, where that is
at_copy() {
    command=$1
    shift
    "$@" "$hall" "$command" --book "$copy" ${rows_asked:+--rows "$rows_asked"} </dev/null
}

# the value behind a word of what a command said
value() {
    sed -n "s/^$1 \([0-9a-z]*\).*/\1/p" "$room/out"
}

# what a command of the program says goes to out; where it fails for good, this ends. Else 1.
said() {
    whose=$1
    shift
    "$@" >"$room/out" 2>"$room/why" && return 0
    status=$?
    case $status in
        "$USAGE" | "$NO_BOOK" | "$DAMAGED" | "$NOT_RUN" | "$NOT_FOUND")
            refuse "$whose can't be used, status $status: $(cat "$room/out" "$room/why")" ;;
    esac
    return 1
}

# how many rows the copy has: none where there is no file yet
rows_of_copy() {
    rows_asked=
    if said "$copy" at_copy check "$@"; then
        rows=$(value rows)
    elif grep -q 'No such file' "$room/why"; then
        rows=0
    else
        return 1
    fi
}

# compares as many first rows as both have, and goes on behind these
compare() {
    [ "$rows" -gt 0 ] || return 0
    said "$book" "$hall" audit --book "$book" --rows "$rows" </dev/null || return 1
    all=$(value rows) print=$(value sha256)
    if [ "$all" -lt "$rows" ]; then rows=$all; fi
    rows_asked=$rows
    said "$copy" at_copy audit "$@" || return 1
    [ "$(value sha256)" = "$print" ] || refuse "$copy has other rows than $book under the same" \
        "numbers, among the first $rows: it is no copy of it. Keep it apart, and begin a new one"
}

# ships into one `follow`, until one of both ends
ship_on() {
    {
        TIMES=$times python3 "$here/shipments.py" "$book" "$rows"
        echo $? >"$room/shipped"
    } | "$@" "$hall" follow --book "$copy" --shipments 1000000 2>"$room/why" &
    follower=$!
    wait "$follower"
    status=$?
    cat "$room/why" >&2
    if grep -q 'No such file' "$room/why"; then refuse "there is no folder for $copy"; fi
    case $status in
        "$USAGE" | "$NO_BOOK" | "$DAMAGED" | "$NOT_RUN" | "$NOT_FOUND")
            refuse "$copy can't be used, status $status" ;;
    esac
}

# waits before the next try, longer each time
wait_pause() {
    if [ $(($(date +%s) - began)) -gt $LONG_RUN ]; then pause=$FIRST_PAUSE; fi
    sleep "$pause"
    pause=$((pause * 2))
    if [ "$pause" -gt "$LONGEST_PAUSE" ]; then pause=$LONGEST_PAUSE; fi
}

[ -f "$book" ] || refuse "there is no book $book"
pause=$FIRST_PAUSE
while [ "$times" -ne 0 ]; do
    began=$(date +%s)
    if ! rows_of_copy "$@"; then
        echo "standby: the copy doesn't answer: $(tail -n 1 "$room/why")" >&2
    elif ! compare "$@"; then
        echo "standby: not compared: $(cat "$room/out" "$room/why")" >&2
    else
        ship_on "$@"
        case $(cat "$room/shipped") in
            0) [ "$status" -ne 0 ] || exit 0 ;;
            2) exit 1 ;;
        esac
    fi
    times=$((times - 1))
    [ "$times" -eq 0 ] || wait_pause
done
