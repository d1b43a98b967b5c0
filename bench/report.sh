#!/bin/sh
# Measures what an office and an inspector take away of a long book, and how one is fed.
#
# Export: a book of 1 000 000 rows in a file, 999 000 of them weighings in a hundred batches, beside
# sqlite3 that selects the same columns of the same packs from a table in a file and writes them in
# CSV, whole and without the opening of the book, which is what `check` takes; and its memory, as
# bytes a row above that of an empty book. Import: 200 000 acts of a desk from CSV beside the same
# acts as a script; the answers have to be the same. Trial: 10 000 and 100 000 packs, and the
# growth, which is 10 where the work grows with the packs. Best of three, to a file.
#
# usage: bench/report.sh [FOLDER]     (packages sqlite3, time; the files lie in a new folder below
#                                     this one, and else below /dev/shm, where a sync costs nothing)
set -eu
here=$(dirname "$(readlink -f "$0")")/..
work=$(mktemp -d -p "${1:-/dev/shm}")
trap 'rm -rf "$work"' EXIT

# HALL names another program to try.
if [ -z "${HALL:-}" ]; then "$here/hall" run </dev/null >/dev/null; fi
program=${HALL:-$here/crates/hall_cli/out/hall_cli}
rows=1000000 packs=999000 acts=200000

milliseconds() { echo $(($(date +%s%N) / 1000000)); }

lesser() { if [ "$1" -lt "$2" ]; then echo "$1"; else echo "$2"; fi; }

# The least ms of three that a program takes that answers an input into a file.
least() {
    input=$1 output=$2 best=1000000000
    shift 2
    for _ in 1 2 3; do
        before=$(milliseconds)
        "$@" <"$input" >"$output"
        after=$(milliseconds)
        best=$(lesser "$best" $((after - before)))
    done
    echo "$best"
}

# The most memory in KiB that a program took, whose output goes to a file.
most_memory() {
    /usr/bin/time -f %M -o "$work/memory" "$@" >"$work/exported"
    cat "$work/memory"
}

# ---- export
awk -v rows=$rows 'BEGIN {
    print "day 2025-03-03\nproduct P 250\ntare P 2025-03-03 10"
    s = 1
    for (b = 1; b <= 100; b++) {
        printf "open P%d P\nstart 1 P%d\n", b, b
        for (i = 1; i <= 9990; i++) {
            s = (s * 16807) % 2147483647
            printf "weigh 1 %d.%03d\n", 256 + s % 10, s % 1000
        }
        printf "stop 1\nend P%d\n", b
    }
    for (row = 3 + 100 * 9994; row < rows; row++) print "day 2025-03-03"
}' >"$work/script"
"$program" run --book "$work/day.book" <"$work/script" | tail -7 >"$work/summary"
grep -qx "rows $rows" "$work/summary"
: >"$work/nothing"
opening=$(least "$work/nothing" "$work/whole" "$program" check --book "$work/day.book")
ours=$(least "$work/nothing" "$work/register" "$program" export --book "$work/day.book")
[ "$(wc -l <"$work/register")" -eq $((packs + 1)) ]

sqlite3 "$work/day.sqlite" 'create table register (pack integer primary key, batch text,
    product text, lane integer, day text, gross text, net text, class text, signal text,
    pile text)' \
    '.mode csv' ".import --skip 1 $work/register register"
theirs=$(least "$work/nothing" "$work/selected" sqlite3 -csv "$work/day.sqlite" \
    'select pack, batch, product, lane, day, gross, net, class, signal, pile from register
    order by pack')
tail -n +2 "$work/register" >"$work/records"
tr -d '"\r' <"$work/selected" | cmp - "$work/records"
awk -v rows=$rows -v a="$ours" -v o="$opening" -v b="$theirs" 'BEGIN {
    printf "export of %d rows: %d ms, sqlite3 %d ms: %.2f\n", rows, a, b, a / b
    printf "behind the opening, which takes %d ms: %d ms: %.2f\n", o, a - o, (a - o) / b
}'

large=$(most_memory "$program" export --book "$work/day.book")
"$program" run --book "$work/empty.book" <"$work/nothing" >/dev/null
small=$(most_memory "$program" export --book "$work/empty.book")
awk -v rows=$rows -v a="$large" -v b="$small" 'BEGIN {
    printf "memory of export: %d KiB, of an empty book %d KiB: %.0f bytes a row\n", a, b,
        1024 * (a - b) / rows
}'

# ---- import
awk -v acts=$acts -v table="$work/table" -v lines="$work/lines" 'BEGIN {
    print "desk,request,command" >table
    for (i = 1; i <= acts; i++) {
        printf "101,%d,day 2025-03-03\n", i >table
        printf "@101 %d day 2025-03-03\n", i >lines
    }
}'
imported=$(least "$work/table" "$work/imported" "$program" import)
scripted=$(least "$work/lines" "$work/scripted" "$program" run)
cmp "$work/imported" "$work/scripted"
awk -v acts=$acts -v a="$imported" -v b="$scripted" 'BEGIN {
    printf "import of %d acts: %d ms, as a script %d ms: %.2f\n", acts, a, b, a / b
}'

# ---- trial
few=$(least "$work/nothing" "$work/told" "$program" trial 0 10000)
many=$(least "$work/nothing" "$work/told" "$program" trial 0 100000)
grep -qx 'rows 110003' "$work/told"
awk -v a="$few" -v b="$many" 'BEGIN {
    printf "trial: %d ms for 10000 packs, %d ms for 100000: growth %.1f\n", a, b, b / a
}'
