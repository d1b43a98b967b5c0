#!/bin/sh
# Sends weighings through `hall run`, and prints how the time grows and how it compares with awk.
#
# Growth: 99 000 weighings of one product and 990 000 of ten, each product in ten batches of 9 900,
# one after another. In each batch the tare is put ten times, 11 g and 10 g in turn, which changes
# the nets of all packs of its product. A book has at most 1 000 000 rows, so this is nearly the
# longest. The growth is 10 where the work grows with the weighings.
#
# Beside awk: 100 000 weighings in ten batches of 10 000 packs, the most that a batch may have. The
# awk program keeps the same sums, judges in the same way and flushes each line; its output is the
# same.
set -eu
here=$(dirname "$(readlink -f "$0")")/..
work=$(mktemp -d)
trap 'rm -rf "$work"' EXIT

# A script of so many products in ten batches, of so many weighings and tares each.
script() {
    awk -v products="$1" -v packs="$2" -v tares="$3" 'BEGIN {
        print "day 2025-03-03"
        s = 1
        for (p = 1; p <= products; p++) {
            printf "product P%d 250\ntare P%d 2025-03-03 10\n", p, p
            for (b = 1; b <= 10; b++) {
                printf "open P%d-%d P%d\nstart 1 P%d-%d\n", p, b, p, p, b
                put = 0
                for (i = 1; i <= packs; i++) {
                    s = (s * 16807) % 2147483647
                    printf "weigh 1 %d.%03d\n", 256 + s % 10, s % 1000
                    if (tares > 0 && i % (packs / tares) == 0)
                        printf "tare P%d 2025-03-03 %d\n", p, 11 - put++ % 2
                }
                printf "stop 1\nend P%d-%d\n", p, b
            }
        }
    }'
}

# What `hall run` does with such a script of goods of 250 g, where every gate opens.
mawk=$(command -v mawk || command -v awk)

milliseconds() { echo $(($(date +%s%N) / 1000000)); }

# How many ms a program takes that answers a script into a file.
taken() {
    input=$1 output=$2
    shift 2
    before=$(milliseconds)
    "$@" <"$input" >"$output"
    after=$(milliseconds)
    echo $((after - before))
}

lesser() { if [ "$1" -lt "$2" ]; then echo "$1"; else echo "$2"; fi; }

# The least time of three; each weighing has to be answered by a pass, and counted in the summary.
least() {
    best=1000000000
    for _ in 1 2 3; do
        best=$(lesser "$best" "$(taken "$work/script$1" "$work/answers" "$program" run)")
        [ "$(grep -c ' pass$' "$work/answers")" -eq "$1" ]
        grep -q "^readings $1 gross " "$work/answers"
    done
    echo "$best"
}

# HALL names another program to try.
if [ -z "${HALL:-}" ]; then "$here/hall" run </dev/null >/dev/null; fi
program=${HALL:-$here/crates/hall_cli/out/hall_cli}
script 1 9900 10 >"$work/script99000"
script 10 9900 10 >"$work/script990000"
few=$(least 99000)
many=$(least 990000)
echo "hall $few ms for 99000 weighings, $many ms for 990000, best of 3, to a file"
awk -v a="$few" -v b="$many" 'BEGIN { printf "growth %.1f for 10.0 times the weighings\n", b / a }'

script 1 10000 0 >"$work/script100000"
same=$work/script100000
ours=1000000000
theirs=1000000000
for _ in 1 2 3; do
    ours=$(lesser "$ours" "$(taken "$same" "$work/answers" "$program" run)")
    theirs=$(lesser "$theirs" "$(taken "$same" "$work/same" "$mawk" -f "$here/bench/same.awk")")
    cmp "$work/answers" "$work/same"
done
echo "hall $ours ms, awk $theirs ms for 100000 weighings in ten batches, best of 3, to a file"
awk -v a="$ours" -v b="$theirs" 'BEGIN { printf "ratio %.2f\n", a / b }'
