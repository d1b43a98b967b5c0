#!/bin/sh
# Sends 1 600 batches of 600 packs through `hall run`: each is weighed and ended, and 50 of its
# packs are drawn. The first 300 and the last 300 batches are measured and closed too; all would
# take more than the 1 000 000 rows of a book. Prints the time of a closed batch at the start and at
# the end of the book, in microseconds: the ratio is 1 where a long book makes no draw, measurement
# and verdict slower.
#
# The times are those at which the program has taken the script of these batches from a pipe, so
# each is early by what a pipe and a buffer hold, 128 KiB of 4 MB.
set -eu
here=$(dirname "$(readlink -f "$0")")/..
work=$(mktemp -d)
trap 'rm -rf "$work"' EXIT

batches=1600
closed=300
packs=600
drawn=50
word=20250303

first_lines() { printf 'day 2025-03-03\nproduct rice250 250\ntare rice250 2025-03-03 10\n'; }

# The batches from one number to another, behind so many rows; 1 where they are measured and closed,
# and 0 where they aren't. Every pack passes, so one word draws the same places of each batch.
part() {
    awk -v from="$1" -v to="$2" -v row="$3" -v close_it="$4" -v packs="$packs" -v word="$word" \
        -v places="${5-}" 'BEGIN {
        drawn = split(places, place, " ")
        s = from
        for (b = from; b <= to; b++) {
            printf "open B%d rice250\nstart 1 B%d\n", b, b
            row += 2
            for (i = 1; i <= packs; i++) {
                s = (s * 16807) % 2147483647
                gross[i] = sprintf("%d.%03d", 262 + s % 10, s % 1000)
                print "weigh 1 " gross[i]
            }
            printf "stop 1\nend B%d\ndraw B%d keep %s\n", b, b, word
            if (close_it) {
                for (i = 1; i <= drawn; i++) print "measure " row + place[i] " " gross[place[i]]
                print "close B" b
                row += drawn + 1
            }
            row += packs + 3
        }
    }'
}

# HALL names another program to try.
if [ -z "${HALL:-}" ]; then "$here/hall" run </dev/null >/dev/null; fi
program=${HALL:-$here/crates/hall_cli/out/hall_cli}

# The places that the word draws from 600 packs; the packs of the first batch have rows 6 and on.
{ first_lines; part 1 1 3 0; echo "sample B1"; } >"$work/one"
places=$("$program" run <"$work/one" |
    awk '$1 == "sample" { for (i = 4; i <= NF; i++) printf "%d ", $i - 5 }')
[ "$(echo "$places" | wc -w)" -eq "$drawn" ]

open_rows=$((packs + 5))
closed_rows=$((open_rows + drawn + 1))
middle=$((3 + closed * closed_rows))
last=$((middle + (batches - 2 * closed) * open_rows))
rows=$((last + closed * closed_rows))
[ "$rows" -le 1000000 ]
first_lines >"$work/lines"
part 1 "$closed" 3 1 "$places" >"$work/start"
part $((closed + 1)) $((batches - closed)) "$middle" 0 >"$work/middle"
part $((batches - closed + 1)) "$batches" "$last" 1 "$places" >"$work/end"

# Says at which time a script was taken from a pipe, in microseconds.
stamp() { echo $(($(date +%s%N) / 1000)) >>"$work/stamps"; }

# The least time of three for the batches at the start and for those at the end.
for _ in 1 2 3; do
    : >"$work/stamps"
    {
        cat "$work/lines"
        stamp
        cat "$work/start"
        stamp
        cat "$work/middle"
        stamp
        cat "$work/end"
        stamp
    } | "$program" run >"$work/answers"
    [ "$(grep -c ' released$' "$work/answers")" -eq $((2 * closed)) ]
    grep -q "^rows $rows\$" "$work/answers"
    grep -q "^batches running 0 ended 0 drawn $((batches - 2 * closed)) closed $((2 * closed))\$" \
        "$work/answers"
    awk -v closed="$closed" '{ at[NR] = $1 }
        END { print (at[2] - at[1]) / closed, (at[4] - at[3]) / closed }
    ' "$work/stamps" >>"$work/times"
done
awk -v rows="$rows" '
    NR == 1 || $1 < start { start = $1 }
    NR == 1 || $2 < end { end = $2 }
    END {
        printf "a batch of 600 packs, drawn, measured and closed, best of 3: "
        printf "%d us at the start, %d us at the end of %d rows\n", start, end, rows
        printf "ratio %.2f\n", end / start
    }' "$work/times"
