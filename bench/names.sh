#!/bin/sh
# Opens 160 000 batches of one product by a script, and prints the seconds that `hall run` takes for
# each list of names: drawn ones, ascending and descending ones, and names of 32 bytes that are
# alike but for the last six, the dearest to compare. Best of three, to a file; each act has to be
# answered by ok. Who opens batches picks their names, so no list should take much longer than
# another.
#
# usage: bench/names.sh [BATCHES]
set -eu
here=$(dirname "$(readlink -f "$0")")/..
work=$(mktemp -d)
trap 'rm -rf "$work"' EXIT
batches=${1:-160000}

# A script that opens so many batches; the way says what names they have.
script() {
    awk -v way="$1" -v many="$batches" 'BEGIN {
        print "day 2025-03-03\nproduct P 250"
        letters = "ABCDEFGHIJKLMNOPQRSTUVWXYZ012345"
        srand(1)
        for (i = 1; i <= many; i++) {
            name = sprintf("%06d", way == "descending" ? many - i : i)
            if (way == "alike") name = "an-article-number-of-26-b-" name
            if (way == "drawn")
                for (k = 0; k < 6; k++) name = substr(letters, int(rand() * 32) + 1, 1) name
            print "open " name " P"
        }
    }'
}

# HALL names another program to try.
if [ -z "${HALL:-}" ]; then "$here/hall" run </dev/null >/dev/null; fi
program=${HALL:-$here/crates/hall_cli/out/hall_cli}

for way in drawn ascending descending alike; do
    script "$way" >"$work/script"
    best=1000000000
    for _ in 1 2 3; do
        before=$(date +%s%N)
        "$program" run <"$work/script" >"$work/answers"
        taken=$((($(date +%s%N) - before) / 1000000))
        [ "$(grep -c ' ok$' "$work/answers")" -eq $((batches + 2)) ]
        if [ "$taken" -lt "$best" ]; then best=$taken; fi
    done
    awk -v way="$way" -v many="$batches" -v ms="$best" \
        'BEGIN { printf "%s names: %d batches in %.2f s\n", way, many, ms / 1000 }'
done
