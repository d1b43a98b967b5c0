#!/bin/bash
# How long a program takes to check papers, and how much memory: one of 10 000 packs, and two of 16
# 777 216 bytes. The first has as many tares and packs of a sample as fit and no fault of form; the
# second has a tare and a pack of each of 10 000 days, draws that are right, and as many packs of a
# second sample as fit behind them.
#
# usage: bench/paper.sh [PROGRAM [WORD..]]    without a program ./prove
top=$(dirname "$(dirname "$(readlink -f "$0")")")
[ $# -gt 0 ] || set -- "$top/prove"
papers=$(mktemp -d)
trap 'rm -rf "$papers"' EXIT
PYTHONPATH=$top/tests python3 -B "$top/bench/paper.py" "$papers"
for paper in large slow drawn; do
    echo "$paper: $(stat -c %s "$papers/$paper") bytes, $(wc -l <"$papers/$paper") lines"
    for turn in 1 2 3; do
        /usr/bin/time -q -f '  %e s, %M kB' "$@" <"$papers/$paper" 2>&1
    done
done
