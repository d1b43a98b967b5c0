#!/bin/sh
# The calls of the pass under one std Mutex, on one thread and on all processors, beside the Mutex
# alone: an append, a note, a note that is met, all that a refusal takes (hear, note, meet), and all
# that an accepted entry takes (append, note, meet, see). Each line tells how often a second, and
# how long it takes in hundredths of the Mutex alone.
set -eu
here=$(dirname "$(readlink -f "$0")")
work=$(mktemp -d)
trap 'rm -rf "$work"' EXIT
. "$here/program.sh"
build_program pass_bench turn_pass hall_limits

microseconds() { echo $(($(date +%s%N) / 1000)); }
# the middle one of nine times of ten sessions, in each of which one work is done 800000 times over
# so many threads: threads that take turns by chance are fast, so the best time would say little
middle() {
    for _ in 1 2 3 4 5 6 7 8 9; do
        before=$(microseconds)
        "$program" "$1" "$2" $((800000 / $2)) 10
        echo $(($(microseconds) - before))
    done | sort -n | sed -n 5p
}
for threads in 1 $(nproc); do
    alone=$(middle lock "$threads")
    echo "$threads threads, the Mutex alone: $((8000000000 / alone)) thousand a second"
    for work_done in append note meet refuse accept; do
        took=$(middle "$work_done" "$threads")
        echo "$threads threads, $work_done: $((8000000000 / took)) thousand a second," \
            "ratio $((100 * took / alone)) %"
    done
done
