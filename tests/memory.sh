#!/bin/sh
# Refuses each call for memory of worked days in turn, a run for each: a corrected tare and a held
# batch; a second sample; the repeats of a desk, in a script and at a door; lanes and a door that
# wait for each other; a day of 600 packs, and its sheet at a door. tests/refuse.c counts the calls
# of the program and refuses one. Of the day with lanes each start of a thread is refused as well,
# and each call for memory that the C library makes for one.
#
# A run has to end with status 7, `no memory` behind a beginning of what a run with ample memory
# says, and behind what lanes and doors say where these ran; or whole, behind an answer 503 when the
# request comes again, or where the program asks for less; or with 10, where a lane waits in vain
# for one that lacked memory. Its rows are those that were answered, a beginning of the day's, and
# `check` finds them whole. The rest of the day over that book then ends with the whole day's
# summary and rows. What the days say with ample memory was worked out by hand. Status 1 where a run
# came out otherwise: each is named.
#
# Room is made for 64 rows at first, and then for twice as many. So the corrected tare and the lanes
# also come behind so many other rows that each of their acts in turn is the one for which there has
# to be more.
#
# usage: tests/memory.sh [FOLDER [WORKERS [DAY [FIRST]]]]
#     so many runs at once, each in a folder of its own below a new one in FOLDER; only the days
#     whose names are like DAY, as the shell reads *, and only the calls from FIRST on
set -eu
here=$(dirname "$(readlink -f "$0")")/..
workers=${2:-$(nproc)}
work=$(mktemp -d "${1:-/dev/shm}/hall_memory.XXXXXX")

# HALL names another program to try.
if [ -z "${HALL:-}" ]; then "$here/hall" run </dev/null >/dev/null; fi
program=${HALL:-$here/crates/hall_cli/out/hall_cli}

"${CC:-cc}" -O1 -fPIC -shared -fno-builtin -o "$work/refuse.so" "$here/tests/refuse.c"

PYTHONPATH=$here/tests timeout 3600 \
    python3 -B "$here/tests/memory.py" "$program" "$work" "$workers" "${3:-*}" "${4:-1}" || {
    echo "memory: failed; see $work" >&2
    exit 1
}
rm -rf "$work"
