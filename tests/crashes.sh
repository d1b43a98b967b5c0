#!/bin/sh
# What a power cut may leave of a book, drawn from the calls that the program makes.
#
# Two books are written by two runs of `hall run` each, which end well: one whose rows get room
# ahead, pieces of 64 KB of zeros, and one whose rows get none, since a file may not be so large
# (`ulimit -f`). tests/recorded_calls.c writes down each write, size, sync and answer. An image is
# the file at a drawn moment: what was stable at the last sync, and of each write and size since
# then a drawn part, in a drawn order: all of it, nothing, some bytes, other bytes in their place,
# or the size alone.
#
# Compared: `hall check` finds each image whole, with every row that was answered by then and at
# most one more, and these are the rows of the book at its end, byte for byte. Every twentieth image
# goes on by a run, whose snapshot has to fit, so that nothing lies behind it.
#
# usage: tests/crashes.sh [FOLDER [IMAGES [SEED]]]     FOLDER is /dev/shm and IMAGES 10000
# needs: a C compiler, Python 3.11. Done in 3 minutes.
set -eu
here=$(dirname "$(readlink -f "$0")")/..
images=${2:-10000}
seed=${3:-$(date +%s)}
work=$(mktemp -d "${1:-/dev/shm}/hall_crashes.XXXXXX")

# HALL names another program to try.
if [ -z "${HALL:-}" ]; then "$here/hall" run </dev/null >/dev/null; fi
program=${HALL:-$here/crates/hall_cli/out/hall_cli}
"${CC:-cc}" -O1 -fPIC -shared -o "$work/recorded_calls.so" "$here/tests/recorded_calls.c"

timeout 900 python3 -B "$here/tests/crashes.py" "$program" "$work" "$images" "$seed" ||
    { echo "crashes: seed $seed; see $work" >&2; exit 1; }
rm -rf "$work"
