#!/bin/sh
# Measures lanes and doors at once.
#
# Lanes from files, each with as many weights as the others, on a book in memory and on one in a
# file of the folder: one lane alone, 4 and 16 at once, and 16 with 16 doors, at each of which a
# client asks acts one by one. Told are rows a second of the whole process, beside those of one
# lane, and replies a second of the doors. In memory a lane has 60 000 weights, of which its batch
# takes 10 000, and a door 1 000 acts; in the file all lanes have 10 000 together, unless another
# number is given, and all doors as many acts. The 16 lanes in memory leave some million rows: their
# time stands beside that of `run`, which works the same lanes over the same files one after
# another.
#
# From a weight to its gate's line: lanes over named pipes, on a book in the file, each of which
# gets the next weight when the line has come. The median and the 99th of 100, with one lane and
# with 16.
#
# One lane beside a reader of the summary: the lane's rows a second by the summaries themselves,
# where one is read each 20 ms and where they are read in a loop.
#
# Best of three, in turn; the clients are in Python and take a processor of their own.
#
# usage: bench/serve.sh FOLDER [WEIGHTS]
set -eu
here=$(dirname "$(readlink -f "$0")")/..
work=$(mktemp -d "$1/hall_serve.XXXXXX")
trap 'rm -rf "$work"' EXIT

# HALL names another program to try.
if [ -z "${HALL:-}" ]; then "$here/hall" run </dev/null >/dev/null; fi
program=${HALL:-$here/crates/hall_cli/out/hall_cli}

PYTHONPATH=$here/tests timeout 900 \
    python3 -B "$here/bench/serve.py" "$program" "$work" "${2:-10000}"
