#!/bin/sh
# Measures the work of lanes.
#
# In memory: 100 000 weights that `hall run --lanes` takes from files, beside a script that weighs
# the same ones by `weigh` lines. First through one lane in one batch, which takes 10 000 packs and
# rejects the rest as full; then through ten lanes, one after another, each in a batch of its own,
# so that every gate opens. Best of five, in turn, each process whole. Both ways leave the same
# book: their summaries are compared. The ratio is the time of the lanes to that of the script.
#
# On a book in a file of the folder: a lane over two named pipes gets 5 000 weights one by one, the
# next when the line of the gate has come. Printed are the median and the 99th of 100 of the time
# from writing a weight to having its line, beside those of a lane whose scale sends the same
# weights over TCP (`--remote`), each when its gate's line and the acknowledgement of the one before
# have come, and of a bare loop in Python that makes the same two writes and two data syncs a row in
# the same folder (95 bytes and then their first one, as the journal does). Three rounds, in turn;
# the round with the least median is told of each. Aim: over TCP at most 1.5 times as long as over a
# pipe.
#
# usage: bench/lanes.sh FOLDER [WEIGHTS [SENT]]
set -eu
here=$(dirname "$(readlink -f "$0")")/..
work=$(mktemp -d "$1/hall_lanes.XXXXXX")
trap 'rm -rf "$work"' EXIT

# HALL names another program to try.
if [ -z "${HALL:-}" ]; then "$here/hall" run </dev/null >/dev/null; fi
program=${HALL:-$here/crates/hall_cli/out/hall_cli}


weights=${2:-100000}
sent=${3:-5000}
# no batch has more packs, and one that is full opens no gate
if [ "$sent" -gt 10000 ]; then
    echo "lanes: at most 10000 weights are sent one by one" >&2
    exit 2
fi
python3 -B "$here/bench/lanes.py" "$program" "$work" "$weights" "$sent"
