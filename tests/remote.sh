#!/bin/sh
# Lanes whose scales send numbered lines to a port (`serve --remote`), tried over bad lines.
#
# Two scales of examples/scale_sender.py have 20 000 weights each. Between each and the hall is a
# line that drops lines and acknowledgements, gives them again, holds them back, hands them on byte
# by byte and cuts them at a drawn byte, and that brings lines said before once more, on the same
# connection and on later ones. The hall is killed at drawn moments, and started again on the same
# book with a batch for each lane of its own. Compared: the packs of a lane are the scale's weights
# in order; each that was acknowledged stands once, and each hall had weighed at most one more,
# which the next one weighed anew; a pack that isn't passed is the last of its hall; the lines of a
# gate are passed rows of its lane, in order, and lack at most the last one of a hall.
#
# Then, each with a hall of its own: a port that another has; a scale that is silent for 65 s; one
# who connects and is silent, or stops in mid-line; one who never reads; a line that is none; a
# thousand connections without an end; a million lines that are ahead.
#
# usage: tests/remote.sh [FOLDER [WEIGHTS [SEED]]]     the book lies in a folder below it
#        HALL names another program than the one that `./hall` builds
# needs: Python 3.11. Done in some 10 minutes, at most 40.
set -eu
here=$(dirname "$(readlink -f "$0")")/..
weights=${2:-20000}
seed=${3:-$(date +%s)}
work=$(mktemp -d "${1:-/tmp}/hall_remote.XXXXXX")

if [ -z "${HALL:-}" ]; then "$here/hall" run </dev/null >/dev/null; fi
program=${HALL:-$here/crates/hall_cli/out/hall_cli}

timeout 2400 python3 -B "$here/tests/remote.py" "$program" "$work" "$weights" "$seed" ||
    { echo "remote: seed $seed; see $work" >&2; exit 1; }
rm -rf "$work"
