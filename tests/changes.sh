#!/bin/sh
# Lanes that change their batch while they weigh: `changes = true`, beside the adapter that says
# their batches (`hall-adapter lane`).
#
# Four lanes at 100 packs a second each, over pipes, and then over ports (examples/scale_sender.py).
# At drawn moments a scanner or a page says a batch at a drawn lane: another one, the same again,
# one that is unknown or was ended, two at once, behind a line that is cut in its middle, behind
# lines that are none. The hall is killed six times and begun again over the same book.
#
# Compared, from the book's file: each pack has the batch that was said last before it, no weight
# without a batch is booked, and none stands twice or in another order; no pack is voided but the
# newest one of a kill; over ports none is missing. The adapter said the weights and batches of its
# devices in their order. A change takes at most 50 ms from its line to the first pack that is let
# out under the new batch, and the other lanes' rate beside a change is that before it, within 5 %.
#
# usage: tests/changes.sh [FOLDER [CHANGES [SEED]]]     200 changes without it
#        HALL names another program than the one that `./hall` builds
# needs: Python 3.11. Done in some 3 minutes, at most 20.
set -eu
here=$(dirname "$(readlink -f "$0")")/..
changes=${2:-200}
seed=${3:-$(date +%s)}
work=$(mktemp -d "${1:-/tmp}/hall_changes.XXXXXX")

if [ -z "${HALL:-}" ]; then "$here/hall" run </dev/null >/dev/null; fi
program=${HALL:-$here/crates/hall_cli/out/hall_cli}

echo "changes: seed $seed"
timeout 1200 python3 -B "$here/tests/changes.py" "$program" "$work" "$changes" "$seed" ||
    { echo "changes: seed $seed; see $work" >&2; exit 1; }
rm -rf "$work"
