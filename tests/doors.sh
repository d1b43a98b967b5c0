#!/bin/sh
# Clients that hold a door or would shut it, beside honest ones: `hall serve` with one door for each
# kind, and an honest client at the same door, which has to be answered within 2 seconds all the
# while. Kinds: one that is silent, sends half a head, drips a head, keeps its connection and asks
# nothing, or is left and doesn't go. Beside one that sends half a request behind an answer, drips a
# body or takes no answer it is answered within 15 seconds, since these have 10 of their own.
#
# Then 300 connections that say nothing, of which none is one of `--connections` and none a fault of
# the link; a door without a descriptor, which is told once and serves again; and 300 hostile
# clients of all kinds at four doors beside two lanes, where it is told how long honest clients
# wait.
#
# usage: tests/doors.sh [FOLDER [SECONDS [CLIENTS [SEED]]]]    SECONDS of the crowd: 120, for the
#        full run 1200; none at 0. HALL names another program than the one that `./hall` builds.
set -eu
here=$(dirname "$(readlink -f "$0")")/..
seconds=${2:-120}
seed=${4:-$(date +%s)}
work=$(mktemp -d "${1:-/tmp}/hall_doors.XXXXXX")
if [ -z "${HALL:-}" ]; then "$here/hall" run </dev/null >/dev/null; fi
program=${HALL:-$here/crates/hall_cli/out/hall_cli}
PYTHONPATH=$here/tests timeout $((seconds + 300)) \
    python3 -B "$here/tests/doors.py" "$program" "$work" "$seconds" "${3:-300}" "$seed" || {
    echo "doors: failed, with the seed $seed; see $work" >&2
    exit 1
}
rm -rf "$work"
