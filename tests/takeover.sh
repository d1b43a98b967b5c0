#!/bin/sh
# Two hosts in network namespaces of the test's own, joined by a cable: a hall at the first, with
# two lanes and two desks at work, whose book examples/standby.sh ships to the second by a door of
# its own, five times a second. At a drawn moment the cable is cut and all that ran at the first
# host is killed. Then a hall is served at the second host from the copy, and the desks ask again
# under the same numbers.
#
# Compared: the copy is the beginning of the first's book, row by row; the hall that takes over
# leaves its rows as they are; the last request of each desk that the copy has is told its row
# again, and no request acts twice. What the first had acknowledged and not yet shipped is counted
# and printed.
#
# usage: tests/takeover.sh [FOLDER [TIMES [SEED]]]     the books lie in a folder below it; 20 times
#        HALL names another program than the one that `./hall` builds
# needs: root, iproute2, Python 3.11. Where namespaces can't be had it is skipped. Done in 3
# minutes.
set -eu
here=$(dirname "$(readlink -f "$0")")/..
times=${2:-20}
seed=${3:-$(date +%s)}

if [ "$(id -u)" != 0 ] || ! unshare -n true 2>/dev/null || ! command -v ip >/dev/null; then
    echo "takeover: skipped, since it takes root and network namespaces"
    exit 0
fi
work=$(mktemp -d "${1:-/tmp}/hall_takeover.XXXXXX")
if [ -z "${HALL:-}" ]; then "$here/hall" run </dev/null >/dev/null; fi
program=${HALL:-$here/crates/hall_cli/out/hall_cli}

timeout 900 python3 -B "$here/tests/takeover.py" "$program" "$work" "$times" "$seed" ||
    { echo "takeover: seed $seed; see $work" >&2; exit 1; }
rm -rf "$work"
