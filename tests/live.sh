#!/bin/sh
# Reads a book while its hall works: `check`, `export`, `report` and `ship` at drawn moments beside
# a `hall serve` with two lanes and two desks that is killed and begun again, and beside two whose
# disk fails. In one the sync of each seventh gate fails (tests/failing_sync.c), so that a row hangs
# with its gate open until the next act, which is another one. In the other the block device fails:
# a loop device that ends too early at drawn moments.
#
# Compared: no reading is refused, and standard error says how many rows it read; none is longer
# than what stands in the file then; and at the end each says, byte for byte, what the same command
# says of a book of as many rows of the final one. The rate of the lanes is told with readers and
# without.
#
# usage: tests/live.sh [FOLDER [READINGS [SEED]]]    the books lie in a folder below it; READINGS is
#        1 000 if it isn't named, and 300 more are of the block device
# needs: a C compiler, Python 3.11; for the block device root, loop devices and ext4, without which
#        it is left out and said so. Done in 3 minutes.
set -eu
here=$(dirname "$(readlink -f "$0")")/..
readings=${2:-1000}
seed=${3:-$(date +%s)}
work=$(mktemp -d "${1:-/tmp}/hall_live.XXXXXX")

# HALL names another program to try.
if [ -z "${HALL:-}" ]; then "$here/hall" run </dev/null >/dev/null; fi
program=${HALL:-$here/crates/hall_cli/out/hall_cli}
"${CC:-cc}" -O1 -fPIC -shared -o "$work/failing_sync.so" "$here/tests/failing_sync.c"

PYTHONPATH=$here/tests timeout 900 \
    python3 -B "$here/tests/live.py" "$program" "$work" "$readings" "$seed" ||
    { echo "live: seed $seed; see $work" >&2; exit 1; }
rm -rf "$work"
