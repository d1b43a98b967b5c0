#!/bin/sh
# A hall in operation, by deploy/start and deploy/stop as its service runs it: a plan of another
# number of lanes, and one that names a batch that isn't open yet; a book that becomes full; a disk
# that is full, and room made; ports that others have; a gate that nobody reads; an evening under
# load; copies of the book, without room, of no book and of a changed one; lanes that change their
# batch, an adapter and a hall of theirs killed. Then the hall is ended in good order and begun
# again 200 times while two scales weigh over pipes, and 200 times while they weigh over ports, one
# of them behind a tunnel: no pack is voided, stands twice or is lost, and no lane stays dead. And
# what is said on standard error, in lanes.txt and by hall-status meanwhile.
#
# usage: tests/operation.sh [RESTARTS [CASE..]]     as: tests/operation.sh 20 good_end backups
#        HALL names another program than the one that `./hall` builds
# needs: root, for a mount of its own; Python 3.11, systemd-notify. Done in some 20 minutes, at most
# 90.
set -eu
here=$(dirname "$(readlink -f "$0")")/..
restarts=${1:-200}
[ $# -eq 0 ] || shift
if [ "$(id -u)" != 0 ] || ! unshare -n true 2>/dev/null; then
    echo "operation: skipped, since it takes root and namespaces"
    exit 0
fi
if [ -z "${HALL:-}" ]; then "$here/hall" run </dev/null >/dev/null; fi
program=$(realpath "${HALL:-$here/crates/hall_cli/out/hall_cli}")
work=$(mktemp -d)

# shellcheck disable=SC2016
timeout 5400 unshare --mount --net --pid --fork --kill-child --mount-proc sh -c '
    mount --make-rprivate /
    ip link set lo up
    exec python3 -B "$@"
' sh "$here/tests/operation.py" "$program" "$work" "$restarts" "$@" ||
    { echo "operation: see $work" >&2; exit 1; }
rm -rf "$work"
