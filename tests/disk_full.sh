#!/bin/sh
# A book on a small file system of its own (ext4 in a file, over a loop device; to be run as root):
#
# - it has less room than a piece of what a book grows by, as much, or more: rows are answered until
#   none fits, and with room again the run goes on;
# - it fills up in a run: status 6 and `disk fault`; each answered row stands, `check` and `export`
#   read the book on the full disk, a further run fails and changes nothing; with room again the run
#   goes on where it stopped;
# - the rows fit and the snapshot doesn't: status 6, and each row stands;
# - it fills up under `serve`: the lane ends with `disk`, an act is answered 500, a question 200;
#   with room again the same act is answered 200 by the same hall, whose status is 6 at its end;
# - it is mounted read-only: what may add rows ends with status 6 and says why, what adds none reads
#   the book and says that it can't be written, and the file is untouched;
# - it breaks under `serve`: the system finds a fault and makes it read-only, and, in another hall,
#   shuts it down without writing what it still holds, as at a power cut: an act is answered 500,
#   and once the file system is mounted anew each acknowledged row is there.
#
# usage: tests/disk_full.sh [SEED]
set -eu
here=$(dirname "$(readlink -f "$0")")/..
seed=${1:-$(date +%s)}
work=$(mktemp -d)
trap 'rm -rf "$work"' EXIT

# HALL names another program to try.
if [ -z "${HALL:-}" ]; then "$here/hall" run </dev/null >/dev/null; fi
program=${HALL:-$here/crates/hall_cli/out/hall_cli}

mkdir "$work/disk" "$work/lanes"
truncate -s 8M "$work/image"
mkfs.ext4 -q -m 0 "$work/image"
# (a name space of its own: in one that another test makes meanwhile the disk would stay mounted)
timeout 300 unshare --mount sh -ec '
    mount -o loop,errors=remount-ro "$2/image" "$2/disk" || {
        echo "disk_full: a loop device cannot be mounted here, so nothing was tried" >&2
        exit 1
    }
    exec python3 -B "$0" "$@"' "$here/tests/disk_full.py" "$program" "$work" "$seed" || {
    echo "disk_full: failed, with the seed $seed" >&2
    exit 1
}
