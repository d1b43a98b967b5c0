#!/bin/sh
# Runs a command over a disk that is slow to sync, as those of plant machines are: an ext4 file
# system on a loop device over bench/slow_disk.py, where each flush of the disk's cache takes 5 ms.
# The time of a processor is small beside it. The word FOLDER stands for a folder there.
#
# usage, as root, for example:
#     bench/slow.sh bench/rows.sh FOLDER 400
#     PYTHONPATH=tests bench/slow.sh python3 -B bench/slow_lanes.py FOLDER 480 ./hall [BEFORE]
# needs: /dev/fuse, loop devices, ext4, Python 3.11
set -eu
here=$(dirname "$(readlink -f "$0")")
mebibytes=64
milliseconds=5
# what is mounted here nobody else sees or holds, and all of it goes with this, also where it is killed
if [ -z "${SLOW_ROOM:-}" ]; then
    SLOW_ROOM=$(mktemp -d)
    export SLOW_ROOM
    trap 'rm -rf "$SLOW_ROOM"' EXIT
    unshare --mount --pid --fork --kill-child --mount-proc "$0" "$@"
    exit
fi
work=$SLOW_ROOM

mkdir "$work/slow" "$work/disk"
python3 -B "$here/slow_disk.py" "$work/slow" $mebibytes $milliseconds &
tries=0
until [ -e "$work/slow/disk" ] || [ $tries -eq 120 ]; do
    tries=$((tries + 1))
    sleep 0.5
done
mkfs.ext4 -q -m 0 "$work/slow/disk"
mount -o loop "$work/slow/disk" "$work/disk"

# each FOLDER among the words becomes the folder
for word in "$@"; do
    shift
    if [ "$word" = FOLDER ]; then word=$work/disk; fi
    set -- "$@" "$word"
done
status=0
"$@" || status=$?
umount "$work/disk"
umount -l "$work/slow"
exit $status
