#!/bin/sh
# Measures deploy/backup.
#
# A book of ROWS rows is written by docs/FORMATS.md alone (tests/filled_book.py). `hall-backup` of
# it is measured while no hall runs over it, and while one serves it; then a second copy, where the
# book is compared with the copy before; and `--try-restore` of the newest. Best of TURNS each,
# beside `audit` of the book, and `cp` and `sync` of as many bytes in the folder of the copies. The
# greatest room in memory (MEMORY) that a copy takes is looked at every 20 ms.
#
# usage: bench/backup.sh FOLDER [ROWS [TURNS]]      FOLDER lies on a disk, as books and copies do
set -eu
here=$(dirname "$(readlink -f "$0")")/..
work=$(mktemp -d "$1/hall_backup.XXXXXX")
trap 'rm -rf "$work"' EXIT

# HALL names another program to try.
if [ -z "${HALL:-}" ]; then "$here/hall" run </dev/null >/dev/null; fi
program=$(realpath "${HALL:-$here/crates/hall_cli/out/hall_cli}")

python3 -B "$here/bench/backup.py" "$program" "$work" "${2:-900000}" "${3:-3}"
