#!/bin/sh
# Measures the book as text, who follows a hall by it, and a standby that stays open.
#
# Text: a book of ROWS rows made by a script of weighings; `acts` of it beside `check`, which opens
# it and no more, and sqlite3 that prints as many lines of a table in a file. The ratio is the time
# of `acts` beyond `check` to that of sqlite3 (aim 1.0); and its memory, as bytes a row above that
# of `check` (aim 16). Best of three, in turn, each process whole, to a file.
#
# Follower: four lanes from files on a book in memory and on one in a file of the folder, alone and
# beside a client that asks each 100 ms for all that is new (`/acts/N`): rows a second until the
# last lane has ended, and the part that is lost (aim 3 %). Best of five, in turn.
#
# Standby: over the book of ROWS rows a hall weighs 140 packs a second on four lanes, and
# examples/standby.sh keeps a copy on the same machine, by a door of its own. For SECONDS, once the
# copy has caught up: the processor time of the standby with its `follow`, in percent of one
# processor (aim 2 %), and how long the copy lacks a row (aim 0.3 s at most).
#
# usage: bench/acts.sh FOLDER [ROWS [SECONDS [PART..]]]
#        PART is text, follower or standby, all without one; EVERY is the standby's pause
# needs: sqlite3
set -eu
here=$(dirname "$(readlink -f "$0")")/..
work=$(mktemp -d "$1/hall_acts.XXXXXX")
trap 'rm -rf "$work"' EXIT

# HALL names another program to try.
if [ -z "${HALL:-}" ]; then "$here/hall" run </dev/null >/dev/null; fi
program=${HALL:-$here/crates/hall_cli/out/hall_cli}

shift
[ $# -gt 0 ] || set -- 900000
[ $# -gt 1 ] || set -- "$1" 30
PYTHONPATH=$here/tests timeout 1800 \
    python3 -B "$here/bench/acts.py" "$program" "$work" "$@"
