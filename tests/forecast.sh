#!/bin/sh
# The forecast of the board and the figures of sheet and measuring, by the pages' own modules under
# node, beside the program's verdicts and an independent reckoning, over drawn books of 20 batches
# each.
#
# usage: tests/forecast.sh [BATCHES [PAPERS [SEED]]]     1000, 200 and 70 without them
#        HALL names the program
# needs: nodejs, which is installed where it is missing. Done in 2 minutes, at most 60.
set -eu
cd "$(dirname "$0")/.."
. tests/need.sh
command -v node >/dev/null || need nodejs
if [ -z "${HALL:-}" ]; then tools/build; fi
hall=$(realpath "${HALL:-crates/hall_cli/out/hall_cli}")
# books are synced at each row: in memory, where there is room
room=$(mktemp -d -p /dev/shm 2>/dev/null || mktemp -d)
trap 'rm -rf "$room"' EXIT
# node takes the modules of the pages as such only beside this
echo '{"type":"module"}' >"$room/package.json"
cp www/*.js tests/forecast.mjs "$room"
timeout 3600 python3 tests/forecast.py "$hall" "$room" "${1:-1000}" "${2:-200}" "${3:-70}"
