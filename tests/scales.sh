#!/bin/sh
# What turns static scales' lines into weights (`hall-adapter weights`), and `open N` into a command
# (examples/scales), tried over pseudo-terminals and pipes; and a lane of a running hall that such a
# scale feeds. tests/adapters.sh has the checkweighers.
#
# usage: tests/scales.sh      HALL names the program
# needs: Python 3.11. Done in 20 seconds, at most 10 minutes.
set -eu
cd "$(dirname "$0")/.."
if [ -z "${HALL:-}" ]; then tools/build; fi
room=$(mktemp -d)
trap 'rm -rf "$room"' EXIT
timeout 600 python3 tests/scales.py "${HALL:-crates/hall_cli/out/hall_cli}" "$room"
