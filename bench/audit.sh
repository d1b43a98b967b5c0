#!/bin/sh
# Measures the audit of a book.
#
# A book of ROWS rows is made by a script of weighings, in memory where there is such a folder, so
# that it ends with a snapshot. `audit` of it is measured beside `check`, which reads the snapshot
# alone, and beside Python's SHA-256 over the bytes of its slots; and without its snapshot beside
# `check`, which then reads the slots. Best of three, in turn, each process whole. The greatest
# memory of `audit` stands beside that of `check`.
#
# usage: bench/audit.sh FOLDER [ROWS]
set -eu
here=$(dirname "$(readlink -f "$0")")/..
work=$(mktemp -d "$1/hall_audit.XXXXXX")
trap 'rm -rf "$work"' EXIT

# HALL names another program to try.
if [ -z "${HALL:-}" ]; then "$here/hall" run </dev/null >/dev/null; fi
program=${HALL:-$here/crates/hall_cli/out/hall_cli}

python3 -B "$here/bench/audit.py" "$program" "$work" "${2:-1000000}"
