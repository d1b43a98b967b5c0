#!/bin/sh
# Measures shipments and a standby that follows them.
#
# A book of ROWS rows is made by a script of weighings. `ship` of it to a pipe is measured beside
# `check` of the same book, which opens it and no more, and `cat` of as many bytes through the same
# pipe: the ratio is the time that `ship` takes beyond `check`, to that of `cat`. `check` is
# measured again while another process has the book locked, as a running hall does. Then `follow` of
# the first FOLLOWED rows into an empty copy in a file of the folder, beside a bare loop in Python
# that makes the same two writes and two data syncs a row there: the ratio is the rate of `follow`
# to that of the loop. And the greatest memory of `ship` and of `follow` beside that of `check` of
# the book and of the copy. Best of three, in turn, each process whole.
#
# usage: bench/standby.sh FOLDER [ROWS [FOLLOWED]]
set -eu
here=$(dirname "$(readlink -f "$0")")/..
work=$(mktemp -d "$1/hall_standby.XXXXXX")
trap 'rm -rf "$work"' EXIT

# HALL names another program to try.
if [ -z "${HALL:-}" ]; then "$here/hall" run </dev/null >/dev/null; fi
program=${HALL:-$here/crates/hall_cli/out/hall_cli}

python3 -B "$here/bench/standby.py" "$program" "$work" "${2:-1000000}" "${3:-100000}"
