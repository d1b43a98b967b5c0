#!/bin/sh
# The files of books as strangers leave them: what was meant for something else, what a crash leaves
# of a new book, links, folders, files that are replaced, moved or deleted under a hall, and what
# the commands that add nothing leave of a file; books whose slots differ from their snapshot, and
# what crashes leave of both; the greatest size of a file (`ulimit -f`); and nonblocking streams.
# Each with its output, its status and standard error.
#
# usage: tests/files.sh [FOLDER]     HALL names another program than the one that `./hall` builds
# needs: Python 3.11. Done in 30 seconds.
set -eu
here=$(dirname "$(readlink -f "$0")")/..
work=$(mktemp -d "${1:-/tmp}/hall_files.XXXXXX")
if [ -z "${HALL:-}" ]; then "$here/hall" run </dev/null >/dev/null; fi
program=${HALL:-$here/crates/hall_cli/out/hall_cli}

timeout 120 python3 -B "$here/tests/files.py" "$program" "$work" || {
    echo "files: see $work" >&2
    exit 1
}
rm -rf "$work"
