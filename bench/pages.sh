#!/bin/sh
# Measures how long a page takes the lock of a running hall: 128 acts, and 128 packs of a batch, at a
# door over one connection, drawn places of a book of ROWS rows in memory; beside a pack, a sheet and
# the summary.
#
# Linux itself takes the times: a probe at the entry and at the return of the one call that takes the
# lock, does its work and leaves it (`shared_book::pass::PassCaller::ask`). Nobody else has the lock,
# so nothing is waited for; the two probes' own time, a microsecond or two, is in the figure. Beside
# it stands the time of a request from outside, with the page's text and its way.
#
# It ends with status 1 where half of the pages take longer than 50 us (issue 65's aim), a Close's
# verdict aside: the book here has none.
#
# usage, as root: bench/pages.sh [ROWS [PAGES]]       100 000 rows and 2 000 pages without them
#        HALL names the program, which has its symbols
# needs: tracefs with uprobes, binutils
set -eu
here=$(dirname "$(readlink -f "$0")")/..
if [ -z "${HALL:-}" ]; then "$here/tools/build"; fi
program=$(readlink -f "${HALL:-$here/crates/hall_cli/out/hall_cli}")
work=$(mktemp -d /dev/shm/hall_pages.XXXXXX)
mkdir "$work/trace"
mount -t tracefs none "$work/trace"
trap 'umount "$work/trace"; rm -rf "$work"' EXIT
PYTHONPATH=$here/tests timeout 900 \
    python3 -B "$here/bench/pages.py" "$program" "$work" "${1:-100000}" "${2:-2000}"
