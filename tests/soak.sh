#!/bin/sh
# Hours of use: `hall run` and `hall serve` in turn over one book, up to so many rows or for so
# long, an hour unless said otherwise. Most rounds are killed at a drawn moment, one in five goes on
# to its end. A round of `run` is a script of a batch; one of `serve` has three lanes over named
# pipes and two doors with a desk each (tests/rounds.py).
#
# After each round `check` has to find the book whole, with the rows that stood before byte by byte,
# each acknowledged row once where it was told, and at most the one row more that a caller hadn't
# heard of. At the end the register has each weighing. Where the rows are full, lanes and desks are
# refused for that and nothing else, and the book stays as it is.
#
# usage: tests/soak.sh [FOLDER [SECONDS [ROWS [SEED]]]]    the book lies in a folder below it
set -eu
here=$(dirname "$(readlink -f "$0")")/..
seconds=${2:-3600}
rows=${3:-1000000}
seed=${4:-$(date +%s)}
work=$(mktemp -d "${1:-/tmp}/hall_soak.XXXXXX")

# HALL names another program to try.
if [ -z "${HALL:-}" ]; then "$here/hall" run </dev/null >/dev/null; fi
program=${HALL:-$here/crates/hall_cli/out/hall_cli}

PYTHONPATH=$here/tests timeout $((seconds + 600)) \
    python3 -B "$here/tests/soak.py" "$program" "$work" "$seconds" "$rows" "$seed" || {
    echo "soak: failed, with the seed $seed; see $work" >&2
    exit 1
}
rm -rf "$work"
