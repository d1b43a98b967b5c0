#!/bin/sh
# Measures the rows that the journal appends to a file, without the book above it: a program that
# answers each row, beside two bare loops of the same two writes and two data syncs a row, over
# zeros that were written before and in a file that each row makes longer. Rows a second, best of
# five, in turn. BEFORE names a clone of another state, whose journal is measured beside it.
#
# usage: bench/rows.sh FOLDER [ROWS]      2 000 rows if it isn't named
set -eu
here=$(dirname "$(readlink -f "$0")")
folder=$(mktemp -d "$1/hall_rows.XXXXXX")
programs=$(mktemp -d)
trap 'rm -rf "$folder" "$programs"' EXIT

. "$here/program.sh"
built() {
    work=$programs/crates
    mkdir "$work"
    build_program journal_rows book_journal book_snapshot disk_core file_disk hall_limits hall_units
    mv "$program" "$programs/journal-$1"
    rm -rf "$work"
}
built now
if [ -n "${BEFORE:-}" ]; then
    CRATES=$BEFORE/crates
    built before
fi
python3 -B "$here/added_rows.py" "$folder" "${2:-2000}" "$programs"/journal-*
