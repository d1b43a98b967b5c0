#!/bin/sh
# How fast reports of a month, searches over all books and a PDF are, what 8 halls that deliver to
# one PostgreSQL take, and how long lanes stand for the next book.
#
#   sqlite, postgresql   a book of ROWS is taken in and summed, 22 books of 8 halls are made of it;
#                        reports by shift, day and product of 1 and of 8 halls, searches; a PDF
#   followers            8 sites at 140 rows a second each into one PostgreSQL
#   next                 a served book of ROWS, each batch closed, is followed by the next
#
# usage: bench/months.sh [ROWS [PART..]]     1000000 and all parts if they aren't named; HALL names
#                                            the program
# needs: root, 12 GB, and of Debian what tests/months.sh needs. Done in 20 minutes on a machine that
#        does nothing else.
set -eu
cd "$(dirname "$0")/.."
. tests/need.sh
need python3 python3-sqlalchemy python3-alembic python3-psycopg2 postgresql-15 weasyprint \
    python3-openpyxl iproute2 util-linux
rows=${1:-1000000}
[ $# -eq 0 ] || shift
[ $# -gt 0 ] || set -- sqlite postgresql followers next
if [ -z "${HALL:-}" ]; then tools/build; fi
hall=$(realpath "${HALL:-crates/hall_cli/out/hall_cli}")
for part; do
    room=$(mktemp -d)
    chmod 755 "$room"
    trap 'rm -rf "$room"' EXIT
    unshare --mount --net --pid --fork --kill-child --mount-proc timeout 3600 sh -c \
        'ip link set lo up; exec /usr/bin/python3 -B bench/months.py "$@"' sh "$hall" "$room" \
        "$rows" "$part"
    rm -rf "$room"
done
