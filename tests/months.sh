#!/bin/sh
# Books over months and halls: drawn books that follow each other by hall-next, which is killed in
# its midst; the day's desk; the archive follows each, over SQLite and over a PostgreSQL that this
# starts; every report beside an independent reckoning of `hall export`; CSV, spreadsheet and PDF; a
# month kept, held and spoiled. Three sites that deliver to one PostgreSQL over lines, one of them
# cut off for an hour, the database killed meanwhile; a second PostgreSQL answers the same reports.
#
# usage: tests/months.sh [BOOKS [SEED [PART..]]]   30 books and the parts sqlite, postgresql, halls
#        if they aren't named; HALL names the program; PICTURES, a folder, gets the PDFs
# needs: root, and of Debian what is named below; what is missing is installed. Done in 10 minutes,
#        at most 30; systemd's part is a stand-in (tests/months_control.py).
set -eu
cd "$(dirname "$0")/.."
. tests/need.sh
need python3 python3-sqlalchemy python3-alembic python3-psycopg2 postgresql-15 weasyprint \
    python3-openpyxl poppler-utils iproute2 util-linux
if [ -z "${HALL:-}" ]; then tools/build; fi
hall=$(realpath "${HALL:-crates/hall_cli/out/hall_cli}")
books=${1:-30} seed=${2:-$$}
[ $# -lt 1 ] || shift
[ $# -lt 1 ] || shift
room=$(mktemp -d)
chmod 755 "$room"
trap 'chmod -R u+w "$room"; rm -rf "$room"' EXIT
unshare --mount --net --pid --fork --kill-child --mount-proc timeout 1800 sh -c \
    'ip link set lo up; exec /usr/bin/python3 -B tests/months.py "$@"' \
    sh "$hall" "$room" "$books" "$seed" "$@"
