#!/bin/sh
# How fast the archive follows, takes a book in, begins anew, prints its register and answers
# questions, over SQLite and over a PostgreSQL that it starts itself.
#
#   follow    a hall at work over a book of ROWS: how fast that is caught up with, what the follower
#             takes of a processor at 140 packs a second, how soon a pack stands in the archive, how
#             long until it follows again behind a kill, and the witness of such a book verified
#   sqlite, postgresql    a book of ROWS is taken in without a hall, its register printed, and
#             questions are asked over BOOKS of them
#
# usage: bench/archive.sh [ROWS [BOOKS [PART..]]]    900000, 30 and all parts if they aren't named;
#                                                    HALL names the program
# needs: root, 10 GB, and of Debian what tests/archive.sh needs. Done in 30 minutes on a machine
#        that does nothing else: where others take its processors, their seconds count.
set -eu
cd "$(dirname "$0")/.."
. tests/need.sh
need python3 python3-sqlalchemy python3-alembic python3-psycopg2 postgresql-15 iproute2 util-linux
rows=${1:-900000} books=${2:-30}
[ $# -lt 2 ] || shift
[ $# -eq 0 ] || shift
[ $# -gt 0 ] || set -- follow sqlite postgresql
room=$(mktemp -d)
chmod 755 "$room"
trap 'rm -rf "$room"' EXIT
for part; do
    mkdir -m 755 "$room/$part"
    case $part in
        follow)
            if [ -z "${HALL:-}" ]; then tools/build; fi
            hall=$(realpath "${HALL:-crates/hall_cli/out/hall_cli}")
            unshare --mount --net --pid --fork --kill-child --mount-proc timeout 3600 sh -c \
                'ip link set lo up; exec /usr/bin/python3 -B bench/archive_follow.py "$@"' \
                sh "$hall" "$room/$part" "$rows" ;;
        sqlite | postgresql)
            timeout 7200 /usr/bin/python3 -B bench/archive.py "$room/$part" "$rows" "$books" \
                "$part" ;;
        *) echo "archive.sh: no part is $part" >&2; exit 2 ;;
    esac
    rm -rf "${room:?}/$part"
done
