#!/bin/sh
# The archive over SQLite and over a PostgreSQL that this starts itself, beside a hall at work: four
# lanes, and desks of two persons behind the front that is shipped. Hours beside what the senders
# knew, persons and reasons; follower, hall and database killed in turn, the database restarted in
# mid-load, the disk full once; every row once, the register and sheets, the witness, pages; a book
# with a changed row, with one cut off, and an exchanged one.
#
# usage: tests/archive.sh [KILLS [SEED]]      50 kills without a number; HALL names the program
# needs: root, and of Debian what is named below; what is missing is installed. Done in 5 minutes,
#        at most 20; in mounts and a network of its own.
set -eu
cd "$(dirname "$0")/.."
. tests/need.sh
need python3 python3-sqlalchemy python3-alembic python3-fastapi python3-uvicorn python3-psycopg2 \
    postgresql-15 nginx libnginx-mod-http-js iproute2 openssl util-linux
if [ -z "${HALL:-}" ]; then tools/build; fi
hall=$(realpath "${HALL:-crates/hall_cli/out/hall_cli}")
room=$(mktemp -d)
chmod 755 "$room"
trap 'rm -rf --one-file-system "$room"; rmdir /etc/hall /usr/share/hall 2>/dev/null || true' EXIT
unshare --mount --net --pid --fork --kill-child --mount-proc \
    timeout 1200 /usr/bin/python3 -B tests/archive.py "$hall" "$room" "${1:-50}" "${2:-$$}"
