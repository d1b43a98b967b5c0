#!/bin/sh
# The screen in a real browser over `hall serve`, the front as it is shipped, and headless Chromium:
#
#   day     a day of a hall by keys alone, from the day to a verdict with a second sample, with cut
#           links, a full disk, two desks and two pages: each act is a row of the book
#   signs   what the pages say: forecasts, alarms, their sound, lanes, settings, a full book, what
#           stores hold that isn't theirs
#   pages   each page at five sizes, light and dark, in both languages, with four lanes and long
#           names: no text cut or overlapping, contrast, labels and roles
#   boards  the same for boards of 1 and 16 lanes, all names of 32 letters, and of 6 and 10
#   sizes   bytes that each page loads, what the key Tab comes by, no layout shift as packs come
#   load    the board with 16 lanes at 20 packs a second each, an hour of it, 10 000 packs drawn
#   chart   a batch of 10 000 packs through the front: from the click to its chart, and to its
#           sheet, at most a second each; a chart that grows asks for what is new alone
#   changes a lane changes its batch by the page, the desk and a typed scan, and is refused one
#   evidence  evidence is entered, stands on a sheet, and is an alarm when it is overdue; it needs
#           what tests/archive.sh needs
#   reports   reports and search over an archive of some days, and batches of old books: what
#             `pages` looks for; it needs what tests/archive.sh needs
#   pictures  those of README and OPERATING, small; only where it is asked for, as
#           tests/screen.sh docs pictures; it needs imagemagick
#
# usage: tests/screen.sh [PICTURES [PART..]]    HALL names the program; screenshots are left in
#                                               PICTURES; without a PART all are done
# needs: root, and of Debian: nginx libnginx-mod-http-js chromium chromium-driver python3-selenium
#        poppler-utils iproute2 openssl util-linux curl; what is missing is installed. A part is
#        done in 5 minutes, at most 30; each in mounts and a network of its own.
set -eu
cd "$(dirname "$0")/.."
. tests/need.sh
need nginx libnginx-mod-http-js chromium chromium-driver python3-selenium poppler-utils iproute2 \
    openssl util-linux python3 fonts-dejavu-core curl
if [ -z "${HALL:-}" ]; then tools/build; fi
hall=$(realpath "${HALL:-crates/hall_cli/out/hall_cli}")
room=$(mktemp -d)
trap 'rm -rf "$room"; rmdir /etc/hall /usr/share/hall 2>/dev/null || true' EXIT
pictures=$room/pictures
if [ $# -gt 0 ]; then
    pictures=$1
    shift
fi
mkdir -p "$pictures"
pictures=$(realpath "$pictures")
chmod 755 "$room"
[ $# -gt 0 ] || set -- day signs pages boards sizes load chart changes evidence reports
for part; do
    if [ "$part" = evidence ] || [ "$part" = reports ]; then
        need python3-sqlalchemy python3-alembic python3-fastapi python3-uvicorn
    fi
    mkdir "$room/$part"
    # the Python for which Debian's selenium is
    unshare --mount --net --pid --fork --kill-child --mount-proc timeout 1800 \
        /usr/bin/python3 tests/screen.py "$part" "$hall" "$room/$part" "$pictures"
done
