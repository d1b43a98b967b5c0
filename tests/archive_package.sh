#!/bin/sh
# The package of the archive: made, looked over by lintian, and installed into a booted Debian
# beside the package of the hall, where the commands of docs/OPERATING.md are run as they stand. A
# first day is followed there behind the front; services begin, are killed, stopped, and there again
# after the machine's start; a stamp by the timer's service; what each may not do; systemd's
# judgement of each. hall-next hands all of it over to two more books, is killed and run again; a
# second machine by ssh stands by.
#
# usage: tests/archive_package.sh        HALL names the program
# needs: root, and of Debian: lintian debootstrap binutils systemd-container mandoc; what is missing
#        is installed, and debootstrap fetches a small Debian. Done in 10 minutes, at most 60.
set -eu
cd "$(dirname "$0")/.."
. tests/need.sh
need lintian debootstrap binutils systemd systemd-container mandoc util-linux python3
if [ -z "${HALL:-}" ]; then tools/build; fi
HALL=$(realpath "${HALL:-crates/hall_cli/out/hall_cli}")
export HALL
room=$(mktemp -d)
debian=$room/debian
trap 'rm -rf --one-file-system "$room"' EXIT

fail() {
    echo "archive_package: $*" >&2
    exit 1
}

package=$(tools/package-archive "$room" 2>"$room/log") || { cat "$room/log" >&2; fail "not made"; }
# (a helper of Debian knows no instances of a unit)
lintian --allow-root --suppress-tags maintainer-script-calls-systemctl --fail-on error,warning \
    "$package" || fail "lintian has a word on it"
cp "$package" "$room/first.deb"
tools/package-archive "$room" >/dev/null 2>&1
cmp -s "$package" "$room/first.deb" || fail "made twice, the package differs"
mandoc -T lint -W warning deploy/archive/*.8 | grep -v 'referenced manual not found' &&
    fail "the man page isn't well made"
hall=$(tools/package "$room" 2>"$room/log") || { cat "$room/log" >&2; fail "no hall's package"; }
echo "archive_package: $(basename "$package"), $(wc -c <"$package") bytes; lintian has no word"

# ---- a Debian with what the commands there fetch
timeout 2400 debootstrap --variant=minbase --include=systemd-sysv,libgcc-s1,curl,python3 bookworm \
    "$debian" >"$room/log" 2>&1 || { tail "$room/log" >&2; fail "no Debian was made"; }
inside() { chroot "$debian" env -i PATH=/usr/sbin:/usr/bin:/sbin:/bin HOME=/root "$@"; }
cp /etc/resolv.conf "$debian/etc/resolv.conf"
inside sh -c 'apt-get update && apt-get install -y --no-install-recommends --download-only nginx \
    libnginx-mod-http-js nftables adduser openssl python3-sqlalchemy python3-alembic \
    python3-fastapi python3-uvicorn openssh-server openssh-client' >"$room/log" 2>&1 ||
    { tail "$room/log" >&2; fail "nothing is fetched"; }
echo 'APT::Install-Recommends "false";' >"$debian/etc/apt/apt.conf.d/50recommends"
cp "$package" "$hall" "$debian/root/"
cp tests/archive_stamps.py tests/clients.py "$debian/root/"

timeout 2400 python3 tests/archive_installed.py "$debian"
