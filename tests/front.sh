#!/bin/sh
# The front as it is shipped (deploy/nginx.conf, site.conf, desks.js, person, site, hall.nft) before
# running `hall serve`s: who is let in, what is handed on, that slow and many clients take no door
# from the others, TLS and names in it, two halls at one front, and the walls around the ports.
#
# usage: tests/front.sh          HALL names the program
# needs: root, and of Debian: nginx libnginx-mod-http-js nftables iproute2 openssl util-linux curl;
#        what is missing is installed. Done in 2 minutes, at most 15; in mounts and a network of its
#        own.
set -eu
cd "$(dirname "$0")/.."
. tests/need.sh
need nginx libnginx-mod-http-js nftables iproute2 openssl util-linux python3 curl
if [ -z "${HALL:-}" ]; then tools/build; fi
hall=$(realpath "${HALL:-crates/hall_cli/out/hall_cli}")
room=$(mktemp -d)
trap 'rm -rf "$room"; rmdir /etc/hall /usr/share/hall 2>/dev/null || true' EXIT
chmod 755 "$room"
unshare --mount --net --pid --fork --kill-child --mount-proc \
    timeout 900 python3 tests/front.py "$hall" "$room"
