#!/bin/sh
# What stands at a line (adapters/), beside a running hall over a book on a disk: drawn streams of
# each checkweigher over pseudo-terminals and TCP, 20 packs a second, with cuts, repeats, garbled
# bytes and devices that begin anew in mid-pack; Modbus TCP and RTU against pymodbus' own server;
# halls that are killed; each page of docs/lines, whose commands and settings are tried as they stand;
# reject confirmation that stops the gate; how long it takes from a weight to the gate; and a real
# mosquitto and a real prometheus, which fires the rules of deploy/.
#
# Compared: the rows of a lane are packs that were sent, in their order, each at most once and with
# its own weight; how many are missing is how many were reported; the gate opened for the passed
# rows, in order, each while its pack was before it.
#
# usage: tests/adapters.sh [PACKS [SEED]]     packs of each device and way, 100 without it
#        HALL names the program
# needs: root, and of Debian: python3-pymodbus python3-serial python3-serial-asyncio
#        python3-paho-mqtt mosquitto prometheus gpiod gcc libc6-dev iproute2 util-linux; what is
#        missing is installed.
#        Done in 3 minutes, at most 40; in a network of its own.
set -eu
cd "$(dirname "$0")/.."
. tests/need.sh
need python3 python3-pymodbus python3-serial python3-serial-asyncio python3-paho-mqtt mosquitto \
    prometheus gpiod gcc libc6-dev iproute2 util-linux
if [ -z "${HALL:-}" ]; then tools/build; fi
hall=$(realpath "${HALL:-crates/hall_cli/out/hall_cli}")
packs=${1:-100}
seed=${2:-$(date +%s)}
room=$(mktemp -d)
trap 'rm -rf "$room"' EXIT
chmod 755 "$room"
unshare --net --pid --fork --kill-child --mount-proc sh -c '
    ip link set lo up && exec timeout 2400 /usr/bin/python3 -B tests/adapters.py "$@"' \
    adapters "$hall" "$room" "$packs" "$seed" ||
    { echo "adapters: seed $seed" >&2; exit 1; }
