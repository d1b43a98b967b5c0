#!/bin/sh
# Joins a scale to a lane of a running hall, and does so again when either was away.
#
# usage: lane.sh DEVICE TABLE CELL        as: lane.sh /dev/ttyUSB0 sics /run/hall-main/cell-1.txt
#
# TABLE names the table by which `hall-adapter weights` reads the scale's lines (`hall-adapter
# devices` has them all). It waits until the hall reads from the lane's pipe, and then keeps the
# pipe open: a lane whose pipe ends is done until the hall starts again. Weights that come while no
# hall reads are dropped. ADAPTER names another hall-adapter. Status 2: TABLE is none.
set -u
here=$(dirname "$0")
device=$1 table=$2 cell=$3
adapter=${ADAPTER:-$here/../../adapters/hall-adapter}
[ -x "$adapter" ] || adapter=hall-adapter
# a table that is none mustn't end the lane
said=$("$adapter" weights "$table" </dev/null 2>&1) || { echo "$said" >&2; exit 2; }
# a scale that is pulled out hangs up
trap '' PIPE HUP
while :; do
    exec 3>"$cell" || exit 1
    while [ -e "$device" ] || sleep 1; do
        if [ -e "$device" ]; then
            "$adapter" weights "$table" <"$device" >&3 || break
            sleep 1
        fi
    done
    exec 3>&-
    sleep 1
done
