#!/bin/sh
# Opens a gate: for each line `open N` of a lane's gate a command is called, with N in PACK.
#
# usage: gate.sh COMMAND [WORD..] < GATE      as: gate.sh gpioset -m time -u 50000 gpiochip0 17=1
#
# A command that fails is told on standard error, and the next line is taken: the hall counts a pack
# as gone once its line is written, so see to the gate, and void the pack at a desk if it is still
# there. A line of any other form ends it with status 3.
set -u
if [ $# -eq 0 ]; then
    echo "usage: gate.sh COMMAND [WORD..] < GATE" >&2
    exit 2
fi
while read -r line; do
    PACK=${line#open }
    case $line:$PACK in
        "open :" | *:*[!0-9]* | "$line:$line")
            echo "gate: not a line of a gate: $line" >&2
            exit 3 ;;
    esac
    export PACK
    "$@" </dev/null || echo "gate: pack $PACK: the command failed with status $?" >&2
done
