"""What stands at a line, beside a running hall. Run by tests/adapters.sh, which has what is shown.

    adapters.py HALL FOLDER PACKS SEED [CHECK..]     the checks by their names, all without one
"""

import os
import sys

ADAPTERS = os.path.join(os.path.dirname(os.path.dirname(os.path.abspath(__file__))), "adapters")
sys.path[:0] = [ADAPTERS, os.path.join(ADAPTERS, "tests")]

from adapter_modbus import check_modbus
from adapter_pages import check_pages
from adapter_reject import check_escaped, check_wrong
from adapter_room import Room, say
from adapter_rules import check_rules
from adapter_streams import check_streams
from adapter_watch import check_watched
from adapter_ways import check_again, check_kills, check_recorded, check_times


def streams(program, folder, packs, seed):
    for kind in ("serial", "tcp", "listen"):
        sent, lost, faults = check_streams(Room(program, f"{folder}/{kind}", 5), kind, packs, seed)
        drawn = ", ".join(f"{name} {count}" for name, count in sorted(faults.items()))
        say(
            f"{kind}: {sent} packs of 5 devices ({drawn}); {sent - lost} in the book, {lost} lost"
            " and reported"
        )


CHECKS = {
    "streams": streams,
    "modbus": check_modbus,
    "kills": check_kills,
    "again": check_again,
    "recorded": check_recorded,
    "pages": check_pages,
    "wrong": check_wrong,
    "escaped": check_escaped,
    "rules": check_rules,
    "watched": check_watched,
    "times": check_times,
}


def main():
    program, folder, packs, seed, *names = sys.argv[1:]
    for name in names or CHECKS:
        CHECKS[name](program, folder, int(packs), seed)


main()
