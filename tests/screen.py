"""The screen in a real browser, a part at a time: tests/screen.sh calls it for each.

usage: screen.py PART PROGRAM ROOM PICTURES      in a room of its own (front_room.py)
"""

import sys

from front_room import mount_room
from screen_changes import run_changes
from screen_chart import run_chart
from screen_day import run_day
from screen_evidence import run_evidence
from screen_load import run_load
from screen_pages import run_boards, run_pages
from screen_pictures import run_pictures
from screen_reports import run_reports
from screen_signs import run_signs
from screen_sizes import run_sizes

PARTS = {
    "day": run_day,
    "signs": run_signs,
    "pages": run_pages,
    "boards": run_boards,
    "sizes": run_sizes,
    "load": run_load,
    "chart": run_chart,
    "changes": run_changes,
    "evidence": run_evidence,
    "reports": run_reports,
    "pictures": run_pictures,
}


def main() -> None:
    part, program, room, pictures = sys.argv[1:]
    mount_room()
    PARTS[part](program, room, pictures)


if __name__ == "__main__":
    main()
