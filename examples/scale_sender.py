#!/usr/bin/env python3
"""Sends the weights of a scale to a lane of `hall .. --remote P`, each until it is acknowledged:
`hall-adapter send`, under the name that settings and scripts have.

usage: scale_sender.py PORT [--host H] [--first N] [--seconds S]
                            [--book URL --lane L [--login FILE]] < WEIGHTS

On another machine it needs the folder hall_adapter beside it (/usr/lib/hall/hall_adapter), and
python3 alone. `hall_adapter/send.py` says what it does, and what its status means."""

import os
import sys

sys.dont_write_bytecode = True
HERE = os.path.dirname(os.path.realpath(__file__))
# beside this, in the repository, and where the package of Debian is installed
PLACES = (HERE, os.path.join(os.path.dirname(HERE), "adapters"), "/usr/lib/hall")
sys.path[:0] = [place for place in PLACES if os.path.isdir(os.path.join(place, "hall_adapter"))]

from hall_adapter import send  # noqa: E402

if __name__ == "__main__":
    sys.exit(send.main())
