"""hall-adapter: the commands for what stands at a line.

usage: hall-adapter COMMAND ..

  devices                            the tables of devices, and which published form each follows
  weights DEVICE [--unit U]          a device's lines to weights a line, from standard input
  check MAP FILE                     what a recorded stream would give, for who commissions a line
  record MAP                         takes a device's bytes or registers down, for `check`
  send PORT [--book URL ..]          sends weights to a lane's port, each until it is acknowledged
  line SETTINGS                      joins a line to a lane of a hall, as a service
  lane SETTINGS                      joins scale, scanner and pages to a lane that changes its batch
  metrics SETTINGS                   hands out the numbers of a hall for Prometheus, as a service
"""

import argparse
import os
import sys

from hall_adapter.devices import UNITS, load, names
from hall_adapter.send_words import add_words
from hall_adapter.tables import BadTable


def devices() -> int:
    """Prints the tables of devices."""
    for name in names():
        device = load(name)
        print(f"{name:10} {device.name}: {' '.join(device.follows.split())}")
    return 0


def parser() -> argparse.ArgumentParser:
    """The words of the command line."""
    words = argparse.ArgumentParser(
        prog="hall-adapter",
        description=(__doc__ or "").split("\n", maxsplit=1)[0],
        epilog="docs/LINES.md says how a line is commissioned.",
    )
    commands = words.add_subparsers(dest="command", required=True)
    commands.add_parser("devices", help="the tables of devices")
    lines = commands.add_parser("weights", help="a device's lines to weights a line")
    lines.add_argument("device")
    lines.add_argument("--unit", choices=list(UNITS))
    tried = commands.add_parser("check", help="what a recorded stream would give")
    tried.add_argument("map")
    tried.add_argument("file")
    recorded = commands.add_parser("record", help="takes a device down, for `check`")
    recorded.add_argument("map")
    add_words(commands.add_parser("send", help="sends weights to a lane's port"))
    joined = commands.add_parser("line", help="joins a line to a lane of a hall")
    joined.add_argument("settings")
    changed = commands.add_parser("lane", help="joins scale, scanner and pages to a lane")
    changed.add_argument("settings")
    watched = commands.add_parser("metrics", help="hands out the numbers of a hall for Prometheus")
    watched.add_argument("settings")
    return words


def run(given: argparse.Namespace) -> int:
    """Runs a command. What it needs is loaded for it alone, so that a filter starts at once."""
    match given.command:
        case "devices":
            return devices()
        case "weights":
            from hall_adapter import weights

            return weights.run(given.device, given.unit)
        case "check":
            from hall_adapter import check

            return check.run(given.map, given.file)
        case "record":
            from hall_adapter import record

            return record.run(given.map)
        case "send":
            from hall_adapter import send

            return send.run(given)
        case "lane":
            from hall_adapter import lane

            return lane.run(given.settings)
        case "metrics":
            from hall_adapter import watch

            return watch.run(given.settings)
        case _:
            from hall_adapter import line

            return line.run(given.settings)


def main(words: list[str]) -> int:
    """Runs the command that the words name. Status 2: the words, a table or a file are faulty."""
    try:
        return run(parser().parse_args(words))
    except BadTable as bad:
        print(f"hall-adapter: {bad}", file=sys.stderr)
    except BrokenPipeError:
        # who read what was printed has seen enough
        os.dup2(os.open(os.devnull, os.O_WRONLY), sys.stdout.fileno())
        return 1
    except OSError as error:
        print(f"hall-adapter: {error.filename}: {error.strerror}", file=sys.stderr)
    return 2


if __name__ == "__main__":
    sys.exit(main(sys.argv[1:]))
