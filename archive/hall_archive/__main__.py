"""`hall-archive`: the commands of the archive.

usage: hall-archive [--settings PATH] COMMAND

    migrate               brings the database to its newest form
    follow BOOK           follows a running book, for its service
    take BOOK             takes in a book at rest, behind what is there, and checks it whole
    register BOOK         prints the register, byte for byte as `hall export`
    sheet BOOK BATCH      prints the sheet of a batch, as `hall report --batch`
    story BOOK BATCH      prints the acts of a batch: when, who, what and why
    appendix BOOK BATCH   makes the appendix to the paper of a closed batch, sealed and stamped
    check BOOK            compares the register and each sheet with those of a book at rest
    verify BOOK           compares the witness with the book, line by line
    stamp BOOK            has the newest line of the witness stamped by an authority (RFC 3161)
    serve                 answers the pages, for its service
    read                  answers one question of standard input, for hall-archive-read
    openapi               prints the description of what `serve` answers
    sum BOOK              makes the sums of a book for reports anew from its rows
    report DAYS [BY]      prints a report by shift, day, week, month, product, lane, hall or book,
                          as `report 2026-12 shift --form pdf`; DAYS may be 2026-12-01..2026-12-07
    keep MONTH            keeps books, papers, sheets, witness and evidence of a month in a folder
    verify FOLDER         holds such a folder, without a database or settings

BOOK is a name of the settings, as 2026-12, or HALL/NAME where several halls have one of it.
Status 1: something differs; 2: the words or the settings are faulty; 3: the database, the program
`hall` or the authority didn't answer; 5: the book isn't the one that was followed so far."""

import argparse
import logging
import os
import sys
from collections.abc import Callable

from hall_archive import kept_folder, reading, settings
from hall_archive.settings import BadSettings, Settings
from hall_archive.taking import OtherBook, Unkept

Command = Callable[[Settings, str, str], int]
ByWords = Callable[[Settings, argparse.Namespace], int]
FAULTY, UNANSWERED, OTHER = 2, 3, 5


def words_of(arguments: list[str]) -> argparse.Namespace:
    parser = argparse.ArgumentParser(
        prog="hall-archive",
        description=__doc__,
        formatter_class=argparse.RawDescriptionHelpFormatter,
        usage=argparse.SUPPRESS,
    )
    parser.add_argument("--settings", default=settings.PATH)
    parser.add_argument("command", choices=COMMANDS)
    parser.add_argument("book", nargs="?", default="")
    parser.add_argument("batch", nargs="?", default="")
    parser.add_argument("--form", default="json", choices=("json", "csv", "pdf", "xlsx"))
    parser.add_argument("--into", default="")
    parser.add_argument("--language", default="en", choices=("en", "de"))
    parser.add_argument("--lane", type=int, default=0)
    for word in ("hall", "product", "name"):
        parser.add_argument(f"--{word}", default="")
    words = parser.parse_args(arguments)
    if words.command in OF_DAYS and words.book:
        return words
    wanted = 1 + (words.command in OF_A_BOOK) + (words.command in OF_A_BATCH)
    given = 1 + bool(words.book) + bool(words.batch)
    if wanted != given:
        parser.error(f"{words.command} takes {wanted - 1} words, not {given - 1}")
    return words


def read_one(found: Settings, _: str, __: str) -> int:
    reading.serve_one(found.program, found.books)
    return 0


def by_database(name: str) -> Command:
    """A command that needs the database, whose parts are loaded only then."""

    def run(found: Settings, book: str, batch: str) -> int:
        from hall_archive import commands

        command: Command = getattr(commands, name)
        return command(found, book, batch)

    return run


def appendix(found: Settings, book: str, batch: str) -> int:
    from hall_archive import gathering

    return gathering.write(found, book, batch)


def by_months(name: str) -> Command:
    """A command of reports and months, in the same way."""

    def run(found: Settings, book: str, batch: str) -> int:
        from hall_archive import month_commands

        command: Command = getattr(month_commands, name)
        return command(found, book, batch)

    return run


# Commands of days, which take all words.
OF_DAYS = ("report", "keep")
OF_A_BATCH = ("sheet", "story", "appendix")
OF_A_BOOK = ("follow", "take", "register", "check", "verify", "stamp", "sum", *OF_A_BATCH)
COMMANDS: dict[str, Command] = {
    "read": read_one,
    **{name: by_database(name) for name in ("migrate", "serve", "openapi", *OF_A_BOOK)},
    **{name: by_months(name) for name in ("sum", *OF_DAYS)},
    "appendix": appendix,
}


def verify_folder(folder: str) -> int:
    """Holds a month that was kept."""
    try:
        print(f"{folder}: {kept_folder.verify(folder)}")
    except kept_folder.Differs as fault:
        print(f"hall-archive: {folder}: {fault}", file=sys.stderr)
        return 1
    return 0


def main(arguments: list[str]) -> int:
    words = words_of(arguments)
    logging.basicConfig(level=logging.INFO, format="hall-archive: %(message)s", stream=sys.stderr)
    try:
        if words.command == "verify" and "/" in words.book and os.path.isdir(words.book):
            return verify_folder(words.book)
        found = settings.load(words.settings)
        if words.command in OF_DAYS:
            from hall_archive import month_commands

            by_words: ByWords = getattr(month_commands, words.command)
            return by_words(found, words)
        return COMMANDS[words.command](found, words.book, words.batch)
    except BadSettings as fault:
        print(f"hall-archive: {fault}", file=sys.stderr)
        return FAULTY
    except (reading.NotRead, Unkept) as fault:
        print(f"hall-archive: {fault}", file=sys.stderr)
        return UNANSWERED
    except OtherBook as fault:
        print(f"hall-archive: {fault}", file=sys.stderr)
        return OTHER


if __name__ == "__main__":
    sys.exit(main(sys.argv[1:]))
