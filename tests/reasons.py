#!/usr/bin/env python3
"""What the program says on standard error, for people, beside what it prints and its status, which
stay as docs/FORMATS.md has them: of bad lines and plans; of a setup's refusals; of a disk that
fails and of a file that can't be written; and at a terminal, of what else people should know.

usage: tests/reasons.py      (HALL names another program than the one that `./hall` builds)
"""

import os
import pty
import resource
import shutil
import signal
import subprocess
import sys
import tempfile

import lane_reasons

HERE = os.path.dirname(os.path.realpath(__file__))
LONG = b"#" * 201 + b"\n"
HEADER = b"desk,request,command\n"

# words, input, the last line that is printed, and what is said on standard error behind `hall: `
ROWS = [
    (["run"], b"day 2025-03-03\nweihg 1 250\n", "bad line 2",
     "bad line 2, weihg 1 250: no such command: weihg"),
    (["run"], b"day 2025-03-03\nproduct rice250 250,5\n", "bad line 2",
     "bad line 2, product rice250 250,5: a point, not a comma, in 250,5"),
    (["run"], b"\xef\xbb\xbfday 2025-03-03\n", "bad line 1",
     "bad line 1, \\xef\\xbb\\xbfday 2025-03-03: a byte order mark: save the text without it"),
    (["run"], b"\n" + LONG, "bad line 2",
     "bad line 2, " + "#" * 200 + ": more than 200 bytes"),
    (["run"], b"day 2025-02-30\n", "bad line 1",
     "bad line 1, day 2025-02-30: no such day: 2025-02-30"),
    (["run"], b"weigh 1 -5\n", "bad line 1", "bad line 1, weigh 1 -5: a sign in -5"),
    (["run"], b"weigh 1 262.1234\n", "bad line 1",
     "bad line 1, weigh 1 262.1234: more than three decimals in 262.1234"),
    (["run"], b"weigh 1 262g\n", "bad line 1", "bad line 1, weigh 1 262g: a unit in 262g"),
    (["run"], b"@65536 1 day 2025-03-03\n", "bad line 1",
     "bad line 1, @65536 1 day 2025-03-03: a desk is 0 to 65535, not 65536"),
    (["run"], b"@101 4294967296 day 9999-12-31\n", "bad line 1",
     "bad line 1, @101 4294967296 day 9999-12-31: a request is 0 to 4294967295, not 4294967296"),
    (["run"], b"@101 day 2025-03-03\n", "bad line 1",
     "bad line 1, @101 day 2025-03-03: the request number is missing before day"),
    (["run"], b"void 4294967296\n", "bad line 1",
     "bad line 1, void 4294967296: a pack is 1 to 4294967295, not 4294967296"),
    (["run"], b"open " + b"A" * 33 + b" rice250\n", "bad line 1",
     f"bad line 1, open {'A' * 33} rice250: more than 32 bytes in the name {'A' * 33}"),
    (["run"], b"day 3.3.2025\r\n", "bad line 1",
     "bad line 1, day 3.3.2025\\x0d: not as day DATE (2025-03-03)"),
    (["run"], b"day 2025-03-03\nday", "bad line 2",
     "bad line 2, day: not as day DATE (2025-03-03)"),
    (["run"], b"@101 1 summary\n", "bad line 1",
     "bad line 1, @101 1 summary: no act that a desk sends: summary"),
    (["run"], b"work 1 A\n", "bad line 1",
     "bad line 1, work 1 A: not as work LANE BATCH, of a lane that the hall has (--lanes)"),
    (["run"], b"\x1b[2J\n", "bad line 1",
     "bad line 1, \\x1b[2J: a character that no command has"),
    (["run"], b"# a comment\n" * 60_000 + b"viod 6\n" + b"void 6\n" * 60_000, "bad line 60001",
     "bad line 60001, viod 6: no such command: viod"),
    (["import"], b"desk;request;command\n", "bad line 1",
     "bad line 1, desk;request;command: the table begins with desk,request,command"),
    (["import"], HEADER + b"\n101,1,day 2025-03-03\r\n101;2;open A rice250\n", "bad line 3",
     "bad line 3, 101;2;open A rice250: commas, not semicolons, part the fields"),
    (["import"], HEADER + b"101,1,\"product rice 250,5\"\n", "bad line 2",
     "bad line 2, 101,1,\"product rice 250,5\": a point, not a comma, in 250,5"),
    (["import"], HEADER + b"101,1,sheet A\n", "bad line 2",
     "bad line 2, 101,1,sheet A: no act that a desk sends: sheet"),
    (["import"], HEADER + b"101,1\n", "bad line 2",
     "bad line 2, 101,1: three fields are wanted: desk,request,command"),
    (["serve"], b"reserve = 10\nlane = 1\n", "bad plan",
     "bad plan: lane isn't an array of tables: [[lane]]"),
    (["serve"], b"reserve = 1000001\n", "bad plan",
     "bad plan: reserve isn't a number from 0 to 1000000"),
    (["serve"], b"setup = 1\n", "bad plan", "bad plan: setup isn't a text"),
    (["serve"], b"[[lane]]\nnumber = 17\nbatch = \"A\"\n", "bad plan",
     "bad plan: [[lane]] 1: its number isn't 1 to 16"),
    (["serve"], b"[[lane]]\nnumber = 1\n", "bad plan",
     "bad plan: [[lane]] 1: it has no batch, nor changes = true"),
    (["serve"], b"[[lane]]\nnumber = 1\nchanges = false\n", "bad plan",
     "bad plan: [[lane]] 1: its changes isn't true"),
    (["serve"], b"[[lane]]\nnumber = 1\nbatch = \"A\"\nchanges = true\n", "bad plan",
     "bad plan: [[lane]] 1: it has both batch and changes"),
    (["serve"], b"[[lane]]\nnumber = 1\nbatch = \"A\"\n" * 2, "bad plan",
     "bad plan: [[lane]] 2: its number was there before"),
    (["serve", "--lanes=2"], b"[[lane]]\nnumber = 1\nbatch = \"A\"\n", "bad plan",
     "plan has 1 lane, --lanes 2"),
    (["serve", "--lanes=1"], b"", "bad plan", "plan has 0 lanes, --lanes 1"),
    (["serve"], b"#" * 65_537, "bad plan", "bad plan: it has more than 65536 bytes"),
    (["serve"], b"reserve = \xff\n", "bad plan", "bad plan: it isn't a text in UTF-8"),
    (["serve"], b'setup = """\n@164 1 day 2025-03-03\n@164 2 dya 2025-03-04\n"""\n', "bad line 2",
     "bad line 2, @164 2 dya 2025-03-04: no such command: dya"),
    (["prove"], b"paper 1\nbatch B\n", "bad line 2",
     "bad line 2, batch B: not as batch B product P nominal G unit U density G row N, or not the"
     " second line"),
    (["prove"], b"paper 1\n", "bad line 2", "bad line 2, : the paper ends here, or has an empty"
     " line"),
    (["prove"], b"paper 1", "bad line 1", "bad line 1, paper 1: it has no LF"),
    (["prove"], b"papier 1\n", "bad line 1",
     "bad line 1, papier 1: no line of a paper begins so"),
    (["follow"], b"x\n", "bad line 0",
     "bad line 0: shipment 1: it is cut: 2 bytes of its head came, of 16"),
    (["run"], b"day 2025-03-03\n", "batches running 0 ended 0 drawn 0 closed 0", None),
]

# words, input, and what the reason of a text that TOML doesn't read begins with
TOML = [
    (["serve"], b"reserve = 10\n\nlane = {\n", "bad plan: its line "),
    (["serve"], b"reserve = 10\nreserve = 11\n", "bad plan: its line 2 isn't TOML: "),
]



def plan(*lines):
    """A plan without lanes, of a setup of these lines."""
    return ('setup = """\n' + "".join(f"{line}\n" for line in lines) + '"""\n').encode()


DAY, PRODUCT = "@164 1 day 2025-03-03", "@164 2 product rice250 250"
TARE, OPEN = "@164 3 tare rice250 2025-03-03 10", "@164 4 open A rice250"
WRONG_TARE, ONE_DAY = TARE.replace("rice250", "rice"), b"day 2025-03-03\n"
NO_BOOK = "without --book the rows are in memory alone, and gone at the end"
EMPTY = "without --book this is of an empty book"
MADE = "BOOK: there was no book, a new one was made"
ABSENT = "can't open BOOK: No such file or directory (os error 2)"
IS_FULL = "a full book takes no act, not even a verdict"


def serving(rows, limit=1_000_000):
    """What a hall without lanes and doors says as it begins to serve."""
    return f"serving, lanes 0, doors 0, rows {rows}, left {limit - rows}"


# Over one book after another: what is done in turn, each as words, an input, and all that is said.
# SETUPS have standard error in a file, TERMINALS in a terminal; BOOK is the path of the book.
SETUPS = [
    [(["serve", "BOOK"], plan(DAY, PRODUCT, WRONG_TARE, OPEN),
      [f"line 3 of the setup, {WRONG_TARE}: refused 9 ProductUnknown at 2: no product has this"
       " name", f"line 4 of the setup, {OPEN}: refused 4 RequestGap 2 at 2: the desk's next request"
       " has another number: a line before was refused, or one is left out", serving(2)]),
     (["serve", "BOOK"], plan(DAY, PRODUCT, TARE, OPEN), [serving(4)]),
     (["serve", "BOOK"], plan(DAY, PRODUCT, TARE, OPEN), [serving(4)]),
     (["serve", "BOOK"], plan(DAY, PRODUCT, TARE, "@164 4 open B rice250"),
      ["line 4 of the setup, @164 4 open B rice250: refused 3 RequestReused 4 at 4: the desk did"
       " another act under this number: give the line a new one", serving(4)])],
    [(["serve"], plan("", "# none", "@164 1 close A", "sheet A"),
      ["line 3 of the setup, @164 1 close A: refused 6 DayUnset at 0: a day has to be set first",
       "line 4 of the setup, sheet A: refused 14 BatchUnknown at 0: no batch has this name",
       serving(0)])],
    [(["serve"], plan("day 2025-03-03", "day 2025-03-02", "dya 2025-03-04"),
      ["line 1 of the setup has no desk, and acts at each start (@164 1 ..)",
       "line 2 of the setup, day 2025-03-02: refused 7 DayBack 2025-03-03 at 1: the book is at a"
       " later day", "bad line 3, dya 2025-03-04: no such command: dya"])],
    [(["run"], b"close A\n", []), (["run", "BOOK"], ONE_DAY, []),
     (["run", "--limit=200"], ONE_DAY * 199 + b"day 2052-03-04\n", [])],
    [(["serve", "BOOK", "--limit=200"], plan(*["day 2025-03-03"] * 201),
      ["line 1 of the setup has no desk, and acts at each start (@164 1 ..)",
       f"2 rows are left of 200: {IS_FULL}",
       "the book is full: it takes no act, not even a verdict",
       "line 201 of the setup, day 2025-03-03: refused 5 BookFull 200 at 200: the book is full",
       serving(200, 200)])],
    [(["run"], b"", []), (["check"], b"", [EMPTY]), (["check", "BOOK"], b"", [ABSENT])],
]
TERMINALS = [
    [(["run"], ONE_DAY, [NO_BOOK]), (["serve"], plan(), [NO_BOOK, serving(0)]),
     (["import"], HEADER, [NO_BOOK]), (["trial", "0", "100"], b"", []), (["check"], b"", [EMPTY]),
     (["list"], b"", [EMPTY])],
    [(["run", "BOOK"], ONE_DAY, [MADE]), (["run", "BOOK"], b"day 2025-04-03\n", []),
     (["run", "BOOK"], b"day 2025-04-02\nday 2025-05-05\n@101 1 day 2026-05-05\n",
      ["row 3: the day is 32 days ahead of the one before, and it stands",
       "row 4: the day is 365 days ahead of the one before, and it stands"]),
     (["run", "BOOK"], b"summary\n", []), (["report", "BOOK"], b"", [])],
    [(["serve", "BOOK"], plan(DAY, "@164 2 day 2052-03-04"),
      [MADE, serving(2), "row 2: the day is 9863 days ahead of the one before, and it stands"])],
    [(["run", "BOOK", "--limit=200"], ONE_DAY * 197, [MADE]),
     (["run", "BOOK", "--limit=200"], ONE_DAY, [f"2 rows are left of 200: {IS_FULL}"]),
     (["run", "BOOK", "--limit=200"], ONE_DAY * 9, [f"0 rows are left of 200: {IS_FULL}"]),
     (["run", "BOOK", "--limit=198"], ONE_DAY, [f"0 rows are left of 198: {IS_FULL}"]),
     (["report", "BOOK"], b"", []), (["run", "BOOK"], ONE_DAY, [])],
    [(["run", "BOOK", "--limit=50010"], ONE_DAY * 9, [MADE]),
     (["run", "BOOK", "--limit=50010"], ONE_DAY * 2, [f"49999 rows are left of 50010: {IS_FULL}"]),
     (["run", "BOOK", "--limit=50010"], ONE_DAY, [])],
    [(["check", "BOOK"], b"", [ABSENT])],
]
# What is done to a file that can't be written, or with no room for its bytes, and what is said.
UNWRITABLE = [(words, ["BOOK: it can't be written; it was read as it stands"])
              for words in ("check", "report", "export", "list", "ship", "audit")]
FULL = "the book's disk failed: File too large (os error 27)"


def run(program, words, given, error=subprocess.PIPE, before=None):
    """A run, as what it printed, what it said, and its status."""
    return subprocess.run([program, *words], input=given, timeout=60, stdout=subprocess.PIPE,
                          stderr=error, preexec_fn=before, check=False)


def heard(text, book):
    """The lines of standard error, without what each begins with."""
    lines = text.decode().replace("\r", "").replace(book, "BOOK").splitlines()
    return [line.removeprefix("hall: ") for line in lines]


def at_terminal(program, words, given):
    """What a run says at a terminal."""
    ours, theirs = pty.openpty()
    run(program, words, given, error=theirs)
    os.close(theirs)
    text = b""
    try:
        while piece := os.read(ours, 65536):
            text += piece
    except OSError:     # the end of a terminal that nobody else has
        pass
    os.close(ours)
    return text


def in_turn(program, folder, steps, terminal):
    """The steps over a book of which something else is said than is wanted."""
    book = f"{folder}/book"
    for words, given, wanted in steps:
        named = [f"--book={book}" if word == "BOOK" else word for word in words]
        text = at_terminal(program, named, given) if terminal else run(program, named, given).stderr
        if heard(text, book) != wanted:
            yield f"{words} {given[:60]!r}: {heard(text, book)}, and not {wanted}"
    if os.path.exists(book):
        os.remove(book)


def nobody():
    """As nobody, who may read the file."""
    if os.geteuid() == 0:
        os.setuid(65534)


def no_room():
    """With room for some rows."""
    signal.signal(signal.SIGXFSZ, signal.SIG_IGN)
    resource.setrlimit(resource.RLIMIT_FSIZE, (1000, 1000))


def with_files(program, folder):
    """What is said otherwise of files that can't be written."""
    book = f"{folder}/book"
    run(program, ["run", f"--book={book}"], ONE_DAY)
    os.chmod(folder, 0o755)
    os.chmod(book, 0o444)
    ours = shutil.copy(program, f"{folder}/hall")     # where nobody may read it
    for word, wanted in UNWRITABLE:
        told = run(ours, [word, f"--book={book}"], b"", before=nobody)
        if (told.returncode, heard(told.stderr, book)) != (0, wanted):
            yield f"{word} of a file that can't be written: {told}"
    os.remove(book)
    told = run(program, ["run", f"--book={book}"], ONE_DAY * 20, before=no_room)
    if (told.returncode, heard(told.stderr, book)) != (6, [FULL]):
        yield f"a run without room: {told}"
    os.remove(book)


def ask(program, folder, words, given):
    """The last line of a run, and what it says of a bad line."""
    book = f"{folder}/book"
    named = words if words == ["prove"] else [*words, f"--book={book}"]
    told = subprocess.run([program, *named], input=given, timeout=60, capture_output=True,
                          check=False)
    bad = [line for line in told.stderr.decode().splitlines()
           if line.startswith(("hall: bad ", "hall: plan "))]
    said = told.stdout.decode().splitlines() or [""]
    if os.path.exists(book):
        os.remove(book)
    return said[-1], told.returncode, "\n".join(line.removeprefix("hall: ") for line in bad) or None


def main():
    program = os.environ.get("HALL") or f"{HERE}/../crates/hall_cli/out/hall_cli"
    if "HALL" not in os.environ:
        subprocess.run([f"{HERE}/../hall", "run"], input=b"", stdout=subprocess.DEVNULL, check=True)
    wrong = 0
    with tempfile.TemporaryDirectory() as folder:
        for words, given, last, reason in ROWS:
            found = ask(program, folder, words, given)
            if found != (last, 3 if last.startswith("bad") else 0, reason):
                wrong += 1
                print(f"{words} {given[:60]!r}:\n  found  {found}\n  wanted {last!r}, {reason!r}")
        for words, given, begin in TOML:
            last, status, reason = ask(program, folder, words, given)
            if (last, status) != ("bad plan", 3) or not (reason or "").startswith(begin):
                wrong += 1
                print(f"{words} {given!r}: {last!r}, {status}, {reason!r}, and not {begin!r}")
        others = [line for tables, terminal in ((SETUPS, False), (TERMINALS, True))
                  for steps in tables for line in in_turn(program, folder, steps, terminal)]
        others += with_files(program, folder)
    of_lanes = list(lane_reasons.told_otherwise(program))
    for line in others + of_lanes:
        print(line)
    steps = sum(map(len, SETUPS + TERMINALS)) + len(UNWRITABLE) + 1
    print(f"{len(ROWS) + len(TOML)} bad lines and plans, {wrong} told otherwise")
    print(f"{steps} runs of other kinds, {len(others)} told otherwise")
    print(f"{lane_reasons.COUNT} runs of lanes, {len(of_lanes)} told otherwise")
    return wrong + len(others) + len(of_lanes) > 0


if __name__ == "__main__":
    sys.exit(main())
