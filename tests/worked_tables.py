"""Tables of runs for tests/worked.py: words, input, output, status and rows. They were worked out
by hand from docs/RULES.md and docs/FORMATS.md, the masses of the trials by another program."""

from typing import NamedTuple

from day_texts import summary


class Step(NamedTuple):
    """A run over the book as it stands: how many rows it then has, where that is looked at."""

    words: list
    given: bytes
    printed: str
    status: int = 0
    rows: int = None


def numbered(rows):
    return "".join(f"{row} ok\n" for row in rows)


def totals(rows, readings="0 0.000", passed="0 0.000", rejected="0 0.000", sampled="0 0.000",
           voided="0 0.000", batches="0 0 0 0"):
    """A summary at the end of an output."""
    return summary(f"{rows} {readings} {passed} {rejected} {sampled} {voided} {batches}") + "\n"


USAGE = "usage: hall COMMAND [OPTIONS]\n"

WRONG_WORDS = [
    [], [""], ["run", "x"], ["run", ""], ["run", "run"], ["x", "run"], ["run", "250000", "10000"],
    ["Run"], ["RUN"], ["run "], [" run"], ["runs"], ["ru"], ["help"], ["--help"],
    ["run", "--help"], ["run", "--"], ["run", "-"], ["run", "--limit"], ["run", "--limit="],
    ["run", "--limit", ""], ["run", "--limit", "0"], ["run", "--limit", "1000001"],
    ["run", "--limit", "-5"], ["run", "--limit", "five"],
    ["run", "--limit", "5", "--limit", "5"], ["run", "--limits", "5"], ["run", "-limit", "5"],
    ["--limit", "5", "run"], ["run", "--book"], ["run", "--book", "--limit"], ["check", "x"],
    ["check", "--limit", "5"]]

# The ways to say that a book has one row at most.
RIGHT_WORDS = [
    ["run", "--limit", "1"], ["run", "--limit=1"], ["run", "--book", "book", "--limit", "01"],
    ["run", "--limit", "1", "--book=book"]]

NEXT_DAY = Step(["run"], b"day 2025-03-04\n", numbered([1]) + totals(1), 0, 1)


def line(given, printed, status=0, rows=0):
    return Step(["run"], given, printed, status, rows)


def comment(length, behind, printed, status=0, rows=1):
    """A day, and a comment of so many bytes with what comes behind it."""
    return line(b"day 2025-03-03\n" + b"#" * length + behind, printed, status, rows)


BAD_COMMENT = "1 ok\nbad line 2\n"

LINES = [
    line(b"", totals(0)),
    line(b"\n", totals(0)),
    line(b"day 2025-03-03", numbered([1]) + totals(1), 0, 1),
    # each line ends in CR LF
    line(b"# a day\r\n\r\nday 2025-03-03\r\nproduct rice250 250\r\n"
         b"tare rice250 2025-03-03 10\r\nopen A rice250\r\nstart 1 A\r\nweigh 1 251.000\r\n"
         b"weigh 1 241.999\r\nstop 1\r\nstop 1\r\n",
         numbered(range(1, 6)) + "6 pass\n7 reject inadequate\n8 ok\nrefused 18 LaneIdle at 8\n"
         + totals(8, "2 492.999", "1 251.000", "1 241.999", batches="1 0 0 0"), 0, 8),
    line(b"day 2025-03-03\nweigh 1\n", BAD_COMMENT, 3, 1),
    line(b"day 2025-03-03\nweigh 1", BAD_COMMENT, 3, 1),
    line(b"wat", "bad line 1\n", 3),
    # lines without a word and comments are counted, and so are refused ones
    line(b"\n# a comment\n \t\r\nday 2025-03-03\n\nday 2025-03-02\nwat\nday 2025-03-04\n",
         "1 ok\nrefused 7 DayBack 2025-03-03 at 1\nbad line 7\n", 3, 1),
    line(b"\n\n\n\n\n\n\n\n\n\n\nday\n", "bad line 12\n", 3),
    # a summary in the middle is an answer like another, and none comes after a bad line
    line(b"summary\nsummary now\n", totals(0) + "bad line 2\n", 3),
    # a last line keeps its CR
    line(b"day 2025-03-03\r\nday 2025-03-03\r", BAD_COMMENT, 3, 1),
    line(b"day 2025-03-03\n\0", BAD_COMMENT, 3, 1),
    # the nominal quantity just outside its range
    line(b"day 2025-03-03\nproduct x 4.999\nproduct x 10000.001\nproduct x\n",
         "1 ok\nrefused 11 NominalRange at 1\nrefused 11 NominalRange at 1\nbad line 4\n", 3, 1),
    # a desk asks no questions
    line(b"@101 1 day 2025-03-03\n@101 2 summary\n", BAD_COMMENT, 3, 1),
    # a name of any bytes is read, and the book refuses its shape
    line(b"day 2025-03-03\nproduct a\0b 250\nproduct \xff\xfe 250\n.\n",
         "1 ok\nrefused 10 NameShape at 1\nrefused 10 NameShape at 1\nbad line 4\n", 3, 1),
    comment(200, b"\nday 2025-03-04\n", numbered([1, 2]) + totals(2), rows=2),
    comment(200, b"", numbered([1]) + totals(1)),
    comment(201, b"\nday 2025-03-04\n", BAD_COMMENT, 3),
    comment(201, b"", BAD_COMMENT, 3),
    comment(70_000, b"\nday 2025-03-04\n", BAD_COMMENT, 3),
    comment(70_000, b"", BAD_COMMENT, 3)]

OPENING = b"day 2025-03-03\nproduct rice250 250\ntare rice250 2025-03-03 10\n"

FIVE_ROWS = Step(["run"], OPENING + b"open A rice250\nstart 1 A\n",
                 numbered(range(1, 6)) + totals(5, batches="1 0 0 0"), 0, 5)



def passed(numbers):
    """Packs of batch A that passed, each at 262 g, as a page tells them."""
    return "".join(f"pack {number} batch A lane 1 gross 262.000 net 252.000 standard pass passed\n"
                   for number in numbers)


# The packs of a batch above a number.
PACKS = [
    line(b"packs A 0\npacks A 4294967296\n", "refused 14 BatchUnknown at 0\nbad line 2\n", 3),
    line(b"packs A\n", "bad line 1\n", 3),
    line(b"packs A 0 0\n", "bad line 1\n", 3),
    line(b"@101 1 packs A 0\n", "bad line 1\n", 3),
    # two batches by turns; a pack that never left, one that is voided, a tare that is corrected
    line(OPENING + b"open A rice250\nopen B rice250\nstart 1 A\nstart 2 B\npacks A 0\nweigh 2 262\n"
         b"weigh 1 241.999\nweigh 2 251\nweigh 1 251\npacks B 8\nstop 1 stayed\nstop 2\nvoid 8\n"
         b"packs A 0\ntare rice250 2025-03-03 12\npacks B 0\npacks A 11\n",
         numbered(range(1, 8)) + "8 pass\n9 reject inadequate\n10 pass\n11 pass\n"
         "pack 10 batch B lane 2 gross 251.000 net 241.000 standard pass passed\n"
         + numbered(range(12, 15))
         + "pack 9 batch A lane 1 gross 241.999 net 231.999 inadequate reject inadequate rejected\n"
         "pack 11 batch A lane 1 gross 251.000 net 241.000 standard pass rejected\n15 ok\n"
         "pack 8 batch B lane 2 gross 262.000 net 250.000 standard pass voided\n"
         "pack 10 batch B lane 2 gross 251.000 net 239.000 nonstandard pass passed\n"
         + totals(15, "4 1005.999", "1 251.000", "2 492.999", voided="1 262.000",
                  batches="2 0 0 0"), 0, 15),
    # 130 packs, from row 6 on
    line(OPENING + b"open A rice250\nstart 1 A\n" + b"weigh 1 262\n" * 130
         + b"packs A 0\npacks A 6\npacks A 7\npacks A 133\npacks A 135\n",
         numbered(range(1, 6)) + "".join(f"{row} pass\n" for row in range(6, 136))
         + passed([*range(6, 134), *range(7, 135), *range(8, 136), 134, 135])
         + totals(135, "130 34060.000", "130 34060.000", batches="1 0 0 0"), 0, 135)]

SIXTH_ROW = Step(["run"], b"weigh 1 251.000\n",
                 "6 pass\n" + totals(6, "1 251.000", "1 251.000", batches="1 0 0 0"), 0, 6)

FULL_OF_FIVE = "refused 5 BookFull 5 at 5\n" + totals(5, batches="1 0 0 0")

FULL_OF_SIX = ("refused 5 BookFull 3 at 6\n"
               + totals(6, "1 251.000", "1 251.000", batches="1 0 0 0"))

GATES = Step(
    ["run"], OPENING + b"open A rice250\nstart 1 A\nstart 2 A\nweigh 2 260\nweigh 1 241.999\n"
    b"weigh 1 251\nweigh 1 241.999\nstop 1\nstop 2\nstart 2 A\nstop 2\n",
    numbered(range(1, 7)) + "7 pass\n8 reject inadequate\n9 pass\n10 reject inadequate\n"
    + numbered(range(11, 15))
    + totals(14, "4 994.998", "2 511.000", "2 483.998", batches="1 0 0 0"), 0, 14)

# What its rows say of the gate.
GATE_PRIORS = {7: "none", 8: "none", 9: "none", 10: "opened", 11: "none", 12: "opened", 14: "none"}

# A book that is opened again. With more rows than the limit it opens, and takes no more.
BOOK = [
    FIVE_ROWS,
    Step(["run", "--limit", "5"], NEXT_DAY.given, FULL_OF_FIVE),
    SIXTH_ROW,
    Step(["run", "--limit", "3"], NEXT_DAY.given, FULL_OF_SIX),
    Step(["check"], b"", "rows 6 whole\n")]

# What then stands at which place: the header with its mark, which says that a snapshot is there,
# and the snapshot's head and tail, each with 5 rows and 171 bytes of content.
SNAPSHOT = [(0, b"AQHBOOK2\x01\0\0\0\0\0"), (672, b"\0S\x05\0\0\0\xab\0\0\0\0\0\0\0"),
            (960, b"\0T\x05\0\0\0\xab\0\0\0\0\0\0\0")]
BOOK_PLACES = [SNAPSHOT, SNAPSHOT, [], [], []]

# Of the book of six rows bytes are changed, and so many bytes kept: a foreign one; and one whose
# row 6 is of a kind that isn't there, which is seen only without the mark at 8.
FOREIGN_BYTE = [(3, ord("X"))]
SIXTH_DAMAGED = [(8, 0), (577, 14)]
SIXTH_CLOSED = [(8, 0), (576, 0), (577, 14)]
IS_FOREIGN = "not a journal at 3\n"
IS_DAMAGED = "damaged row 6\n"

# What a file has, a run, and what the file then has: nothing is written but the closed gate behind
# the rows, where it isn't there, or a new book.
DAMAGED = [
    ((FOREIGN_BYTE, 129), Step(["run"], b"", IS_FOREIGN, 8), (FOREIGN_BYTE, 129)),
    ((FOREIGN_BYTE, 98), Step(["check"], b"", IS_FOREIGN, 8), (FOREIGN_BYTE, 98)),
    # so few bytes have no room for a row; they are no beginning of a book either
    ((FOREIGN_BYTE, 97), Step(["run"], b"", "disk fault\n", 6), (FOREIGN_BYTE, 97)),
    ((SIXTH_DAMAGED, 673), Step(["run"], b"", IS_DAMAGED, 9), (SIXTH_DAMAGED, 673)),
    ((SIXTH_DAMAGED, 1152), Step(["check"], b"", IS_DAMAGED, 9), (SIXTH_DAMAGED, 1152)),
    ((SIXTH_DAMAGED, 672), Step(["run"], b"", IS_DAMAGED, 9), (SIXTH_DAMAGED, 673)),
    # a row that is cut isn't there: its gate is closed
    (([*SIXTH_DAMAGED, (672, 1)], 700), Step(["check"], b"", IS_DAMAGED, 9), (SIXTH_DAMAGED, 700)),
    ((SIXTH_DAMAGED, 586), Step(["run"], b"", totals(5, batches="1 0 0 0")), (SIXTH_CLOSED, 586)),
    ((SIXTH_DAMAGED, 586), Step(["check"], b"", "rows 5 whole\n"), (SIXTH_CLOSED, 586))]

# Paths that are no file, and why.
PATHS = [
    ("not_there/book", "No such file or directory (os error 2)"),
    ("folder", "Is a directory (os error 21)"),
    ("/dev/null", "it is no file")]


def slots(*rows):
    """A journal of version 1: its header, these rows and a closed gate."""
    return b"".join(piece.ljust(64, b"\0") for piece in (b"AQHBOOK1", *rows)) + b"\0"


# Its rows are those of the five.
JOURNAL = slots(
    b"\1\1\1\0\0\0\0\0\0\0\0\0\0\0\xb6\x4e",
    b"\1\2\2\0\0\0\0\0\0\0\0\0\0\0\7rice250\0\0\0\0\0\0\0\0\0\x90\xd0\3",
    b"\1\3\3\0\0\0\0\0\0\0\0\0\0\0\7rice250\0\0\0\0\0\0\0\0\0\xb6\x4e\0\0\x10\x27",
    b"\1\4\4\0\0\0\0\0\0\0\0\0\0\0\1A\0\0\0\0\0\0\0\0\0\0\0\0\0\0\0\7rice250",
    b"\1\5\5\0\0\0\0\0\0\0\0\0\0\0\1\1A")


def migrated(printed, status=0, rows=0):
    return Step(["migrate"], JOURNAL, printed, status, rows)


# Changed bytes of the journal, how many are kept, and how carrying it ends.
JOURNALS = [
    ([(7, ord("2"))], 385, migrated("bad line 0\n", 3)),
    ([], 63, migrated("bad line 0\n", 3)),
    ([], 0, migrated("bad line 0\n", 3)),
    ([], 64, migrated("rows 0 whole\n")),
    # the mark is passed over
    ([(8, 1)], 385, migrated("rows 5 whole\n", rows=5)),
    # a slot is cut, or closed
    ([], 383, migrated("rows 4 whole\n", rows=4)),
    ([(256, 0), (320, 7)], 385, migrated("rows 3 whole\n", rows=3)),
    # a kind that isn't there, and a batch of a product that isn't
    ([(193, 14)], 385, migrated("bad line 3\n", 3, 2)),
    ([(288, ord("x"))], 385, migrated("bad line 4\n", 3, 3))]

# A tare that is corrected makes the first pack inadequate, and the batch is held until it is
# voided.
THREE_PACKS = Step(
    ["run"],
    b"weigh 1 243.000\ntare rice250 2025-03-03 12\nweigh 1 260.000\nvoid 6\nweigh 1 260.000\n",
    "6 pass\n7 ok\n8 reject held\n9 ok\n10 pass\n"
    + totals(10, "3 763.000", "1 260.000", "1 260.000", voided="1 243.000", batches="1 0 0 0"),
    0, 10)

# Two batches, of which the second by its name was opened first.
TWO_BATCHES = Step(
    ["run"], OPENING + b"open B rice250\nopen A rice250\nstart 1 A\nweigh 1 251.000\n",
    numbered(range(1, 7)) + "7 pass\n" + totals(7, "1 251.000", "1 251.000", batches="2 0 0 0"),
    0, 7)

REGISTER = """\
pack,batch,product,lane,day,gross,net,class,signal,pile
6,A,rice250,1,2025-03-03,243.000,231.000,inadequate,pass,voided
8,A,rice250,1,2025-03-03,260.000,248.000,standard,reject held,rejected
10,A,rice250,1,2025-03-03,260.000,248.000,standard,pass,passed
"""

NO_PACK = REGISTER.splitlines(keepends=True)[0]


def sheet(batch, packs, grams, net):
    """The sheet of a running batch, whose packs all passed."""
    return f"""\
batch {batch} product rice250 nominal 250.000 tne 9.000
state running
readings {packs} gross {grams}
passed {packs} gross {grams}
rejected 0 gross 0.000
sampled 0 gross 0.000
voided 0 gross 0.000
population {packs} net {net} nonstandard 0 inadequate 0
held no
"""


SHEET_OF_A = sheet("A", 1, "251.000", "241.000")

# Runs, and what is then asked of their book.
# A tare to come that is put again, a pack taken back and one that stayed, and a closed batch.
IN_FORCE = Step(
    ["run"], OPENING + b"product juice 1000 ml\nproduct salt 500\ntare rice250 2025-03-01 9\n"
    b"@101 1 tare rice250 2025-03-10 11\ntare rice250 2025-03-10 12\ntare rice250 2025-03-07 13\n"
    b"tare juice 2025-03-04 30\nopen B rice250\nopen A rice250\nopen C juice 1000\nstart 2 B\n"
    b"weigh 2 262\nweigh 2 262\nweigh 2 262 stayed\nstop 2\nvoid 15\nstart 16 A\nend B\n"
    b"@164 1 end C\nclose C\n",
    numbered(range(1, 15)) + "15 pass\n16 pass\n17 pass\n" + numbered(range(18, 23)) + "23 empty\n"
    + totals(23, "3 786.000", "1 262.000", "1 262.000", voided="1 262.000", batches="1 1 0 1"))

LISTED = """day 2025-03-03
product rice250 nominal 250.000 g tare 10.000
product juice nominal 1000.000 ml tare none
product salt nominal 500.000 g tare none
tare rice250 from 2025-03-10 12.000
tare rice250 from 2025-03-07 13.000
tare juice from 2025-03-04 30.000
batch B product rice250 state ended population 1
batch A product rice250 state running population 0
batch C product juice state closed population 0
lane 16 batch A
desk 101 request 1
desk 164 request 1
"""

LISTED_FIVE = """day 2025-03-03
product rice250 nominal 250.000 g tare 10.000
batch A product rice250 state running population 0
lane 1 batch A
"""

PRINTED = [
    ([], [Step(["report"], b"", "disk fault\n", 6), Step(["list"], b"", "disk fault\n", 6)]),
    ([Step(["run"], b"", totals(0), 0, 0)],
     [Step(["report"], b"", totals(0), 0, 0), Step(["export"], b"x", NO_PACK, 0, 0),
          Step(["list"], b"", "day none\nrows 0 left 1000000\n", 0, 0)]),
    ([FIVE_ROWS], [Step(["report", "--batch", "B"], b"", "refused 14 BatchUnknown at 5\n"),
                   Step(["export"], b"", NO_PACK),
                   Step(["list", "--limit=7"], b"", LISTED_FIVE + "rows 5 left 2\n"),
                   Step(["list", "--limit=3"], b"", LISTED_FIVE + "rows 5 left 0\n")]),
    ([IN_FORCE], [Step(["list"], b"", LISTED + "rows 23 left 999977\n")]),
    ([FIVE_ROWS, THREE_PACKS], [Step(["export"], b"", REGISTER)]),
    ([TWO_BATCHES], [
        Step(["report"], b"", sheet("B", 0, "0.000", "0.000") + SHEET_OF_A
             + totals(7, "1 251.000", "1 251.000", batches="2 0 0 0")),
        Step(["report", "--batch=A"], b"", SHEET_OF_A),
        Step(["report", "--batch", "A"], b"weigh 1 251.000\n", SHEET_OF_A)])]

# The head of a shipment: its title, how many rows the book has, and how many were passed over.
def head(rows, passed):
    return b"AQHSHIP2" + rows.to_bytes(4, "little") + passed.to_bytes(4, "little")


# Copies of the first rows of the five, by how many they have.
COPIES = {0: b"", 1: OPENING[:15], 2: OPENING[:35], 3: OPENING}

# What is shipped of the book of five rows: the words behind `ship`, and the head and bytes.
SHIPPED = [
    ([], head(5, 0), 496),
    (["--after", "0"], head(5, 0), 496),
    (["--after=3"], head(5, 3), 208),
    (["--after=5"], head(5, 5), 16),
    (["--after", "1000000"], head(5, 5), 16)]


def followed(held, after, printed, status=0, rows=None, changes=(), length=None, more=b""):
    """How many rows a copy holds, how many the shipment passes over, what is changed in its bytes
    and how many are kept, and how following it ends."""
    return held, after, changes, length, more, Step(["follow"], b"", printed, status, rows)


FOLLOWED = [
    followed(3, 3, "rows 5 whole\n", rows=5),
    followed(0, 0, "rows 5 whole\n", rows=5),
    followed(2, 0, "rows 5 whole\n", rows=5),
    # rows before those that came are lacking; also where none came
    followed(2, 3, "bad line 3\n", 3, 2),
    followed(2, 5, "bad line 3\n", 3, 2),
    followed(0, 3, "bad line 1\n", 3, 0),
    # the last row is cut, the first, and each row away
    followed(3, 3, "bad line 5\n", 3, 4, length=207),
    followed(3, 3, "bad line 4\n", 3, 3, length=17),
    followed(3, 3, "bad line 4\n", 3, 3, length=16),
    followed(3, 3, "bad line 5\n", 3, 4, length=112),
    # something follows the last row
    followed(3, 3, "bad line 6\n", 3, 5, more=b"\0"),
    # the head: cut, another title, more passed over than there are, and more than a book may have
    followed(3, 3, "bad line 0\n", 3, 3, length=0),
    followed(3, 3, "bad line 0\n", 3, 3, length=15),
    followed(3, 3, "bad line 0\n", 3, 3, changes=[(7, ord("1"))]),
    followed(3, 3, "bad line 0\n", 3, 3, changes=[(12, 6)]),
    followed(3, 3, "bad line 0\n", 3, 3, changes=[(8, 0x41), (9, 0x42), (10, 0x0f)]),
    # a row that the copy has otherwise (a tare of 10.001 g), one of a kind that isn't there, and
    # one with its gate closed
    followed(3, 0, "bad line 3\n", 3, 3, changes=[(208 + 51, 0x11)]),
    followed(3, 3, "bad line 4\n", 3, 3, changes=[(17, 200)]),
    followed(3, 3, "bad line 5\n", 3, 4, changes=[(112, 0)])]

# The script of a trial of two packs, and the paper of its batch.
TRIAL_OF_TWO = b"""\
day 2025-03-03
product trial 250
tare trial 2025-03-03 10
open T1 trial
start 1 T1
start 2 T1
start 3 T1
weigh 1 261.014
weigh 2 260.587
stop 1
stop 2
stop 3
end T1
draw T1 keep 0
measure 9 260.587
measure 8 261.014
close T1
"""

PAPER = b"""\
paper 1
batch T1 product trial nominal 250.000 unit g density 1000.000 row 17
tare 2025-03-03 10.000
pack 8 2025-03-03 261.014
pack 9 2025-03-03 260.587
mode keep word 0
first 9 gross 260.587 empty 0.000
first 8 gross 261.014 empty 0.000
verdict released
"""

# A batch that was closed without a pack.
EMPTY_BATCH = OPENING + b"open A rice250\nend A\nclose A\n"

EMPTY_PAPER = b"""\
paper 1
batch A product rice250 nominal 250.000 unit g density 1000.000 row 6
verdict empty
"""

# What is refused of a batch, by a script and its name.
REFUSED_PAPERS = [
    (OPENING, "A", "refused 14 BatchUnknown at 3\n"),
    (OPENING + b"open A rice250\n", "A", "refused 15 BatchState running at 4\n"),
    (OPENING + b"open A rice250\nend A\n", "A", "refused 15 BatchState ended at 5\n"),
    (TRIAL_OF_TWO[:TRIAL_OF_TWO.index(b"measure")], "T1", "refused 15 BatchState drawn at 14\n")]


def relined(paper, changes):
    """A paper whose lines of these numbers are others."""
    lines = paper.splitlines(keepends=True)
    for number, line in changes:
        lines[number - 1] = line
    return b"".join(lines)


def proved(paper, printed, status=3):
    return Step(["prove"], paper, printed, status)


PROVED = [
    proved(PAPER, "true released\n", 0),
    proved(EMPTY_PAPER, "true empty\n", 0),
    proved(relined(PAPER, [(9, b"verdict withheld mean\n")]), "bad line 9\n"),
    # two lines are exchanged: the packs aren't drawn so
    proved(relined(PAPER, [(7, PAPER.splitlines(True)[7]), (8, PAPER.splitlines(True)[6])]),
           "bad line 7\n"),
    # a line is lacking, something follows, or the last LF is away
    proved(b"", "bad line 1\n"),
    proved(relined(PAPER, [(6, b"")]), "bad line 6\n"),
    proved(PAPER + b"\n", "bad line 10\n"),
    proved(PAPER[:-1], "bad line 9\n"),
    proved(relined(PAPER, [(9, b"")]), "bad line 9\n"),
    # the day of the tare is none of the packs'; a pack's has no tare
    proved(relined(PAPER, [(3, b"tare 2025-03-02 10.000\n")]), "bad line 3\n"),
    proved(relined(PAPER, [(5, b"pack 9 2025-03-04 260.587\n")]), "bad line 5\n"),
    # a fault of form comes before one of tares, wherever it stands
    proved(relined(PAPER, [(3, b"tare 2025-03-02 10.000\n"), (9, b"verdict good\n")]),
           "bad line 9\n"),
    # a sample is too short
    proved(relined(PAPER, [(8, b"")]), "bad line 8\n")]

HEADER = b"desk,request,command\n"

TWO_ACTS = HEADER + b"101,1,day 2025-03-03\n101,2,product a 250\n"

# Each in turn begins with an empty book.
IMPORTS = [
    [Step(["import"], TWO_ACTS, numbered([1, 2]) + totals(2), 0, 2),
     Step(["import"], TWO_ACTS, "refused 2 RequestOld 2 at 2\n2 ok\n" + totals(2), 0, 2)],
    [Step(["import", "--limit", "1"], TWO_ACTS, "1 ok\nrefused 5 BookFull 1 at 1\n" + totals(1),
          0, 1)],
    [Step(["import"], b"", "bad line 1\n", 3, 0)],
    [Step(["import"], HEADER + b"101,1,day 2025-03-03\n,1,product a 250\n101,2,product a 250\n",
          "1 ok\nbad line 3\n", 3, 1)],
    [Step(["import"], HEADER + b"101,1,summary\n", "bad line 2\n", 3, 0)],
    [Step(["import"], b"day 2025-03-03\nproduct rice250 250\n", "bad line 1\n", 3, 0)]]


def trial(number, packs, rows, closed, readings, passed, sampled):
    return Step(["trial", str(number), str(packs)], b"",
                totals(rows, readings, passed, sampled=sampled, batches=f"0 0 0 {closed}"))


# Of a whole batch the masses were summed up by a program of ten lines outside this project.
TRIALS = [
    trial(0, 2, 17, 1, "2 521.601", "0 0.000", "2 521.601"),
    trial(1, 1, 15, 1, "1 259.900", "0 0.000", "1 259.900"),
    trial(0, 600, 663, 1, "600 156543.007", "550 143530.682", "50 13012.325"),
    trial(0, 600, 663, 1, "600 156543.007", "550 143530.682", "50 13012.325"),
    trial(0, 601, 675, 2, "601 156800.921", "550 143530.682", "51 13270.239")]

FOREIGN = [Step(words, TWO_ACTS, "not a journal at 0\n", 8)
           for words in (["report"], ["report", "--batch=A"], ["export"], ["import"],
                         ["serve"])]


def worked(lane, printed, status=0, rows=None):
    return Step(["run", "--lanes=2"], b"work %d A\n" % lane, printed, status, rows)


# What the file of lane 1's cell has, a run, and what the file of its gate then has. The lane is
# found with a batch, so the worker stops it and starts it (two rows), weighs, and stops it (one).
LANES = [
    (b"260\n240\r\n261.5",
     worked(1, "lane 1 opened 2 done\n"
            + totals(11, "3 761.500", "2 521.500", "1 240.000", batches="1 0 0 0"), 0, 11),
     b"open 8\nopen 10\n"),
    # the lane is idle now: it is started, a pack is weighed, and it is stopped
    (b"262\n",
     worked(1, "lane 1 opened 1 done\n"
            + totals(14, "4 1023.500", "3 783.500", "1 240.000", batches="1 0 0 0"), 0, 14),
     b"open 8\nopen 10\nopen 13\n"),
    # the second lane has no file for its cell
    (None,
     worked(2, "lane 2 opened 0 cell\n"
            + totals(16, "4 1023.500", "3 783.500", "1 240.000", batches="1 0 0 0"), 10, 16),
     b"open 8\nopen 10\nopen 13\n")]

# What is written to a pipe, byte by byte, and the line that the gate then gets.
PIPED = [(b"251.5\n2", b"open 8\n"), (b"52\r\n253", b"open 9\n"), (b".25\n", b"open 10\n"),
         (b"251 g\n", b""), (b"254\n", b"")]

# What a scale says over a port, connection by connection, and what each is answered; the line of
# the lane, the status, and the lines of the gate.
PORTS = [
    # the first is cut behind `2 26`; a line comes twice, and one is ahead
    ([(b"1 251\n2 26", b"ack 1\n"),
      (b"1 251\n2 260\n2 260\n4 255\n3 end\n", b"ack 1\nack 2\nack 2\nack 3\n")],
     b"lane 1 opened 2 done\n", 0, b"open 8\nopen 9\n"),
    # what isn't a line has no answer, and the weight before it has one
    ([(b"1 251\n2 x\n", b"ack 1\n")], b"lane 1 opened 1 bad 2\n", 10, b"open 8\n"),
]


def planned(text, printed, status=0, rows=0):
    return Step(["serve"], text, printed, status, rows)


# Plans, each with the lanes and doors that are handed in.
PLANS = [
    # nothing is planned, and nothing is handed in
    ([], planned(b"", totals(0))),
    # no document
    ([], planned(b"setup = \n", "bad plan\n", 3)),
    # a lane number above the greatest
    (["--lanes=1"], planned(b'[[lane]]\nnumber = 17\nbatch = "A"\n', "bad plan\n", 3)),
    # three lanes are planned, and two handed in
    (["--lanes=2"], planned(b"".join(b'[[lane]]\nnumber = %d\nbatch = "A"\n' % lane
                                     for lane in (1, 2, 3)), "bad plan\n", 3)),
    # a line of the setup outside the grammar; the one before it stands
    ([], planned(b'setup = "day 2025-03-03\\nproduct\\n"\n', "bad line 2\n", 3, 1)),
    # a setup works no lane
    (["--lanes=1"], planned(b'setup = "day 2025-03-03\\nwork 1 A\\n"\n[[lane]]\nnumber = 1\n'
                            b'batch = "A"\n', "bad line 2\n", 3, 1)),
    # a refused command of the setup is passed over
    ([], planned(b'setup = "day 2025-03-03\\nstart 17 A\\nproduct a 250\\n"\n', totals(2), 0, 2))]

# Inputs of a command, and what standard error says of the setup.
SETUPS = [
    ("serve", b'setup = """\n# none\n@164 1 day 2025-03-03\n\nsummary\n\tday 2025-03-04\n'
     b'open A a\n"""\n',
     "hall: line 5 of the setup has no desk, and acts at each start (@164 1 ..)\n"
     "hall: line 6 of the setup, open A a: refused 9 ProductUnknown at 2: no product has this"
     " name\nhall: serving, lanes 0, doors 0, rows 2, left 999998\n"),
    ("serve", b"reserve = 1\nsetup = '''\ntare a 2025-03-03 1\n'''\n",
     "hall: line 1 of the setup has no desk, and acts at each start (@164 1 ..)\n"
     "hall: line 1 of the setup, tare a 2025-03-03 1: refused 6 DayUnset at 0: a day has to be set"
     " first\nhall: serving, lanes 0, doors 0, rows 0, left 1000000\n"),
    ("serve", b'setup = """\n@164 1 day 2025-03-03\n@164 2 product a 250\n"""\n# """\nday\n',
     "hall: bad plan: its line 6 isn't TOML: key with no value, expected `=`\n"),
    ("run", b'setup = """\nday 2025-03-03\n"""\n',
     'hall: bad line 1, setup = """: no such command: setup\n')]
