"""The files of tests/files.sh, which says what they are: PROGRAM FOLDER."""

import os
import resource
import subprocess
import sys
import threading
import time

program, work = sys.argv[1:]
os.chdir(work)
HEADER = b"AQHBOOK2".ljust(97, b"\0")
SLOT, MARK = 96, 8
DAY = b"day 2025-03-03\n"
READING = ("check", "report", "list", "export", "ship", "acts")
ADDING = ("run", "serve", "import", "follow", "migrate")
tried = 0


def need(holds, said):
    global tried
    tried += 1
    if not holds:
        sys.exit(f"files: {said}")


def ask(command, book, given=b""):
    ran = subprocess.run([program, command, "--book", book], input=given, capture_output=True,
                         check=False, timeout=60)
    return ran.stdout, ran.returncode, ran.stderr.decode()


def put(path, content):
    with open(path, "wb") as file:
        file.write(content)


def content(path):
    with open(path, "rb") as file:
        return file.read()


# A book is made only of nothing.
for begun in (b"", bytes(1), bytes(97), b"A", HEADER[:7], HEADER[:8], HEADER[:50], HEADER):
    put("begun", begun)
    need(ask("run", "begun", DAY)[1] == 0, f"{begun[:9]} of {len(begun)} bytes isn't made a book")
    need(ask("check", "begun")[0] == b"rows 1 whole\n", f"{begun[:9]} lost its row")
for foreign in (b"a note\n", b"AQX", bytes(20) + b"1", HEADER[:60] + b"1", b"1" * 97):
    for command in READING + ADDING:
        put("foreign", foreign)
        said, status, errors = ask(command, "foreign", DAY)
        need((status, errors) == (6, "hall: can't open foreign: it isn't a book\n"),
             f"{command} of {foreign[:9]} ends {status}: {said} {errors}")
        need(content("foreign") == foreign, f"{command} changed {foreign[:9]}")

# What adds nothing makes no file, and ends as where a file can't be opened.
for command in READING:
    said, status, errors = ask(command, "absent")
    need((said, status, errors) == (b"disk fault\n", 6, "hall: can't open absent: No such file or"
                                    " directory (os error 2)\n"), f"{command}: {status} {errors}")
    need(not os.path.exists("absent"), f"{command} made a file")

# A link that leads nowhere.
os.symlink("nowhere", "link")
_, status, errors = ask("run", "link", DAY)
need((status, errors) == (6, "hall: can't open link: it is a link to a file that isn't there\n"),
     errors)
need(not os.path.exists("nowhere"), "a link made a file")


class Hall:
    """A run over a book that is asked line by line."""

    def __init__(self, book):
        self.process = subprocess.Popen([program, "run", "--book", book], stdin=subprocess.PIPE,
                                        stdout=subprocess.PIPE, stderr=subprocess.PIPE)

    def ask(self, line):
        self.process.stdin.write(line)
        self.process.stdin.flush()
        return self.process.stdout.readline()

    def end(self):
        _, errors = self.process.communicate(timeout=60)
        return self.process.returncode, errors.decode()


# A file that its path doesn't name any more; and a folder with another name, which is no fault.
GONE = "hall: the book's disk failed: the file at its path was replaced or deleted\n"
for name, change in (("replaced", lambda: os.replace("other", "d/book")),
                     ("deleted", lambda: os.remove("d/book")),
                     ("moved", lambda: os.rename("d/book", "elsewhere"))):
    os.makedirs("d", exist_ok=True)
    put("other", b"")
    if os.path.exists("d/book"):
        os.remove("d/book")
    hall = Hall("d/book")
    need(hall.ask(DAY) == b"1 ok\n", "the first row isn't answered")
    change()
    need(hall.ask(b"product P 250\n") == b"disk fault\n", f"a row of a {name} book is answered")
    status, errors = hall.end()
    need((status, errors) == (6, GONE), f"{name}: {status} {errors}")
if os.path.exists("d/book"):
    os.remove("d/book")
hall = Hall("d/book")
need(hall.ask(DAY) == b"1 ok\n", "the first row isn't answered")
os.rename("d", "e")
need(hall.ask(b"product P 250\n") == b"2 ok\n", "a folder with another name is a fault")
need(hall.end() == (0, ""), "a folder with another name is a fault at the end")

# A book with room ahead: zeros up to the end of a piece, while its hall runs and after a kill.
PIECE = 65_536
LAST = b"product P 250\n"
os.remove("e/book")
hall = Hall("e/book")
need(hall.ask(DAY) == b"1 ok\n", "the first row isn't answered")
older = content("e/book")
need(len(older) == PIECE and not any(older[SLOT * 2:]), f"{len(older)} bytes are no piece of room")
need(hall.ask(LAST) == b"2 ok\n", "the second row isn't answered")
newer = content("e/book")
need(len(newer) == PIECE and not any(newer[SLOT * 3:]), f"{len(newer)} bytes with two rows")
said, status, errors = ask("check", "e/book")
need((said, status) == (b"rows 1 whole\n", 0), f"check of a running book: {status} {said} {errors}")
hall.process.kill()
hall.end()
need(content("e/book") == newer, "a kill has changed the file")
for command in READING + ("audit",):
    said, status, errors = ask(command, "e/book")
    need((status, errors) == (0, ""), f"{command} of a killed book: {status} {errors}")
    need(content("e/book") == newer, f"{command} changed a killed book")
    need(command != "check" or said == b"rows 2 whole\n", f"check says {said}")
# Opening for writing takes the room off, and a good end leaves what one leaves without room.
need(ask("run", "e/book")[1] == 0 and content("e/book") == newer[:SLOT * 3 + 1],
     "a run without rows leaves more than the two rows and their gate")
put("e/book", newer)
ended = ask("run", "e/book", b"tare P 2025-03-03 10\n")
made = content("e/book")
put("e/book", newer[:SLOT * 3 + 1])
need(ask("run", "e/book", b"tare P 2025-03-03 10\n") == ended and content("e/book") == made
     and made[MARK] == 1 and made[-SLOT:-SLOT + 2] == b"\0T", "room changes how a run ends")
# More zeros than a hall leaves are nobody's room, and a file without the header has none.
for size in (PIECE * 2, PIECE * 3):
    put("e/book", newer[:SLOT * 3].ljust(size, b"\0"))
    said, status, errors = ask("run", "e/book", b"tare P 2025-03-03 10\n")
    need((said.split(b"\n")[0], status, errors) == (b"3 ok", 0, ""), f"{size} bytes: {errors}")
    need(len(content("e/book")) == size, f"{size} bytes were cut to {len(content('e/book'))}")
put("e/book", bytes(PIECE))
need(ask("run", "e/book", DAY)[1] == 8 and content("e/book") == bytes(PIECE), "zeros are a book")

# A book that somebody overwrites by an older copy of the same length is written no more.
OVERWRITTEN = "hall: the book's disk failed: somebody else has cut or overwritten its file\n"
for copy in (older, older[:SLOT * 2 + 1], newer[:SLOT * 3 + 1], newer + b"\0", b""):
    put("e/book", b"")
    hall = Hall("e/book")
    need(hall.ask(DAY) + hall.ask(LAST) == b"1 ok\n2 ok\n", "the rows aren't answered")
    put("e/book", copy)
    need(hall.ask(LAST.replace(b"P", b"Q")) == b"disk fault\n", "a row in an old copy is answered")
    need(hall.end() == (6, OVERWRITTEN) and content("e/book") == copy, "an older copy is written")
# The same bytes are no fault, whoever wrote them.
put("e/book", b"")
hall = Hall("e/book")
need(hall.ask(DAY) + hall.ask(LAST) == b"1 ok\n2 ok\n", "the rows aren't answered")
put("e/book", content("e/book"))
need(hall.ask(LAST.replace(b"P", b"Q")) == b"3 ok\n" and hall.end() == (0, ""), "the same bytes")
put("e/book", newer[:SLOT * 3 + 1])

# A book whose slots and snapshot differ is written by nobody.
ROWS = 3000
DIFFERS = ("hall: can't open book: row {} differs from its snapshot; `hall ship --book OLD | hall"
           " follow --book NEW` makes a book of the snapshot's rows; then `hall audit` both\n")
WEIGHINGS = b"".join(b"weigh 1 26%d.%03d\n" % (pack % 10, pack % 997) for pack in range(ROWS - 5))
_, status, errors = ask("run", "book", DAY + b"product P 250\ntare P 2025-03-03 10\nopen A P\n"
                        b"start 1 A\n" + WEIGHINGS)
need(status == 0, f"no book is made: {status} {errors}")
whole = content("book")
PLACE = SLOT * (ROWS + 2)
TAIL = len(whole) - SLOT
need(whole[MARK] == 1 and whole[PLACE:PLACE + 2] == b"\0S" and whole[TAIL:TAIL + 2] == b"\0T",
     "the book ends without a snapshot")


def changed(*places):
    """The book with other bytes at these places."""
    other = bytearray(whole)
    for place in places:
        other[place] ^= 2
    return bytes(other)


def refuses(damaged, row, commands=ADDING):
    """What adds rows doesn't open the book, and leaves it."""
    for command in commands:
        put("book", damaged)
        said, status, errors = ask(command, "book", DAY)
        need((said, status, errors) == (b"disk fault\n", 6, DIFFERS.format(row)),
             f"{command}, row {row}: {status} {said} {errors}")
        need(content("book") == damaged, f"{command} changed a book whose row {row} differs")


def opens(same, what):
    """A run begins with all rows, and its own is the next."""
    put("book", same)
    said, status, errors = ask("run", "book", b"stop 1\n")
    need((said.split(b"\n")[0], status, errors) == (b"%d ok" % (ROWS + 1), 0, ""),
         f"{what}: {status} {said} {errors}")


damaged = changed(SLOT * 1500 + 18)
refuses(damaged, 1500)
for command in READING:
    put("book", damaged)
    said, status, errors = ask(command, "book")
    need((status, errors) == (0, ""), f"{command} of a book that differs: {status} {errors}")
    if command == "check":
        need(said == b"rows %d whole\n" % ROWS, f"check says {said}")
    if command == "ship":
        need(ask("follow", "new", said) == (b"rows %d whole\n" % ROWS, 0, ""), "the way back")
need(ask("audit", "book")[1] == 9 and b"snapshot same" in ask("audit", "new")[0], "audit of both")
need(content("new")[SLOT:SLOT * (ROWS + 1)] == whole[SLOT:SLOT * (ROWS + 1)], "other rows came")
for place, row in ((SLOT, 1), (SLOT + 1, 1), (SLOT * ROWS + 3, ROWS), (SLOT * 1024 + 95, 1024),
                   (SLOT * 1025, 1025), (SLOT * 2048 + 95, 2048), (SLOT * 2049 + 10, 2049)):
    refuses(changed(place), row, ["run"])
refuses(changed(SLOT * 2900 + 5, SLOT * 77 + 20), 77, ["run"])
# A byte of the snapshot's content; and content that can't be read is damaged, as ever.
refuses(changed(PLACE + SLOT + 2 + 10), 1, ["run"])
put("book", whole[:PLACE + SLOT + 2] + b"\0" + whole[PLACE + SLOT + 3:])
need(ask("run", "book", DAY) == (b"damaged row 1\n", 9, ""), "content that can't be read")
# No snapshot, a torn one, and what a crash leaves before the mark is set or behind it.
opens(whole, "a whole snapshot")
opens(whole[:PLACE], "no snapshot")
for torn in (whole[:PLACE + SLOT * 9 + 7], changed(TAIL + 2), changed(TAIL + 1), changed(PLACE + 2),
             changed(PLACE + 1), whole[:TAIL], whole + b"\0", changed(MARK)):
    opens(torn, "a torn snapshot")
unmarked = whole[:MARK] + b"\0" + whole[MARK + 1:]
opens(unmarked, "a snapshot without its mark")
hanging = bytearray(unmarked)
hanging[SLOT * (ROWS + 1) + 1:SLOT * (ROWS + 2)] = bytes(range(95))
opens(bytes(hanging), "the beginning of a row behind the closed gate")

# A file at the limit of its size is a fault of the disk.
LIMIT = SLOT * 40 + 50


def limited():
    resource.setrlimit(resource.RLIMIT_FSIZE, (LIMIT, LIMIT))


os.remove("book")
days = b"".join(b"day 2025-%02d-%02d\n" % (1 + day // 28, 1 + day % 28) for day in range(200))
ran = subprocess.run([program, "run", "--book", "book"], input=days, capture_output=True,
                     check=False, timeout=60, preexec_fn=limited)
rows = ran.stdout.count(b" ok\n")
need((ran.returncode, ran.stderr) == (
    6, b"hall: the book's disk failed: File too large (os error 27)\n"),
    f"at the limit of a file: {ran.returncode} {ran.stderr}")
need(ran.stdout.endswith(b"disk fault\n") and 30 < rows < 40 and len(content("book")) <= LIMIT,
     f"{rows} rows are answered below the limit")
need(ask("check", "book")[0] == b"rows %d whole\n" % rows, "other rows stand below the limit")
need(ask("run", "book", days)[1] == 0, "without the limit the book doesn't go on")

# Streams that a parent left nonblocking.
inner, outer = os.pipe()
told, said = os.pipe()
os.set_blocking(inner, False)
os.set_blocking(said, False)
process = subprocess.Popen([program, "run"], stdin=inner, stdout=said, stderr=subprocess.PIPE)
os.close(inner)
os.close(said)
time.sleep(0.3)
os.write(outer, DAY)
need(os.read(told, 99) == b"1 ok\n", "the first line isn't answered")
time.sleep(0.5)
questions = threading.Thread(target=lambda: [os.write(outer, b"summary\n" * 100)
                                             for _ in range(100)] + [os.close(outer)])
questions.start()
time.sleep(0.7)
with os.fdopen(told, "rb") as answers:
    lines = answers.read().splitlines()
questions.join(60)
_, errors = process.communicate(timeout=60)
need((process.returncode, errors) == (0, b""), f"nonblocking: {process.returncode} {errors}")
need(len(lines) % 10_001 == 0 and len(lines) > 10_001, f"{len(lines)} lines of answers")

# A file that may not be read or written, where the user isn't root; root may all.
if os.geteuid() != 0:
    os.chmod("e/book", 0o400)
    said, status, errors = ask("check", "e/book")
    need((said, status) == (b"rows 2 whole\n", 0) and "can't be written" in errors, errors)
print(f"files: {tried} tries came out as they should")
