"""The figures of bench/book.sh: PROGRAM OPENER FOLDER QUICK WEIGHINGS ROWS."""

import os, sqlite3, subprocess, sys, time

program, opener, work, quick = sys.argv[1:5]
weighings, rows = [int(word) for word in sys.argv[5:7]]
SLOT = 96


def fresh(path):
    for end in ("", "-wal", "-shm"):
        if os.path.exists(path + end):
            os.remove(path + end)
    return path


# seconds, and the peak memory in KiB, of a program; its status has to be 0
def timed(words, given, taken):
    with open(given) as source, open(taken, "w") as sink:
        began = time.perf_counter()
        child = subprocess.Popen(words, stdin=source, stdout=sink)
        _, status, used = os.wait4(child.pid, 0)
        child.returncode = status
        seconds = time.perf_counter() - began
    if status != 0:
        sys.exit(f"{words} ended with the wait status {status}")
    return seconds, used.ru_maxrss


def by_hall(hall=program):
    answers = work + "/answers"
    book = fresh(work + "/hall")
    seconds, _ = timed([hall, "run", "--book", book], work + "/few", answers)
    with open(answers) as told:
        passed = sum(line.endswith(" pass\n") for line in told)
    if passed != weighings:
        sys.exit(f"hall passed {passed} of {weighings} weighings")
    return seconds


# the calls of rows, in a file that each makes longer, or over zeros that were written before
def by_loop(over=False):
    file = os.open(fresh(work + "/loop"), os.O_RDWR | os.O_CREAT, 0o644)
    body = bytes(range(1, SLOT + 1))
    if over:
        os.pwrite(file, bytes(SLOT * (weighings + 2)), 0)
        os.fdatasync(file)
    began = time.perf_counter()
    for row in range(1, weighings + 1):
        os.pwrite(file, body, SLOT * row + 1)
        os.fdatasync(file)
        os.pwrite(file, b"\1", SLOT * row)
        os.fdatasync(file)
    seconds = time.perf_counter() - began
    os.close(file)
    return seconds


def by_sqlite():
    base = sqlite3.connect(fresh(work + "/base"), isolation_level=None)
    if base.execute("pragma journal_mode = wal").fetchone() != ("wal",):
        sys.exit("SQLite keeps no write-ahead log here")
    base.execute("pragma synchronous = full")
    base.execute("create table rows (number integer primary key, row blob not null)")
    body = bytes(SLOT)
    began = time.perf_counter()
    for row in range(1, weighings + 1):
        base.execute("insert into rows values (?, ?)", (row, body))
    seconds = time.perf_counter() - began
    base.close()
    return seconds


WAYS = {
    "hall": by_hall,
    "loop over zeros": lambda: by_loop(over=True),
    "loop that grows": by_loop,
    "SQLite": by_sqlite,
}
if "BEFORE" in os.environ:
    WAYS["hall before"] = lambda: by_hall(os.environ["BEFORE"])


def appending():
    best = {}
    for _ in range(3):
        for name, way in WAYS.items():
            best[name] = min(best.get(name, float("inf")), way())
    for name, seconds in best.items():
        each = 1e6 * seconds / weighings
        print(f"{name}: {weighings / seconds:.0f} rows a second, {each:.0f} us a row")
    for name, seconds in best.items():
        print(f"rows a second of hall to those of {name} {seconds / best['hall']:.2f}")
    return best["hall"] / best["loop over zeros"]


# the least time of five runs, and their greatest memory
def least(words, answer):
    runs = []
    for _ in range(5):
        runs.append(timed(words, "/dev/null", quick + "/said"))
        if answer is not None and open(quick + "/said").read() != answer:
            sys.exit(f"{words} said {open(quick + '/said').read()!r}, and not {answer!r}")
    return min(run[0] for run in runs), max(run[1] for run in runs)


# a check of the book, beside opening its journal without replaying it, and beside reading its file
def compare(book, way):
    whole = f"rows {rows} whole\n"
    check, memory = least([program, "check", "--book", book], whole)
    cat, _ = least(["cat", book], None)
    print(f"{os.path.getsize(book)} bytes {way}: check {1e3 * check:.1f} ms,"
          f" {1e6 * check / rows:.2f} us a row, cat {1e3 * cat:.1f} ms, ratio {check / cat:.1f}")
    if "BEFORE" in os.environ:
        before, _ = least([os.environ["BEFORE"], "check", "--book", book], whole)
        print(f"before {1e3 * before:.1f} ms: now {check / before:.2f} of it")
    if opener != "none":
        alone, _ = least([opener, book], "")
        print(f"opened without replay {1e3 * alone:.1f} ms, times of cat {alone / cat:.2f};"
              f" the replay {1e3 * (check - alone):.1f} ms,"
              f" {1e6 * (check - alone) / rows:.2f} us a row")
    print(f"peak memory of check: {memory} KiB, {1024 * memory / rows:.0f} bytes a row")


def opening():
    book = quick + "/book"
    seconds, memory = timed([program, "run", "--book", book], quick + "/many", "/dev/null")
    print(f"{rows} rows made in {seconds:.1f} s, {1024 * memory / rows:.0f} bytes of memory a row")
    compare(book, "by the snapshot")
    slots = SLOT * (rows + 1)
    if os.path.getsize(book) == slots:
        print("the run kept no snapshot: this was the check by the slots")
        return
    os.truncate(book, slots)
    compare(book, "by the slots alone")


to_loop = appending()
opening()
if to_loop < 0.5:
    sys.exit("hall took less than half of the loop's time: either its rows aren't synced, or a sync"
             " takes no time in this folder")
