"""Books over months and halls: see tests/months.sh.

usage: months.py PROGRAM FOLDER BOOKS SEED [PART..]"""

import csv
import glob
import io
import json
import os
import random
import shutil
import subprocess
import sys
from contextlib import redirect_stderr, redirect_stdout
from decimal import Decimal
from typing import Any

HERE = os.path.dirname(os.path.realpath(__file__))
sys.path.insert(0, f"{HERE}/../archive")

import months_reckoned as reckoned  # noqa: E402
from archive_room import Postgres  # noqa: E402
from clients import need  # noqa: E402
from months_halls import several  # noqa: E402
from months_next import DOORS, PORT, Halls, days, refused  # noqa: E402
from months_reckoned import NAMES, Pack, grouped  # noqa: E402
from months_wait import waits  # noqa: E402

from hall_archive.__main__ import main as archive  # noqa: E402

PRICES = {"p1": "1.89", "p2": "0.985", "p3": "12.4", "p4": "3"}
PERIOD = "2024-12-01..2027-03-31"
MONTH = "2025-03"
FIRST = "2026-12"
KILLED_WITHIN = 2.5


def say(text: str) -> None:
    print(f"months: {text}", flush=True)


class Archive:
    """The archive of a chain of books, over one database."""

    def __init__(self, halls: Halls, database: str) -> None:
        self.halls, self.database = halls, database
        self.path = f"{halls.etc}/archive.toml"
        self.front = f"{halls.folder}/acts.log"
        self.refused = 0
        lines = [f'database = "{database}"', f'folder = "{halls.folder}"']
        lines += [f'program = "{halls.program}"', f'books = "{halls.books}"']
        lines += [f'front = "{self.front}"', "[reports]", 'zone = "Europe/Berlin"', "aim = 0.8"]
        lines += ["[reports.prices]", *(f"{one} = {price}" for one, price in PRICES.items())]
        lines += ["", "[[book]]", 'hall = "main"', f'name = "{FIRST}"', f"door = {PORT + DOORS}"]
        with open(self.path, "w", encoding="utf-8") as file:
            file.write("".join(f"{line}\n" for line in lines))
        need(self.ask("migrate")[0] == 0, "the tables are made")

    def ask(self, *words: str) -> tuple[int, str]:
        out = io.TextIOWrapper(io.BytesIO(), "utf-8", write_through=True)
        with redirect_stdout(out), redirect_stderr(out):
            status = archive(["--settings", self.path, *words])
        return status, out.buffer.getvalue().decode(errors="replace")  # type: ignore[attr-defined]

    def report(self, by: str, *words: str) -> dict[str, Any]:
        status, said = self.ask("report", PERIOD, by, *words)
        need(status == 0, f"report by {by}: {said[-500:]}")
        told: dict[str, Any] = json.loads(said)
        return told

    def refuse(self, book: str, chance: random.Random) -> None:
        """The front says that acts of this book were refused."""
        with open(self.front, "a", encoding="utf-8") as file:
            for _ in range(chance.randint(0, 3)):
                body = {"act": "tare", "desk": 101, "request": 7, "product": "p1"}
                line = {"time": "1767225600.123", "took": "0.010", "book": book, "person": "anna",
                        "status": "409", "row": "9", "body": json.dumps(body)}  # fmt: skip
                file.write(json.dumps(line) + "\n")
                self.refused += 1


def chain(program: str, folder: str, books: int, seed: str, database: str) -> str:
    """Books that follow each other, with kills; then reports of all of them, and a month kept."""
    halls = Halls(program, folder, seed)
    chance = random.Random(f"{seed} kills")
    known = Archive(halls, database)
    names = [FIRST]
    try:
        halls.settle(FIRST)
        opening = "day 2025-03-03\nproduct p1 250\ntare p1 2025-03-03 10\n"
        halls.hall("run", "--book", halls.path(FIRST), given=opening)
        halls.work(FIRST)
        for unit in (f"hall@{FIRST}", f"hall-archive-follow@{FIRST}"):
            need(halls.control("enable", "--now", unit) == 0, f"{unit} doesn't begin")
        refused(halls, FIRST)
        days(halls, FIRST)
        while len(names) < books:
            known.refuse(names[-1], chance)
            if len(names) == 1:
                names.append(waits(halls, FIRST))
            else:
                names.append(halls.hand_over(names[-1], chance.randint(0, 2), KILLED_WITHIN))
            with halls.at_rest(names[-1]):
                halls.work(names[-1])
        halls.end()
        for name in names:
            status, said = known.ask("take", name)
            need(status == 0, f"take {name}: {said}")
            witnessed(halls, known, name)
        packs = compare_reports(halls, known, names)
        kept = keep(halls, known, chance)
        return f"{books} books, {halls.kills} kills, {packs} packs; {kept}"
    finally:
        halls.end()


def witnessed(halls: Halls, known: Archive, name: str) -> None:
    """The last line of a witness is of all rows of the book, with its fingerprint."""
    status, said = known.ask("verify", name)
    need(status == 0, f"verify {name}: {said}")
    with open(f"{halls.folder}/main.{name}.witness", encoding="ascii") as file:
        last = file.read().splitlines()[-1].split(" ")
    audited = halls.hall("audit", "--book", halls.path(name)).split()
    need(last[1] == audited[1] and last[-1] == audited[-1], f"{name}: {last} for {audited}")


def texts(halls: Halls, name: str) -> tuple[str, str]:
    path = halls.path(name)
    return halls.hall("export", "--book", path), halls.hall("report", "--book", path)


def compare_reports(halls: Halls, known: Archive, names: list[str]) -> int:
    """Every report beside what is reckoned of the program's own prints."""
    packs: list[Pack] = []
    verdicts: list[str] = []
    for name in names:
        export, report = texts(halls, name)
        packs += reckoned.packs_of("main", name, export, report)
        verdicts += reckoned.verdicts_of(report).values()
        summary_of(known, name, report)
    prices = {product: Decimal(price) for product, price in PRICES.items()}
    for by, name_of in NAMES.items():
        report_of = known.report(by)
        lines = {line["name"]: line for line in report_of["lines"] if line["readings"]}
        wanted = grouped(packs, name_of)
        need(lines.keys() == wanted.keys(), f"by {by}: {lines.keys()} for {wanted.keys()}")
        for name, own in wanted.items():
            faults = reckoned.differences(lines[name], own, prices)
            need(not faults, f"by {by}, {name}: {faults}")
        faults = reckoned.differences(report_of["total"], packs, prices)
        need(not faults, f"by {by}, all: {faults}")
        compare_more(report_of, packs, verdicts, known, prices)
    compare_forms(known, known.report("day"))
    hourless = known.report("shift")
    need(hourless["total"]["readings"] == len(packs), "packs without an hour are missing")
    return len(packs)


def compare_more(
    report: dict[str, Any],
    packs: list[Pack],
    verdicts: list[str],
    known: Archive,
    prices: dict[str, Decimal],
) -> None:
    """Products by lanes, verdicts, refused acts."""
    for one in report["matrix"]:
        own = [
            pack
            for pack in packs
            if one["product"] in ("", pack.product) and one["lane"] in (0, pack.lane)
        ]
        faults = reckoned.differences(one, own, prices)
        need(not faults, f"{one['product']}, lane {one['lane']}: {faults}")
    for word in ("released", "withheld", "empty"):
        count = sum(verdict.split(" ")[0] == word for verdict in verdicts)
        need(report["total"][word] == count, f"{word}: {report['total'][word]} for {count}")
    need(report["total"]["refused"] == known.refused, f"refused {report['total']['refused']}")


def summary_of(known: Archive, name: str, report: str) -> None:
    """The sums of one book are those of its `report`."""
    told = known.report("book", "--name", name)["total"]
    summary = report[report.rindex("rows ") :].splitlines()
    for line in summary[2:6]:
        pile, count, _, gross = line.split(" ")
        own = (told[pile], told[f"{pile}_gross"])
        need(own == (int(count), reckoned.milligrams(gross)), f"{name}: {own} for {line}")


def compare_forms(known: Archive, report: dict[str, Any]) -> None:
    """CSV and spreadsheet have the figures of the report; the PDF is one of several pages."""
    import openpyxl

    status, text = known.ask("report", PERIOD, "day", "--form", "csv")
    need(status == 0, text)
    rows = [one for one in csv.DictReader(io.StringIO(text)) if one["part"] == "day"]
    path = f"{known.halls.folder}/report.xlsx"
    with open(path, "wb") as file:
        file.write(made(known, "xlsx"))
    sheet = openpyxl.load_workbook(path).worksheets[0]
    values = [[cell.value for cell in row] for row in sheet.iter_rows(min_row=2)]
    of_days = [row for row in values if row[0] == "day"]
    need(len(rows) == len(of_days) == len(report["lines"]), "lines are missing")
    for line, row, cells in zip(report["lines"], rows, of_days, strict=True):
        readings, net = int(row["readings"]), reckoned.milligrams(row["net"])
        need((readings, net) == (line["readings"], line["net"]), f"CSV: {row}")
        need(cells[1] == line["name"] and cells[4] == line["readings"], f"spreadsheet: {cells}")
    look(known, made(known, "pdf"))


def made(known: Archive, form: str) -> bytes:
    words = [sys.executable, "-B", f"{HERE}/../archive/hall-archive", "--settings", known.path]
    words += ["report", PERIOD, "day", "--form", form]
    return subprocess.run(words, capture_output=True, check=True).stdout


def look(known: Archive, pdf: bytes) -> None:
    """The PDF as text has the days' figures, and as pictures isn't blank."""
    path = f"{known.halls.folder}/report.pdf"
    with open(path, "wb") as file:
        file.write(pdf)
    text = subprocess.run(["pdftotext", "-layout", path, "-"], capture_output=True, check=True)
    need(b"Given away by product and lane" in text.stdout, "the PDF has no figures")
    subprocess.run(["pdftoppm", "-r", "50", "-gray", path, f"{path}.page"], check=True)
    pages = [one for one in os.listdir(known.halls.folder) if ".page-" in one]
    for page in pages:
        with open(f"{known.halls.folder}/{page}", "rb") as file:
            body = file.read()
        need(body.count(b"\0"[0:1]) + sum(one < 128 for one in body[20:]) > 200, f"{page} is blank")
    pictured([path])


def pictured(paths: list[str]) -> None:
    """What a person is to look at."""
    if folder := os.environ.get("PICTURES"):
        for path in paths:
            shutil.copy(path, folder)


# ---- a month that is kept


def keep(halls: Halls, known: Archive, chance: random.Random) -> str:
    """A month is kept, held, and each spoiled copy of it is told."""
    status, said = known.ask("keep", MONTH, "--into", f"{halls.folder}/kept")
    need(status == 0, f"keep: {said}")
    folder = f"{halls.folder}/kept/{MONTH}"
    checked = subprocess.run(["sha256sum", "--quiet", "-c", "DIGESTS"], cwd=folder, check=False)
    need(checked.returncode == 0, "sha256sum differs")
    papers(halls, folder)
    pictured(glob.glob(f"{folder}/**/*.pdf", recursive=True))
    need(known.ask("keep", MONTH, "--into", f"{halls.folder}/kept")[0] == 1, "kept twice")
    for spoil in (cut, change, remove, add, forge):
        copy = f"{halls.folder}/spoiled"
        shutil.copytree(folder, copy)
        subprocess.run(["chmod", "-R", "u+w", copy], check=True)
        what = spoil(copy, chance)
        status, told = archive_bare("verify", copy)
        need(status == 1, f"{spoil.__name__} of {what} isn't told: {told}")
        shutil.rmtree(copy)
    status, told = archive_bare("verify", folder)
    need(status == 0, told)
    return told.partition(": ")[2].strip()


def archive_bare(*words: str) -> tuple[int, str]:
    """Without settings or a database."""
    run = [sys.executable, "-B", f"{HERE}/../archive/hall-archive", "--settings", "/nowhere"]
    ran = subprocess.run([*run, *words], capture_output=True, text=True, check=False)
    return ran.returncode, ran.stdout + ran.stderr


def papers(halls: Halls, folder: str) -> None:
    """Papers are the program's, byte for byte, and books are made of their shipments."""
    for book in os.listdir(f"{folder}/papers"):
        name = book.split(".", 1)[1]
        for paper in os.listdir(f"{folder}/papers/{book}"):
            batch = paper.removesuffix(".txt")
            wanted = halls.hall("paper", "--book", halls.path(name), "--batch", batch)
            with open(f"{folder}/papers/{book}/{paper}", encoding="ascii") as file:
                need(file.read() == wanted, f"the paper of {batch} of {name} differs")
        with open(f"{folder}/sheets/{book}.txt", encoding="ascii") as file:
            sheets = file.read().replace("\n\n", "\n")
        need(halls.hall("report", "--book", halls.path(name)).startswith(sheets), f"{name}: sheets")


def some(folder: str, chance: random.Random) -> str:
    found = [os.path.join(place, name) for place, _, names in os.walk(folder) for name in names]
    full = [path for path in found if os.path.getsize(path) and not path.endswith("DIGESTS")]
    return chance.choice(sorted(full))


def cut(folder: str, chance: random.Random) -> str:
    path = some(folder, chance)
    os.truncate(path, os.path.getsize(path) - 1)
    return path


def change(folder: str, chance: random.Random) -> str:
    path = some(folder, chance)
    with open(path, "r+b") as file:
        file.seek(chance.randrange(os.path.getsize(path)))
        one = file.read(1)
        file.seek(-1, os.SEEK_CUR)
        file.write(bytes([one[0] ^ 1]))
    return path


def remove(folder: str, chance: random.Random) -> str:
    path = some(folder, chance)
    os.remove(path)
    return path


def add(folder: str, _: random.Random) -> str:
    with open(f"{folder}/evidence/more.jsonl", "w", encoding="ascii") as file:
        file.write("")
    return "a file"


def forge(folder: str, chance: random.Random) -> str:
    """A row changed with its digest in the list: the audit still tells it."""
    books = sorted(one for one in os.listdir(f"{folder}/books") if one.endswith(".ship"))
    path = f"books/{chance.choice(books)}"
    with open(f"{folder}/{path}", "r+b") as file:
        file.seek(16 + 6)
        file.write(b"\x01")
    listed = subprocess.run(["sha256sum", path], cwd=folder, capture_output=True, text=True)
    with open(f"{folder}/DIGESTS", encoding="utf-8") as file:
        lines = [line for line in file if not line.endswith(f"  {path}\n")] + [listed.stdout]
    with open(f"{folder}/DIGESTS", "w", encoding="utf-8") as file:
        file.writelines(sorted(lines, key=lambda line: line.split("  ")[1]))
    return path


def main() -> None:
    program, folder, books, seed, *parts = sys.argv[1:]
    say(f"seed {seed}")
    parts = parts or ["sqlite", "postgresql", "halls"]
    if "sqlite" in parts:
        database = f"sqlite:///{folder}/archive.db"
        say(f"SQLite: {chain(program, f'{folder}/chain', int(books), seed, database)}")
    if "postgresql" in parts:
        postgres = Postgres(folder)
        try:
            # a few of them: what differs is the database alone
            few = max(3, int(books) // 5)
            done = chain(program, f"{folder}/chain-postgresql", few, f"{seed} p", postgres.url)
            say(f"PostgreSQL: {done}")
        finally:
            postgres.kill()
    if "halls" in parts:
        os.makedirs(f"{folder}/halls")
        os.chmod(f"{folder}/halls", 0o755)
        say(several(f"{folder}/halls", seed))


main()
