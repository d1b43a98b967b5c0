#!/usr/bin/env python3
"""The inspector's own test beside the book's: drawn batches are weighed, drawn and measured in a
book, and `inspector/hall-inspect` judges the same packs by the same words and weights. Picks, the
contents check and the mean check have to be those of the book, in each of 1 000 tests. Before that
what it refuses.

usage: tests/own_test.py [TESTS] [SEED]        HALL names the program
Done in 5 minutes; prints the seed.
"""

import csv
import importlib.machinery
import importlib.util
import io
import os
import random
import subprocess
import sys
import tempfile
from collections import Counter
from contextlib import redirect_stderr, redirect_stdout

TOP = os.path.dirname(os.path.dirname(os.path.realpath(__file__)))
HALL = os.environ.get("HALL", f"{TOP}/crates/hall_cli/out/hall_cli")
INSPECT = f"{TOP}/inspector/hall-inspect"
TESTS, BATCHES = 1000, 20
TARE = 10_000
# Fewer packs have no destructive test.
SMALL = 100

# What a batch is drawn from: label, spread of contents in mg at its nominal quantity, density.
GOODS = (
    ("250g", 250_000, 6_000, None),
    ("75g", 75_000, 3_000, None),
    ("999g", 999_000, 9_000, None),
    ("500ml", 500_000, 9_000, 1_030_000),
    ("1000ml", 1_000_000, 9_000, 983_200),
)
# How many packs a batch has: at both sides of each row of the plans.
SIZES = (1, 2, 39, 40, 41, 80, 99, 100, 101, 250, 500, 501)
LARGE = (3200, 3201)


def grams(mass):
    """Milligrams as a text of grams."""
    return f"{mass // 1000}.{mass % 1000:03}"


class Batch:
    """A drawn batch: its goods, the grosses of its packs, how they are tested and measured."""

    def __init__(self, draw, name, large):
        self.name = name
        self.label, nominal, spread, density = draw.choice(GOODS)
        self.density = density
        self.volume = density is not None
        self.nominal = nominal * (density or 10**6) // 10**6
        # some have their mean far off, most near to the nominal quantity
        self.shift = draw.choice((-spread, -spread // 3, 0, 0, spread // 3, spread))
        self.spread = spread
        count = draw.choice(LARGE if large else SIZES)
        self.mode = "destroy" if count >= 100 and draw.random() < 0.3 else "keep"
        self.words = draw.randrange(2**64), draw.randrange(2**64)
        self.grosses = [self.gross(draw) for _ in range(count)]

    def gross(self, draw):
        return max(0, TARE + self.nominal + int(draw.gauss(self.shift, self.spread)))

    def opened(self):
        """The lines that open and fill the batch, and draw its first sample."""
        amount = self.label.removesuffix("g").removesuffix("ml")
        product = f"p{self.name}"
        yield f"product {product} {amount}{' ml' if self.volume else ''}"
        yield f"tare {product} 2025-03-03 {grams(TARE)}"
        yield f"open {self.name} {product}{' ' + grams(self.density) if self.volume else ''}"
        yield f"start 1 {self.name}"
        yield from (f"weigh 1 {grams(gross)}" for gross in self.grosses)
        yield "stop 1"
        yield f"end {self.name}"
        yield f"draw {self.name} {self.mode} {self.words[0]}"
        # (where too few were let out to be destroyed)
        if self.mode == "destroy":
            yield f"draw {self.name} keep {self.words[0]}"

    def is_drawn_from(self, count):
        """Says how many packs there were to draw from."""
        if count < SMALL:
            self.mode = "keep"

    def weighed(self, draw, pack):
        """The weight of a drawn pack, and of the empty one where it is destroyed, as texts."""
        empty = [] if self.mode == "keep" else [grams(TARE + draw.randrange(-200, 200))]
        return [grams(self.gross(draw)), *empty]


def run(book, lines):
    """The answers of the hall to some lines."""
    told = subprocess.run(
        [HALL, "run", "--book", book],
        input="".join(f"{x}\n" for x in lines),
        capture_output=True,
        text=True,
        check=True,
    )
    return told.stdout.splitlines()


def inspect(words, text=""):
    """What hall-inspect prints, says on standard error, and its status."""
    loader = importlib.machinery.SourceFileLoader("hall_inspect", INSPECT)
    module = importlib.util.module_from_spec(
        importlib.util.spec_from_loader("hall_inspect", loader)
    )
    loader.exec_module(module)
    sys.argv, sys.stdin = ["hall-inspect", *words], io.StringIO(text)
    output, errors = io.StringIO(), io.StringIO()
    with redirect_stdout(output), redirect_stderr(errors):
        try:
            status = module.main()
        except SystemExit as end:
            status = end.code
    return output.getvalue(), errors.getvalue(), status


def picks_of(line):
    """Both samples of a line `sample B first .. second ..`."""
    first, _, second = line.partition(" second ")
    return first.split(" first ")[1].split() if " first " in first else [], second.split()


class Failed(Exception):
    """What was otherwise than in the book."""


def want(name, found, wanted):
    if found != wanted:
        raise Failed(f"{name}: {found}, where the book has {wanted}")


def register_of(book):
    return subprocess.run(
        [HALL, "export", "--book", book], capture_output=True, text=True, check=True
    ).stdout


def draw_own(batch, register):
    """The form of the inspector's own test over the packs that the book drew from."""
    density = ["--density", grams(batch.density)] if batch.volume else []
    destroy = ["--destroy"] if batch.mode == "destroy" else []
    words = [batch.name, str(batch.words[0]), batch.label, "--second", str(batch.words[1])]
    return inspect(["draw", *words, "--sampled", *density, *destroy], register)


def closed(draw, book, batch, packs, folder):
    """Measures a batch in the book and on the form, and compares both results."""
    form, errors, status = draw_own(batch, packs)
    want(f"{batch.name}: status of draw {errors}", status, 0)
    first, _ = picks_of(run(book, [f"sample {batch.name}"])[0])
    on_form = [line.split()[1] for line in form.splitlines() if line.startswith("pack ")]
    want(f"{batch.name}: first picks", on_form[: len(first)], first)
    weights = {pack: batch.weighed(draw, pack) for pack in on_form}
    lines = [f"measure {pack} {' '.join(weights[pack])}" for pack in first]
    told = run(book, [*lines, f"second {batch.name} {batch.words[1]}", f"sample {batch.name}"])
    second = picks_of(told[len(first) + 1])[1]
    want(f"{batch.name}: second picks", on_form[len(first) :][: len(second)], second)
    lines = [f"measure {pack} {' '.join(weights[pack])}" for pack in second]
    verdict = run(book, [*lines, f"close {batch.name}"])[len(second)].split()
    drawn = {*first, *second}
    path = f"{folder}/{batch.name}.test"
    with open(path, "w", encoding="utf-8") as file:
        for line in form.splitlines():
            pack = line.split()[1] if line.startswith("pack ") else None
            file.write(line + (" " + " ".join(weights[pack]) if pack in drawn else "") + "\n")
    result, errors, status = inspect(["judge", path])
    said = {line.split()[0]: line.split()[-1] for line in result.splitlines()[-3:]}
    for check in ("contents", "mean"):
        held = "rejected" if check in verdict[2:] else "accepted"
        want(f"{batch.name}: {check} of {verdict} {errors}", said.get(check), held)
    want(f"{batch.name}: status", status, 0 if said["result"] == "accepted" else 1)
    return said["contents"], said["mean"], bool(second), batch.mode, batch.volume


def book_of(draw, folder, number, count, large):
    """A book of drawn batches, each of them judged twice; how each ended."""
    book = f"{folder}/{number}.book"
    batches = [Batch(draw, f"B{number}.{place}", large) for place in range(count)]
    run(book, ["day 2025-03-03", *(line for batch in batches for line in batch.opened())])
    register = register_of(book)
    rows = list(csv.DictReader(register.splitlines()))
    stocked = Counter(row["batch"] for row in rows if row["pile"] in ("passed", "sampled"))
    ends = []
    for batch in batches:
        batch.is_drawn_from(stocked[batch.name])
        if stocked[batch.name]:
            ends.append(closed(draw, book, batch, register, folder))
    os.remove(book)
    return ends


REFUSED = (
    (["draw", "B", "1", "250g"], "no pack of a batch B"),
    (["draw", "A", "1", "250"], "NOMINAL is as 250g"),
    (["draw", "A", "1", "4g"], "NOMINAL is 5 to 10000"),
    (["draw", "A", "1", "250ml"], "--density is given"),
    (["draw", "A", "1", "250g", "--density", "1000"], "--density is given"),
    (["draw", "A", "1", "250ml", "--density", "499"], "--density is 500 to 2000"),
    (["draw", "A", "1", "250g", "--destroy"], "100 packs and more, here are 2"),
    (["draw", "A", "1", "250g", "--tare", "10,2"], "--tare: not a quantity"),
    (["draw", "A", str(2**64), "250g"], "a word is 0 to"),
    (["draw", "A", "-1", "250g"], ""),
    (["judge", "/nowhere"], "No such file"),
)
REGISTER = (
    "pack,batch,product,lane,day,gross,net,class,signal,pile\n"
    "6,A,rice,1,2025-03-03,262.000,252.000,standard,pass,passed\n"
    "7,A,rice,1,2025-03-03,260.000,250.000,standard,pass,passed\n"
    "8,A,rice,1,2025-03-03,230.000,220.000,inadequate,reject inadequate,rejected\n"
)


def refusals(folder):
    """Words and forms that are faulty, each refused with its reason."""
    for words, reason in REFUSED:
        _, errors, status = inspect(words, REGISTER)
        if status != 2 or reason not in errors:
            raise Failed(f"{words}: status {status}, {errors!r}")
    form, _, _ = inspect(["draw", "A", "1", "250g"], REGISTER)
    # by hand: two packs, each 10 g of tare; the mean of 251 and 250 is 250.5, s is 0.707
    for weights, last in ((("261", "260"), "result accepted"), (("259", "260"), "result rejected")):
        lines = form.splitlines()
        places = [at for at, line in enumerate(lines) if line.startswith("pack ")]
        for at, weight in zip(places, weights):
            lines[at] += f" {weight}"
        with open(f"{folder}/hand", "w", encoding="utf-8") as file:
            file.write("\n".join(lines))
        text, errors, _ = inspect(["judge", f"{folder}/hand"])
        want(f"by hand {errors}", text.splitlines()[-1], last)
    want("by hand", "mean 249.500 s 0.707 limit 250.000 rejected" in text, True)
    with open(f"{folder}/hand", "w", encoding="utf-8") as file:
        file.write(form)
    _, errors, status = inspect(["judge", f"{folder}/hand"])
    want("a form without weights", (status, "needs a weight" in errors), (2, True))
    weighed = form.replace("pack 6", "pack 6 261").replace("pack 7", "pack 7 260")
    for spoiled, reason in (
        (weighed.replace("# tare 10.000\n", "", 1), "`# tare` before it"),
        (weighed.replace("# tare 10.000", "# tare "), "not a quantity"),
        (weighed.replace("mode keep", "mode kepe"), "the form's mode is keep or destroy"),
        (weighed.replace("stock 2", "stock"), "no whole line stock"),
        (weighed.replace("260", "26O"), "not a quantity"),
        (weighed.replace("pack 6 261\n", ""), "the plan wants 2 and 0 packs"),
        ("", "no whole line test"),
    ):
        with open(f"{folder}/hand", "w", encoding="utf-8") as file:
            file.write(spoiled)
        _, errors, status = inspect(["judge", f"{folder}/hand"])
        want(f"a spoiled form {errors}", (status, reason in errors), (2, True))
    for register in ("", "batch MORNING\n", REGISTER.replace("gross", "weight")):
        _, errors, status = inspect(["draw", "A", "1", "250g"], register)
        want("no register", (status, "isn't the register" in errors), (2, True))


def main():
    count = int(sys.argv[1]) if len(sys.argv) > 1 else TESTS
    seed = int(sys.argv[2]) if len(sys.argv) > 2 else random.randrange(2**32)
    draw, ends = random.Random(seed), []
    print(f"own_test: seed {seed}")
    try:
        with tempfile.TemporaryDirectory() as folder:
            refusals(folder)
            number = 0
            while len(ends) < count:
                large = number % 25 == 24
                ends += book_of(draw, folder, number, 2 if large else BATCHES, large)
                number += 1
    except Failed as why:
        print(f"own_test: {why}", file=sys.stderr)
        return 1
    seen = {
        what: sum(test(end) for end in ends)
        for what, test in (
            ("contents rejected", lambda end: end[0] == "rejected"),
            ("mean rejected", lambda end: end[1] == "rejected"),
            ("with a second sample", lambda end: end[2]),
            ("destructive", lambda end: end[3] == "destroy"),
            ("by volume", lambda end: end[4]),
        )
    }
    print(
        f"own_test: {len(ends)} tests as in the book, "
        + ", ".join(f"{many} {what}" for what, many in seen.items())
    )
    return 0 if all(seen.values()) else 1


sys.exit(main())
