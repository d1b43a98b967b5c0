"""Books drawn at random, through the script line by line: for tests/list.py and tests/acts.py."""

import subprocess
from datetime import date

TODAY = date(2025, 3, 3).toordinal()
LINES = 300
SECONDS = 60


class Script:
    """A run of a script, asked line by line."""

    def __init__(self, program, book):
        self.run = subprocess.Popen([program, "run", f"--book={book}"], stdin=subprocess.PIPE,
                                    stdout=subprocess.PIPE, text=True, bufsize=1)
        self.printed = []

    def ask(self, line):
        self.run.stdin.write(f"{line}\n")
        self.printed.append(self.run.stdout.readline())
        return self.printed[-1].split()

    def end(self):
        self.run.stdin.close()
        self.run.stdout.read()
        return self.run.wait(SECONDS)


class Draw:
    """Lines drawn at random; more than half of them are accepted, and some of a desk come again."""

    def __init__(self, chance):
        self.script, self.chance = None, chance
        self.day = TODAY
        self.requests = {}
        self.packs = 0

    def date(self, least, most):
        return date.fromordinal(self.day + self.chance.randint(least, most)).isoformat()

    def name(self, kind):
        return f"{kind}{self.chance.randint(1, 4)}"

    def line(self):
        """An act of some kind."""
        draw, name = self.chance, self.name
        lane = draw.choice((1, 2, 3, 16))
        kinds = {
            "day": (1, lambda: f"day {self.date(-1, 2)}"),
            "product": (2, lambda: f"product {name('p')} {draw.choice((250, 330.5, 1000))}"
                                   f"{draw.choice(('', ' ml'))}"),
            "tare": (4, lambda: f"tare {name('p')} {self.date(-3, 5)} {draw.randint(8, 12)}"),
            "open": (2, lambda: f"open {name('B')} {name('p')} {draw.choice(('', '1000'))}"),
            "start": (4, lambda: f"start {lane} {name('B')}"),
            "weigh": (20, lambda: f"weigh {lane} {draw.choice((250, 262, 270, 1100))} "
                                  f"{draw.choice(('', '', '', 'stayed', 'unknown'))}"),
            "stop": (3, lambda: f"stop {lane}"),
            "void": (2, lambda: f"void {draw.randint(1, self.packs + 1)}"),
            "end": (3, lambda: f"end {name('B')}"),
            "draw": (4, lambda: f"draw {name('B')} keep {draw.randint(0, 99)}"),
            "close": (1, lambda: f"close {name('B')}"),
        }
        kind = draw.choices(list(kinds), [often for often, _ in kinds.values()])[0]
        return kind, kinds[kind][1]()

    def ask(self):
        """A line, and what follows from its answer: a drawn batch is measured."""
        kind, line = self.line()
        desk = 0
        if kind not in ("start", "weigh", "stop") and self.chance.random() < 0.5:
            desk = self.chance.choice((101, 102, 164))
            line = f"@{desk} {self.requests.get(desk, 0) + 1} {line}"
        answer = self.script.ask(line)
        if answer[0] == "refused":
            return
        self.packs = int(answer[0])
        if desk:
            self.requests[desk] = self.requests.get(desk, 0) + 1
            if self.chance.random() < 0.1 and self.script.ask(line) != answer:
                raise SystemExit(f"{line!r} is answered otherwise when it comes again")
        if kind == "day":
            self.day = date.fromisoformat(line.split()[-1]).toordinal()
        if kind == "draw":
            for pack in self.script.ask(f"sample {line.split()[-3]}")[3:]:
                self.script.ask(f"measure {pack} 262")


def draw_book(program, book, drawn):
    """Draws some acts over a book, and before the first its day, mostly; what that printed."""
    drawn.script = Script(program, book)
    if not drawn.packs and drawn.chance.random() < 0.9:
        drawn.script.ask(f"day {drawn.date(0, 0)}")
    for _ in range(drawn.chance.randint(0, LINES)):
        drawn.ask()
    if drawn.script.end():
        raise SystemExit("the script ended early")
    return "".join(drawn.script.printed)
