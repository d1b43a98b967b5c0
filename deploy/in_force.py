"""What is in force in a book: begun with the text of `hall list`, and carried on by the acts behind
it, as `/acts/N` of the office has them (docs/FORMATS.md). Nothing is read or written here; what an
act alone doesn't tell is asked of a `Book`."""

from dataclasses import dataclass, field
from typing import NamedTuple, Protocol

# The acts that give a batch another state.
STATES = {"end": "ended", "draw": "drawn", "close": "closed"}


class Tare(NamedTuple):
    """From which day on an empty package of a product weighs so many grams."""

    product: str
    day: str
    grams: str


class Book(Protocol):
    """What is asked of the book itself."""

    def batch_of(self, pack: int) -> str:
        """The batch of a pack."""

    def tares(self, rows: int) -> list[Tare]:
        """The tares of its first rows, in order."""


class Unclear(Exception):
    """A line isn't the next one, or doesn't fit what is known: the list has to be begun again."""


@dataclass
class Batch:
    product: str
    state: str
    population: int


@dataclass
class InForce:
    """What is in force behind so many rows of a book that takes `limit`."""

    limit: int
    rows: int = 0
    day: str = "none"
    # by product, its nominal quantity with its unit
    products: dict[str, str] = field(default_factory=dict)
    tares: list[Tare] = field(default_factory=list)
    batches: dict[str, Batch] = field(default_factory=dict)
    lanes: dict[int, str] = field(default_factory=dict)
    desks: dict[int, int] = field(default_factory=dict)
    # the day of the list with which it began: what was put before for earlier days isn't known
    since: str = ""

    @classmethod
    def read(cls, text: str, limit: int) -> "InForce":
        """As `hall list` prints it."""
        told = cls(limit)
        for line in text.splitlines():
            told.read_line(line.split(" "))
        told.since = told.day
        return told

    def read_line(self, words: list[str]) -> None:
        match words:
            case ["day", day]:
                self.day = day
            case ["product", name, "nominal", nominal, unit, "tare", grams]:
                self.products[name] = f"{nominal} {unit}"
                if grams != "none":
                    self.tares.append(Tare(name, self.day, grams))
            case ["tare", product, "from", day, grams]:
                self.tares.append(Tare(product, day, grams))
            case ["batch", name, "product", product, "state", state, "population", population]:
                self.batches[name] = Batch(product, state, int(population))
            case ["lane", lane, "batch", batch]:
                self.lanes[int(lane)] = batch
            case ["desk", desk, "request", request]:
                self.desks[int(desk)] = int(request)
            case ["rows", rows, "left", _]:
                self.rows = int(rows)
            case _:
                raise Unclear(f"no line of a list: {' '.join(words)}")

    def take(self, line: str, book: Book) -> None:
        """Takes the next act in, as a line of the book as text."""
        try:
            told, _, asked = line.split("\t")
            row, answer = told.split(" ", 1)
            if int(row) != self.rows + 1:
                raise Unclear(f"row {row} comes behind row {self.rows}")
            words = asked.split(" ")
            if words[0].startswith("@"):
                self.desks[int(words[0][1:])] = int(words[1])
                words = words[2:]
            self.act(words, answer, book)
        except (KeyError, ValueError) as fault:
            raise Unclear(f"{line} doesn't fit: {fault}") from fault
        self.rows += 1

    def act(self, words: list[str], answer: str, book: Book) -> None:
        match words:
            case ["day", day]:
                self.day = day
            case ["product", name, nominal, *unit]:
                self.products[name] = f"{nominal} {unit[0] if unit else 'g'}"
            case ["tare", product, day, grams]:
                self.put_tare(Tare(product, day, grams), book)
            case ["open", batch, product, *_]:
                self.batches[batch] = Batch(product, "running", 0)
            case ["start", lane, batch]:
                self.lanes[int(lane)] = batch
            case ["weigh", lane, _, prior]:
                self.settle(int(lane), prior)
                self.batches[self.lanes[int(lane)]].population += answer == "pass"
            case ["stop", lane, prior]:
                self.settle(int(lane), prior)
                del self.lanes[int(lane)]
            case ["void", pack]:
                self.batches[book.batch_of(int(pack))].population -= 1
            case ["end" | "draw" | "close" as word, batch, *_]:
                self.batches[batch].state = STATES[word]
            case ["measure" | "second", *_]:
                pass
            case _:
                raise Unclear(f"an act that isn't known here: {' '.join(words)}")

    def settle(self, lane: int, prior: str) -> None:
        """The pack before on this lane leaves the population where its gate didn't open."""
        if prior in ("stayed", "unknown"):
            self.batches[self.lanes[lane]].population -= 1

    def put_tare(self, tare: Tare, book: Book) -> None:
        is_again = any(known[:2] == tare[:2] and known.day > self.since for known in self.tares)
        if self.since and (tare.day < self.since or is_again):
            self.tares = book.tares(self.rows)
            self.since = ""
        self.tares.append(tare)

    def holding(self) -> dict[str, Tare]:
        """By product, the tare that was put last for the greatest day up to the newest."""
        found: dict[str, Tare] = {}
        for tare in self.tares:
            if tare.day <= self.day and tare.day >= (found.get(tare.product, tare)).day:
                found[tare.product] = tare
        return found

    def text(self) -> str:
        """The list, as `hall list` prints it."""
        holding = self.holding()
        # of those for a later day, by product and day, the one that was put last
        later = {tare[:2]: tare.grams for tare in self.tares if tare.day > self.day}
        lines = [f"day {self.day}"]
        for name, nominal in self.products.items():
            grams = holding[name].grams if name in holding else "none"
            lines.append(f"product {name} nominal {nominal} tare {grams}")
        for tare in self.tares:
            if later.get(tare[:2]) == tare.grams:
                lines.append(f"tare {tare.product} from {tare.day} {tare.grams}")
        for name, batch in self.batches.items():
            lines.append(
                f"batch {name} product {batch.product} state {batch.state}"
                f" population {batch.population}"
            )
        lines += [f"lane {lane} batch {batch}" for lane, batch in sorted(self.lanes.items())]
        lines += [f"desk {desk} request {last}" for desk, last in sorted(self.desks.items())]
        lines.append(f"rows {self.rows} left {max(0, self.limit - self.rows)}")
        return "".join(f"{line}\n" for line in lines)
