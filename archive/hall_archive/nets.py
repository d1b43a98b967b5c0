"""What the rows of a book come to: packs with their piles, batches with their samples, nets, sheets
and the register, as docs/RULES.md and FORMATS.md have them. What the book was told stands in its
rows and isn't judged again; nets are by the tares as they now are. Masses are in mg."""

import bisect
from collections.abc import Iterable, Iterator

from hall_archive import rules
from hall_archive.rows import Close, Draw, End, Entry, Measure, Second, day_text, grams
from hall_archive.standing import WrongBook

PILES = ("passed", "rejected", "sampled", "voided")
POPULATION = ("passed", "sampled")
REGISTER_HEAD = "pack,batch,product,lane,day,gross,net,class,signal,pile\n"


class Goods:
    """A product: its nominal quantity (mg or microlitres), and its tares by their first day."""

    def __init__(self, name: str, nominal: int, is_volume: bool) -> None:
        self.name = name
        self.nominal = nominal
        self.is_volume = is_volume
        self.days: list[int] = []
        self.tares: dict[int, int] = {}

    def put(self, day: int, tare: int) -> None:
        if day not in self.tares:
            bisect.insort(self.days, day)
        self.tares[day] = tare

    def tare(self, day: int) -> int:
        """The tare that holds on a day; each pack has one."""
        place = bisect.bisect_right(self.days, day)
        if not place:
            raise WrongBook(f"{self.name} has no tare on {day_text(day)}")
        return self.tares[self.days[place - 1]]


class Pack:
    """A weighing: its row, its batch, the day and what it was told."""

    __slots__ = ("row", "batch", "day", "gross", "lane", "signal", "pile")

    def __init__(
        self, row: int, batch: "Batch", day: int, gross: int, lane: int, signal: str, pile: str
    ) -> None:
        self.row = row
        self.batch = batch
        self.day = day
        self.gross = gross
        self.lane = lane
        self.signal = signal
        self.pile = pile

    @property
    def net(self) -> int:
        return self.gross - self.batch.goods.tare(self.day)


class Batch:
    """A batch, from the row of its opening on."""

    def __init__(self, row: int, name: str, goods: Goods, density: int) -> None:
        self.row = row
        self.name = name
        self.goods = goods
        self.density = density
        self.limits = rules.limits(goods.nominal, density)
        self.state = "running"
        self.verdict = ""
        self.packs: dict[int, Pack] = {}
        self.mode = ""
        self.words: list[int] = []
        self.samples: list[list[int]] = []
        self.measured: dict[int, tuple[int, int]] = {}

    def population(self) -> list[Pack]:
        """The packs that count, ascending."""
        return [pack for pack in self.packs.values() if pack.pile in POPULATION]

    def take(self, entry: Entry, picks: list[int]) -> None:
        """Takes in what was done with it: its end, its draws by the packs that they moved, what was
        measured, its verdict."""
        match entry.act:
            case End():
                self.state = "ended"
            case Draw(_, mode, word):
                self.state, self.mode = "drawn", mode
                self.words.append(word)
                self.samples.append(picks)
            case Second(_, word):
                self.words.append(word)
                self.samples.append(picks)
            case Measure(pack, gross, empty):
                self.measured[pack] = (gross, empty)
            case Close():
                self.state, self.verdict = "closed", entry.told

    def contents(self, pack: int) -> int:
        """What a measured pack holds, in mg."""
        gross, empty = self.measured[pack]
        if self.mode == "destroy":
            return gross - empty
        return gross - self.goods.tare(self.packs[pack].day)


def first_pile(signal: str) -> str:
    return "passed" if signal == "pass" else "rejected"


# ---- texts


class Sums:
    """How many packs, and the sum of their grosses in mg."""

    def __init__(self, packs: Iterable[Pack]) -> None:
        grosses = [pack.gross for pack in packs]
        self.count = len(grosses)
        self.gross = sum(grosses)

    def __str__(self) -> str:
        return f"{self.count} gross {grams(self.gross)}"


def sheet(batch: Batch) -> str:
    """The sheet of a batch, as `hall report --batch` prints it."""
    packs = list(batch.packs.values())
    lines = [head(batch), f"state {batch.state}", f"readings {Sums(packs)}"]
    lines += [f"{pile} {Sums(pack for pack in packs if pack.pile == pile)}" for pile in PILES]
    nets = [pack.net for pack in batch.population()]
    short = sum(net < batch.limits.t1 for net in nets)
    inadequate = sum(net < batch.limits.t2 for net in nets)
    lines.append(
        f"population {len(nets)} net {grams(sum(nets))} nonstandard {short}"
        f" inadequate {inadequate}"
    )
    lines.append(f"held {'yes' if inadequate else 'no'}")
    for name, picks in zip((f"test {batch.mode} first", "second"), batch.samples, strict=False):
        lines.append(f"{name} {measured(batch, picks)}")
    if batch.verdict:
        lines.append(f"verdict {batch.verdict}")
    return "".join(f"{line}\n" for line in lines)


def head(batch: Batch) -> str:
    goods = batch.goods
    unit = " ml" if goods.is_volume else ""
    density = f" density {grams(batch.density)}" if goods.is_volume else ""
    return (
        f"batch {batch.name} product {goods.name} nominal {grams(goods.nominal)}{unit}"
        f" tne {grams(rules.tne(goods.nominal))}{unit}{density}"
    )


def measured(batch: Batch, picks: list[int]) -> str:
    contents = [batch.contents(pack) for pack in picks if pack in batch.measured]
    defective = sum(content < batch.limits.t1 for content in contents)
    return f"{len(picks)} measured {len(contents)} defective {defective}"


def record(pack: Pack) -> str:
    """A pack's line of the register, as `hall export` prints it."""
    batch, net = pack.batch, pack.net
    return (
        f"{pack.row},{batch.name},{batch.goods.name},{pack.lane},{day_text(pack.day)},"
        f"{grams(pack.gross)},{grams(net)},{batch.limits.class_of(net)},{pack.signal},{pack.pile}\n"
    )


def register(packs: Iterable[Pack]) -> Iterator[str]:
    """The register, line by line."""
    yield REGISTER_HEAD
    yield from map(record, packs)
