"""What a follower asks of a book and hands to the archive: pages of rows, the cursor, and what one
commit keeps."""

from dataclasses import dataclass, field
from typing import NamedTuple, Protocol

from hall_archive.clock import Answer, Clock
from hall_archive.standing import Move, Standing


class OtherBook(Exception):
    """The book at hand isn't the one that was followed so far."""


class Unanswered(Exception):
    """No answer came, or none of a book: it is asked again."""


class Unkept(Exception):
    """The database doesn't answer, or has no room: it is tried again."""


class Behind(Exception):
    """The archive is at another row than was thought: it is read anew."""


class Cursor(NamedTuple):
    """How far a book was followed: rows taken, when the last request was sent whose answer wasn't
    full (ms of UTC), its clock, and why it is refused, where it is."""

    upto: int
    asked: int | None
    clock: Clock | None
    refused: str | None


class Page(NamedTuple):
    """What a source says: lines, and how many rows the book has."""

    text: str
    rows: int


class BatchRow(NamedTuple):
    """How a batch stands, as it is kept."""

    row: int
    name: str
    product: str
    state: str
    verdict: str
    first: int
    last: int
    closed: int | None


# row, batch, day, gross, by, lane, prior, signal
PackRow = tuple[int, int, int, int, int, int, int, int]
# row, batch, product, kind, line
ActRow = tuple[int, int | None, str | None, str, str]


@dataclass
class Taken:
    """What one commit keeps: rows behind `after` up to `upto`, and what they come to."""

    after: int
    upto: int
    asked: int | None
    clock: Clock | None
    packs: list[PackRow] = field(default_factory=list)
    acts: list[ActRow] = field(default_factory=list)
    moves: list[Move] = field(default_factory=list)
    answers: list[Answer] = field(default_factory=list)
    batches: list[BatchRow] = field(default_factory=list)
    closed: list[str] = field(default_factory=list)


class Source(Protocol):
    """Where the rows of a book come from."""

    def ask(self, after: int) -> Page:
        """The lines behind a row; Unanswered where none come."""

    @property
    def is_new(self) -> bool:
        """Whether the next request is the first of its connection."""

    def close(self) -> None:
        """Ends the connection."""


class Archive(Protocol):
    """What a follower needs of the archive; `store.Store` is one. Each call is Unkept where the
    database doesn't answer."""

    def cursor(self) -> Cursor:
        ...

    def standing(self, upto: int) -> Standing:
        """How the book stands behind the rows that were taken."""

    def lines(self, after: int, upto: int) -> list[str]:
        ...

    def keep(self, taken: Taken) -> None:
        ...

    def refuse(self, why: str) -> None:
        ...
