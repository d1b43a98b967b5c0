"""Says lines to a lane's port of a hall, each until it is acknowledged, over any restart of the hall
and any cut of a connection. `send` says how."""

import enum
import os
import select
import time

from hall_adapter.sender_book import ASK_WAIT, Book, Newest, Unasked
from hall_adapter.sender_lines import is_batch, report
from hall_adapter.sender_link import Link
from hall_adapter.sender_numbers import Numbers

# How long to wait before a connection is tried again, in seconds.
RETRY = 0.1
# How long a hall is silent that passes a number over, in seconds; it leaves a connection after 10.
SILENCE = 5.0
# How often a number is said in that time.
TIMES = 3
# How many connections that were left are heard at once; the oldest ones, where the line was said
# first.
MOST_LEFT = 16


class Gone(Exception):
    """The hall is gone, and the end was said."""


class Answer(enum.Enum):
    """What came of a line: it is acknowledged, or the hall waits for another number, or nothing."""

    DONE = enum.auto()
    OTHER_NUMBER = enum.auto()
    SILENCE = enum.auto()


class Sender:
    """Says lines to a hall, one after the other."""

    def __init__(
        self,
        address: tuple[str, int],
        first: int = 1,
        seconds: float = 5.0,
        book: Book | None = None,
    ):
        self.address = address
        self.numbers = Numbers(first - 1)
        self.seconds = seconds
        self.book = book
        self.link: Link | None = None
        # the batch that was said last
        self.batch: bytes | None = None
        # the connections that were left while a line wasn't acknowledged, the oldest first; and
        # whether one ended by itself since the last one was made
        self.left: list[Link] = []
        self.was_cut = False

    def leave(self) -> None:
        """Leaves the connection; it is heard until its end, or until the line is acknowledged."""
        if self.link is not None:
            self.link.end()
            self.left.append(self.link)
        self.link = None
        while MOST_LEFT < len(self.left):
            self.left.pop().close()

    def forget_left(self) -> None:
        """The line is acknowledged: nothing is heard on the connections that were left."""
        for link in self.left:
            link.close()
        self.left = []

    def connect(self, wait: float | None) -> Link | None:
        """The connection to the hall, for which it waits; nothing where the line is acknowledged
        meanwhile. A port that refuses says that the hall is gone; with the book asked it says
        nothing, as that may be a tunnel's own port."""
        began = time.monotonic()
        was_refused = False
        while self.link is None:
            if self.hears_left():
                return None
            try:
                self.link = Link(self.address, self.seconds)
            except OSError as fault:
                was_refused = was_refused or isinstance(fault, ConnectionRefusedError)
                if wait is not None and wait < time.monotonic() - began:
                    raise Gone from None
                time.sleep(RETRY)
                continue
            # what the hall before this one said came before this one took the connection
            if self.hears_left():
                return None
            is_new = was_refused and self.book is None
            self.numbers.connect(is_new, bool(self.left), self.was_cut)
            self.was_cut = False
        return self.link

    def hears_left(self) -> bool:
        """Hears what came on the connections that were left. Whether the line is acknowledged."""
        for link in list(self.left):
            try:
                while select.select([link], [], [], 0)[0]:
                    if any(self.numbers.hear_left(number) for number in link.hear()):
                        return True
            except OSError:
                link.close()
                self.left.remove(link)
                self.was_cut = True
        return False

    def answer(self, link: Link, seconds: float) -> Answer:
        """What comes of the present line in so many seconds. What has come by then is heard, also
        where this looks late."""
        until = time.monotonic() + seconds
        was_in_step = self.numbers.in_step
        while True:
            left = max(0.0, until - time.monotonic())
            ready = select.select([link, *self.left], [], [], left)[0]
            if not ready:
                return Answer.SILENCE
            if self.hears_left():
                return Answer.DONE
            # each is looked at, so that none counts for the next line
            if link in ready and any([self.numbers.hear(number) for number in link.hear()]):
                return Answer.DONE
            if self.numbers.in_step and not was_in_step:
                return Answer.OTHER_NUMBER

    def finds_hall(self, link: Link) -> Answer:
        """Says the batch as the first line of a connection, and so finds how many lines its hall
        has taken. What comes of the present line, if any."""
        until = time.monotonic() + self.seconds
        link.say(b"1 %s\n" % self.batch)
        while (left := until - time.monotonic()) > 0:
            ready = select.select([link, *self.left], [], [], left)[0]
            if self.hears_left():
                return Answer.DONE
            numbers = link.hear() if link in ready else []
            if numbers:
                return Answer.DONE if self.numbers.find(numbers[-1]) else Answer.OTHER_NUMBER
        return Answer.SILENCE

    def ask(self, link: Link, what: bytes) -> Answer:
        """Says a line under the present number, a few times where silence has a meaning."""
        times = TIMES if self.numbers.is_silence_told() else 1
        seconds = self.seconds if times == 1 else SILENCE / TIMES
        for _ in range(times):
            link.say(b"%d %s\n" % (self.numbers.number(), what))
            answer = self.answer(link, seconds)
            if answer is not Answer.SILENCE:
                return answer
        return Answer.SILENCE

    def is_said(self, link: Link, what: bytes, began: float) -> bool:
        """Says a line under each number that is to be tried here. Whether it is acknowledged, or in
        the book, which is asked again before another number is tried."""
        if self.batch is not None and not self.numbers.in_step:
            found = self.finds_hall(link)
            if found is not Answer.OTHER_NUMBER:
                return found is Answer.DONE
        while (answer := self.ask(link, what)) is not Answer.DONE:
            if answer is Answer.SILENCE:
                if not self.numbers.is_next_tried():
                    return False
                if self.is_in_book(what, began, False):
                    return True
        return True

    def say(self, what: bytes, wait: float | None = None) -> int:
        """Says a line until it is acknowledged, and gives its number."""
        before, connections = self.numbers.acknowledged, 0
        began = time.monotonic()
        if is_batch(what):
            self.batch = what
        while True:
            try:
                link = self.connect(wait)
                if link is None or connections > 0 and self.is_in_book(what, began, True):
                    break
                connections += 1
                if self.is_said(link, what, began):
                    if not self.numbers.in_step:
                        # what the hall still says here is of this line, not of the next
                        self.leave()
                    break
            except OSError:
                time.sleep(RETRY)
            self.leave()
        self.forget_left()
        self.was_cut = False
        number = self.numbers.acknowledged
        is_new = self.numbers.in_step and (before == 0 or number != before + 1)
        is_weight = what != b"end" and not is_batch(what)
        is_risked = connections > 1 and (is_new or self.numbers.is_doubtful)
        if is_risked and self.book is None and is_weight:
            report(
                f"{what.decode()} was said before to a hall that ended without acknowledging it:"
                " see that the book hasn't it twice"
            )
        return number

    def is_in_book(self, what: bytes, began: float, is_new_link: bool) -> bool:
        """Whether the book has a weight that was said before and isn't acknowledged. Where no hall
        is there to say so, one is waited for: an OSError. Where it isn't settled, its hall goes on
        or is about to end, which decides about the order of numbers on a new connection."""
        if self.book is None or what == b"end" or is_batch(what):
            return False
        is_late = ASK_WAIT < time.monotonic() - began
        try:
            newest = self.book.newest()
        except OSError as fault:
            if is_late:
                self.book.report(fault)
            raise
        except Unasked as fault:
            if not is_late:
                raise OSError from fault
            report(f"{what.decode()} is said again, and the book can't be asked for it: {fault}")
            return False
        if newest is Newest.UNSETTLED and is_new_link:
            self.numbers.put_said_first()
        elif newest is Newest.SETTLED:
            self.numbers.skip_line()
        return newest is Newest.SETTLED

    def greet(self) -> None:
        """Looks for a new hall, which hears the batch though no weight comes."""
        try:
            self.link = Link(self.address, self.seconds)
            self.numbers.connect(False)
            if self.finds_hall(self.link) is Answer.SILENCE:
                self.leave()
        except OSError:
            self.leave()
        self.forget_left()

    def idle(self) -> bytes:
        """Waits for the scale's next bytes, and leaves a connection that ends meanwhile."""
        while True:
            links = [] if self.link is None else [self.link]
            is_alone = self.link is None and self.batch is not None
            ready, _, _ = select.select([0, *links], [], [], RETRY if is_alone else None)
            if is_alone and not ready:
                self.greet()
            try:
                if self.link in ready and self.link is not None:
                    self.link.hear()
            except OSError:
                self.leave()
                self.forget_left()
            if 0 in ready:
                return os.read(0, 4096)
