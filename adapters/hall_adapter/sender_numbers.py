"""Which number a line has that is sent to a lane's port, and what an acknowledgement says of it, by
docs/FORMATS.md. Nothing here reads or writes."""


class Ahead(Exception):
    """The hall has taken more than was said."""


class Numbers:
    """Which number a line has, and what an acknowledgement says of it.

    A hall that has taken so many lines takes the one with the next number, answers one with an
    earlier number by how many it has taken, and passes a later one over. Where a connection is new
    its hall may be a new one, that has taken none. The line with the number 1 is answered by 1
    where a new hall took it, and else by how many were taken. These two are alike where one was
    acknowledged so far: then, unless the hall is known to be a new one, the number 2 comes first,
    which a new hall passes over in silence, and 1 only after that.

    No number is said that a hall which has the line already would take.
    """

    def __init__(self, acknowledged: int):
        self.acknowledged = acknowledged
        # the numbers under which the line is to be tried on a new connection, those that are left of
        # them on this one, and those under which it was said
        self.whole: list[int] = []
        self.tries: list[int] = []
        self.said: set[int] = set()
        # whether the hall of this connection is known to have taken what was acknowledged
        self.in_step = False
        # whether the last line was said under a smaller number too, under which a hall may have it
        self.is_doubtful = False

    def connect(self, is_new_hall: bool, is_one_left: bool = False, was_cut: bool = False) -> None:
        """The connection is a new one; its hall is another one than before, or that isn't known.
        Where one that was left hasn't ended, its hall may go on: then 1 comes last. Where one was
        cut, what was said there may never have come, and its silence said nothing: all numbers are
        tried again."""
        self.in_step = False
        if is_new_hall and self.acknowledged == 1:
            self.try_all([1])
        elif was_cut and self.whole and not is_one_left:
            self.try_all(self.whole)
        elif not self.tries:
            self.try_all([1])
            if self.acknowledged == 1:
                self.put_one_last()
        if is_one_left:
            self.put_one_last()

    def try_all(self, numbers: list[int]) -> None:
        """The line is to be tried under these numbers, here and on each connection behind a cut."""
        self.whole, self.tries = list(numbers), list(numbers)

    def put_one_last(self) -> None:
        """Where a new hall would take the line under the number now, the next number comes first. A
        hall that took it under the number before that one would take it again, though."""
        if self.may_be_new() and self.acknowledged > 0 and self.acknowledged not in self.said:
            self.try_all([self.acknowledged + 1, 1])

    def put_said_first(self) -> None:
        """The book has the line, of a hall that goes on: it took it under a number under which it
        was said, and would take it again under a later one."""
        if self.said and not self.in_step and self.tries and min(self.said) < self.tries[0]:
            self.tries = [min(self.said)]
        else:
            self.put_one_last()

    def number(self) -> int:
        """The number to be said now."""
        number = self.acknowledged + 1 if self.in_step else self.tries[0]
        self.said.add(number)
        return number

    def may_be_new(self) -> bool:
        """Whether a new hall would take the line under the number now."""
        return not self.in_step and self.tries[0] == 1

    def hear(self, number: int) -> bool:
        """Takes an acknowledgement. Says whether the line is acknowledged by it."""
        if number in self.said:
            self.begin_line(number)
            self.in_step = True
            return True
        if number > max(self.said | {self.acknowledged}):
            raise Ahead(number)
        if number == self.acknowledged:
            self.in_step = True
            self.try_all([])
        return False

    def find(self, number: int) -> bool:
        """Takes the answer to a batch with the number 1, by which a connection begins: how many
        lines the hall has taken. Says whether the line is acknowledged by it. A batch may be said
        again, so where it is the first line of all, a hall that goes on is gone on with."""
        if 0 < self.acknowledged and number > max(self.said | {self.acknowledged}):
            raise Ahead(number)
        is_said = number in self.said
        if is_said:
            self.said = set()
        self.acknowledged, self.in_step = number, True
        self.try_all([])
        return is_said

    def hear_left(self, number: int) -> bool:
        """Takes an acknowledgement that came on a connection that was left. Says whether the line
        is acknowledged by it."""
        if number not in self.said:
            return False
        if self.said == {number}:
            self.begin_line(number)
            self.connect(False)
        else:
            self.skip_line()
        return True

    def begin_line(self, acknowledged: int) -> None:
        """Goes on to the next line."""
        self.is_doubtful = bool(self.said) and min(self.said) < acknowledged
        self.acknowledged = acknowledged
        self.try_all([])
        self.said = set()

    def is_silence_told(self) -> bool:
        """Whether silence says something: that the hall has taken fewer lines."""
        return not self.in_step and len(self.tries) > 1

    def is_next_tried(self) -> bool:
        """There was no answer. Says whether another number is tried on the same connection."""
        if not self.is_silence_told():
            return False
        del self.tries[0]
        return True

    def skip_line(self) -> None:
        """The line is taken. The hall of this connection took it under a number under which it was
        said, or is a new one that has taken none: the greatest number comes first, since others are
        passed over."""
        may_have = sorted(self.said | {0}, reverse=True)
        self.begin_line(may_have[0])
        self.in_step = False
        self.try_all([number + 1 for number in may_have])
