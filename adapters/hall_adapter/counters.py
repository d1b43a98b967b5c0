"""The counter of a device: a pack is weighed once, and one that is missing is reported.

A device that counts its packs says each reading with its number. The number after the last one is
the next pack. What becomes of any other:

- it lies ahead: packs are missing, which is reported, and the reading counts
- it was there before with this weight: a repeat, reported and dropped
- it was passed over before: late, reported and dropped, since its pack is gone
- it is the first of the range, or the third in a row that fits nothing: the counter began anew
- it fits as if the number before it had been another: that one was misread, and this one counts
"""

from collections import OrderedDict

from hall_adapter.devices import Range
from hall_adapter.readings import Note, Reading

# How many of the newest readings are remembered, to tell a repeat from a counter that began anew.
REMEMBERED = 10_000
# So many numbers in a row, each one more than the last, make a counter that began anew.
IN_A_ROW = 3
# As many packs as this are never missing at once; a number so far ahead is behind.
FARTHEST = 1_000


class PackCounter:
    """Follows the counter of a device."""

    def __init__(self, limits: Range) -> None:
        self.limits = limits
        self.span = limits.last - limits.first + 1
        self.farthest = min(FARTHEST, self.span // 4)
        self.remembered = min(REMEMBERED, self.span // 2)
        self.first = self.last = limits.first
        # number to mass, the newest last
        self.seen: OrderedDict[int, int] = OrderedDict()
        # how many numbers in a row fit nothing, and the last of them
        self.strays = 0
        self.stray = limits.first
        # the number that would be due if the last one had been misread
        self.doubt: int | None = None
        # the last number, where its pack was counted and not weighed
        self.unweighed: int | None = None

    def after(self, number: int, steps: int = 1) -> int:
        """The number so many steps after this one; behind the greatest comes the first."""
        return self.limits.first + (number - self.limits.first + steps) % self.span

    def between(self, one: int, other: int) -> int:
        """How many steps it is from one number to another."""
        return (other - one) % self.span

    def take(self, reading: Reading) -> list[Reading | Note]:
        """What becomes of a reading, and what is to be reported of its number."""
        number = reading.counter
        assert number is not None
        if not self.limits.first <= number <= self.limits.last:
            return [Note("stray", f"counter {number} is outside its range: not weighed")]
        if not self.seen:
            self.first = number
            return [self.accept(reading, number)]
        ahead = self.between(self.last, number)
        doubt, self.doubt = self.doubt, None
        if ahead == 1 or number == self.unweighed:
            return [self.accept(reading, number)]
        if number == doubt:
            text = f"counter {self.last} was misread, as {number} comes after it"
            return [Note("misread", text), self.accept(reading, number)]
        if self.seen.get(number) == reading.mass:
            return [Note("repeat", f"counter {number} came before with its weight: not weighed")]
        if 1 < ahead <= self.farthest:
            return self.skipped(reading, number, ahead - 1)
        return self.behind(reading, number)

    def pass_over(self, number: int) -> None:
        """A pack that the device counted and didn't weigh, as it says: it isn't missing then."""
        if self.limits.first <= number <= self.limits.last and (
            not self.seen or self.between(self.last, number) == 1
        ):
            if not self.seen:
                self.first = number
            self.keep(number, 0)
            self.unweighed = number

    def begin(self, number: int) -> None:
        """Begins anew behind a number whose pack isn't weighed."""
        self.seen.clear()
        self.pass_over(number)

    def skipped(self, reading: Reading, number: int, missing: int) -> list[Reading | Note]:
        """A number ahead: packs are missing."""
        doubt = self.after(self.last, 2)
        text = f"counter {number} comes after {self.last}: {missing} came without a weight"
        taken = self.accept(reading, number)
        self.doubt = doubt if doubt != number else None
        return [Note("skip", text, missing), taken]

    def behind(self, reading: Reading, number: int) -> list[Reading | Note]:
        """A number that doesn't follow the last one."""
        is_within = self.between(self.first, number) <= self.between(self.first, self.last)
        if number not in self.seen and is_within:
            text = f"counter {number} comes after {self.last}, and its pack is gone: not weighed"
            return [Note("late", text)]
        self.strays = self.strays + 1 if number == self.after(self.stray) else 1
        self.stray = number
        if number == self.limits.first or self.strays >= IN_A_ROW:
            return self.began_anew(reading, number)
        return [Note("stray", f"counter {number} comes after {self.last}: not weighed")]

    def began_anew(self, reading: Reading, number: int) -> list[Reading | Note]:
        """The counter began anew with this number."""
        doubt = self.after(self.last, 2)
        text = f"the counter began anew: {number} comes after {self.last}"
        self.seen.clear()
        self.first = number
        taken = self.accept(reading, number)
        self.doubt = doubt
        return [Note("anew", text), taken]

    def accept(self, reading: Reading, number: int) -> Reading:
        """Takes a reading as the newest one."""
        self.keep(number, reading.mass)
        return reading

    def keep(self, number: int, mass: int) -> None:
        """Takes a number as the newest one."""
        self.last = self.stray = number
        self.strays, self.doubt, self.unweighed = 0, None, None
        self.seen.pop(number, None)
        self.seen[number] = mass
        if len(self.seen) > self.remembered:
            self.first = self.after(self.seen.popitem(last=False)[0])
