"""Every order of lines, answers, good ends, cuts and kills, up to a depth, that a sender's numbers may
meet (adapters/hall_adapter/sender_numbers.py), beside a hall by docs/FORMATS.md. For
tests/sender.py."""

import copy
import enum
import sys
from dataclasses import dataclass, field, replace
from typing import NoReturn

from hall_adapter.sender_numbers import Numbers

# How many weights there are, how many steps, and how many new halls at most.
WEIGHTS, DEPTH, HALLS = 4, 28, 2


def fail(said: str) -> NoReturn:
    """Ends with what differs."""
    print(f"sender: {said}", file=sys.stderr)
    sys.exit(1)


class Heard(enum.IntEnum):
    """How a connection is heard: it is the present one, it was left, or it is closed."""

    HERE = 0
    LEFT = 1
    CLOSED = 2


# A line on its way to the hall, or an answer on its way back: its number, and the connection.
Way = tuple[int, Heard]


@dataclass
class World:
    """A sender, its connections and the hall at their other end, which takes lines in order."""

    numbers: Numbers
    # whether connections are cut, and whether the hall may be slower than the sender waits
    is_cut: bool
    is_slow: bool
    # what the present hall has taken, and the rows of all halls
    taken: int = 0
    rows: list[int] = field(default_factory=list)
    # the weight that the sender says, from 0; whether it is connected, and that to this hall
    weight: int = 0
    is_connected: bool = False
    is_dead: bool = False
    # whether a connection was left that hasn't ended, and whether one ended by itself
    is_one_left: bool = False
    was_cut: bool = False
    lines: list[Way] = field(default_factory=list)
    answers: list[Way] = field(default_factory=list)
    # whether a line was said that hasn't been waited for
    was_said: bool = False
    # whether the hall is another one than that of the last connection
    is_new: bool = False
    # whether the present weight has a row that a hall settled which ended well
    is_settled: bool = False
    halls: int = 0
    steps: tuple[str, ...] = ()

    def key(self) -> tuple[object, ...]:
        known = self.numbers
        return (self.is_cut, self.is_slow, known.acknowledged, tuple(known.whole),
                tuple(known.tries), frozenset(known.said), known.in_step, self.taken,
                tuple(self.rows), self.weight, self.is_connected, self.is_dead, self.is_one_left,
                self.was_cut, tuple(self.lines), tuple(self.answers), self.was_said,
                self.is_settled, self.is_new, self.halls)  # fmt: skip

    def again(self) -> "World":
        """The same world, to be changed."""
        numbers = copy.copy(self.numbers)
        numbers.whole, numbers.tries = list(numbers.whole), list(numbers.tries)
        numbers.said = set(numbers.said)
        return replace(self, numbers=numbers, rows=list(self.rows), lines=list(self.lines),
                       answers=list(self.answers))  # fmt: skip

    def cut(self) -> None:
        """The connection is cut: what was on its way is lost."""
        self.lines = [way for way in self.lines if way[1] is not Heard.HERE]
        self.answers = [way for way in self.answers if way[1] is not Heard.HERE]
        self.is_connected = self.is_dead = self.was_said = False
        self.was_cut = True

    def change(self, before: Heard, after: Heard) -> None:
        """A connection is heard in another way."""
        self.lines = [(number, after if how is before else how) for number, how in self.lines]
        self.answers = [(number, after if how is before else how) for number, how in self.answers]
        self.answers = [way for way in self.answers if way[1] is not Heard.CLOSED]

    def leave(self) -> None:
        """The sender leaves the connection, and hears on."""
        self.is_one_left = self.is_one_left or not self.is_dead
        self.was_cut = self.was_cut or self.is_dead
        self.change(Heard.HERE, Heard.LEFT)
        self.is_connected = self.is_dead = self.was_said = False

    def acknowledge(self) -> None:
        """The weight is acknowledged: connections that were left aren't heard any more."""
        self.weight += 1
        self.change(Heard.LEFT, Heard.CLOSED)
        self.was_said = self.is_one_left = self.is_settled = self.was_cut = False

    def hears_left(self) -> bool:
        while heard := [way for way in self.answers if way[1] is Heard.LEFT]:
            self.answers.remove(heard[0])
            if self.numbers.hear_left(heard[0][0]):
                self.acknowledge()
                return True
        return False

    def hear(self) -> None:
        """Hears what has come, first where the sender has left. Where that acknowledges the weight,
        what the hall still says here isn't of the next one: the connection is closed."""
        if self.hears_left():
            self.change(Heard.HERE, Heard.CLOSED)
            self.is_connected = self.is_dead = False
            return
        numbers = [number for number, _ in self.answers]
        self.answers = []
        if any([self.numbers.hear(number) for number in numbers]):
            self.acknowledge()


def hall_takes(world: World) -> None:
    """The next line comes to the hall, as FORMATS says."""
    number, how = world.lines.pop(0)
    if number == world.taken + 1:
        world.taken = number
        world.rows.append(world.weight)
    if number <= world.taken:
        world.answers += [(world.taken, how)] if how is not Heard.CLOSED else []


def step(world: World, what: str) -> World | None:
    """The world after a step, or nothing where it can't be."""
    world = world.again()
    world.steps += (what,)
    if what == "connect" and not world.is_connected:
        connect(world, False)
    elif what == "connect, refused before" and not world.is_connected and world.is_new:
        connect(world, True)
    elif what == "say" and world.is_connected and not world.was_said:
        say(world)
    elif what == "say, cut on the way" and may_be_cut(world) and not world.was_said:
        say(world)
        world.cut()
    elif what == "take" and world.lines:
        hall_takes(world)
    elif what == "hear" and world.answers and world.is_connected:
        world.hear()
        # where the hall waits for another number the line is said again
        world.was_said = False
    elif what == "silence" and world.was_said and is_silent(world):
        world.was_said = False
        if not world.numbers.is_next_tried():
            world.leave()
        else:
            ask_book(world, False)
    elif what == "cut" and may_be_cut(world):
        world.cut()
    elif (
        what == "the left one ends"
        and world.is_one_left
        and not any(how is Heard.LEFT for _, how in world.lines)
    ):
        world.is_one_left, world.was_cut = False, True
    elif what in ("end", "kill") and world.halls < HALLS:
        end_hall(world, what)
    else:
        return None
    return world


def may_be_cut(world: World) -> bool:
    return world.is_cut and world.is_connected


def is_silent(world: World) -> bool:
    """Whether nothing is heard for so long: there is nothing, or the hall is slow."""
    return not world.answers and (world.is_slow or not world.lines)


def say(world: World) -> None:
    number = world.numbers.number()
    world.was_said = True
    if not world.is_dead:
        world.lines.append((number, Heard.HERE))


def connect(world: World, was_refused: bool) -> None:
    """A new connection, perhaps after a time without a hall. What came before that is heard. After
    a weight that was said before the book is asked, which knows it where it is settled."""
    world.is_connected, world.is_dead = True, False
    if not world.hears_left():
        world.numbers.connect(was_refused, world.is_one_left, world.was_cut)
    world.was_cut = False
    ask_book(world, True)
    world.is_new = False


def ask_book(world: World, is_new_link: bool) -> None:
    """Where connections are cut the book is asked for a weight that was said before."""
    if world.is_settled:
        if not world.is_cut:
            fail(f"the book has to be asked where no connection is cut: {world.steps}")
        world.numbers.skip_line()
        world.acknowledge()
    elif is_new_link and world.is_cut and world.rows[-1:] == [world.weight]:
        world.numbers.put_said_first()


def end_hall(world: World, what: str) -> None:
    """A hall that ends well has written its answers, which come but where the connection was cut.
    One that is killed has its last pack voided where it wasn't acknowledged; what was on its way is
    lost."""
    world.halls += 1
    if what == "end":
        world.is_dead = world.is_connected
        world.is_settled = world.is_settled or world.rows[-1:] == [world.weight]
    else:
        if world.rows[-1:] == [world.weight] and not world.is_settled:
            world.rows.pop()
        if not world.is_new:
            world.cut()
            world.answers = []
    world.taken, world.is_new, world.is_one_left, world.lines = 0, True, False, []


STEPS = ("connect", "connect, refused before", "say", "say, cut on the way", "take", "hear",
         "silence", "the left one ends", "cut", "end", "kill")  # fmt: skip


def check_world(world: World) -> None:
    told = " -> ".join(world.steps)
    if world.rows != list(range(len(world.rows))):
        fail(f"the book has the weights {world.rows}: {told}")
    if not world.weight <= len(world.rows) <= world.weight + 1:
        fail(f"{world.weight} are acknowledged, the book has {world.rows}: {told}")


def check_numbers() -> None:
    """Goes through all worlds, and sees that from each the weight can still be acknowledged."""
    worlds = [World(Numbers(0), *kind) for kind in ((False, True), (True, False), (True, True))]
    seen = {world.key() for world in worlds}
    depth = 0
    while worlds and depth < DEPTH:
        depth += 1
        found = []
        for world in worlds:
            check_goes_on(world)
            for what in STEPS:
                after = step(world, what)
                if after is None or after.weight >= WEIGHTS or after.key() in seen:
                    continue
                check_world(after)
                seen.add(after.key())
                found.append(after)
        worlds = found
    print(f"sender: {len(seen)} states, up to {depth} steps, {WEIGHTS - 1} weights and {HALLS + 1}"
          " halls: each weight once and in order, and one that stays takes the next")  # fmt: skip


def check_goes_on(world: World) -> None:
    """Undisturbed, the present weight is acknowledged within some steps."""
    wanted = world.weight + 1
    for _ in range(40):
        if world.weight == wanted:
            return
        for what in ("connect", "take", "hear", "silence", "say"):
            after = step(world, what)
            if after is not None:
                world = after
                break
    check_world(world)
    fail(f"the lane is dead: {' -> '.join(world.steps)}")
