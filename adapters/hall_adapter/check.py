"""hall-adapter check MAP FILE

Says what a recorded stream of a device would give, line by line, for who commissions a line. MAP is
the table of a device by its name or its path, a map for Modbus, or the settings of a line, which
name one; FILE is what `hall-adapter record` took down.

The last line has the counts; where there is no weight at all, the last but one says what to look
at. Status 0: there are weights, and no line is unknown to the table. 1: a line is unknown, was cut
or has a wrong check character, or there is no weight. 2: the table or the file can't be read."""

from collections.abc import Iterator

from hall_adapter.devices import find, load
from hall_adapter.lines import Engine, describe
from hall_adapter.readings import Note, Reading
from hall_adapter.register_maps import is_map, load_map, recorded
from hall_adapter.settings import is_settings, load_settings

# Kinds of notes that say that the table isn't the device's, or the line is bad.
FAULTS = {"form", "check", "long", "cut"}
# A stream is taken in by pieces, as it comes from a line.
PIECE = 65_536


def told_of(told: list[Reading | Note]) -> Iterator[str]:
    """A line of text for each reading and note."""
    for one in told:
        if isinstance(one, Reading):
            yield f"weight {describe(one)}"
        else:
            yield f"{one.kind}: {one.text}"


def summary(engine: Engine, strange: str) -> list[str]:
    """The counts of all that was seen, and what to look at where no weight is among it."""
    notes = ", ".join(f"{kind} {count}" for kind, count in sorted(engine.notes.items()))
    counts = f"{engine.handed} weights; {notes or 'nothing else'}"
    return [counts] if engine.handed else [f"no weight: {why_none(engine, strange)}", counts]


def why_none(engine: Engine, strange: str) -> str:
    """Why a recording may have no weight; `strange` where each of its lines is."""
    if not engine.notes:
        return "nothing was recorded, or no pack came"
    return strange if set(engine.notes) <= FAULTS else "the device sent none that is a pack's"


def fits(engine: Engine) -> bool:
    """Whether a table or a map fits what was recorded."""
    return engine.handed > 0 and not FAULTS & set(engine.notes)


def check_lines(name: str, stream: bytes) -> tuple[list[str], bool]:
    """What a stream of lines would give, and whether the table fits it."""
    engine = Engine(load(name))
    said: list[str] = []
    for place in range(0, len(stream), PIECE):
        said += told_of(engine.feed(stream[place : place + PIECE]))
    said += told_of(engine.cut())
    strange = "no line is of this device: see to the table, and to the line's speed, bits, parity"
    return [*said, *summary(engine, strange)], fits(engine)


def check_registers(name: str, stream: bytes) -> tuple[list[str], bool]:
    """What recorded registers would give, and whether the map fits them."""
    made = load_map(name)
    engine, told = recorded(made, stream.decode("ascii", "replace"))
    strange = f"no line has the {made.count()} words in hex that this map reads: record it anew"
    return [*told_of(told), *summary(engine, strange)], fits(engine)


def check(name: str, stream: bytes) -> tuple[list[str], bool]:
    """What a recorded stream would give by a table, a map, or the settings that name one."""
    path, table = find(name)
    if is_settings(table):
        settings = load_settings(path)
        name = settings.device or settings.map
        table = find(name)[1]
    return check_registers(name, stream) if is_map(table) else check_lines(name, stream)


def run(name: str, path: str) -> int:
    """Says what a recorded stream would give."""
    with open(path, "rb") as source:
        said, is_fit = check(name, source.read())
    print("\n".join(said))
    return 0 if is_fit else 1
