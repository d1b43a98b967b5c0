"""What a weighing device says: a reading for a pack, or a note on what gave none."""

from dataclasses import dataclass

# Why a line gave no weight, each with what it means. A table of a device names these words.
REASONS = {
    "form": "no line of this device",
    "check": "its check character is wrong",
    "long": "longer than any line of this device",
    "cut": "the line broke off",
    "motion": "the weight wasn't stable",
    "invalid": "the device says that the weighing isn't valid",
    "overload": "above what the device weighs",
    "underload": "below what the device weighs",
    "negative": "a negative weight",
    "unit": "another unit than the table's",
    "fine": "digits below a milligram",
    "light": "below 1 g: no pack is on it",
    "heavy": "above 30 kg: no pack",
    "word": "a line of the device that is no weighing",
}
# What a table may say that a line means: a weight, or one of the reasons that a device gives.
WEIGHT = "weight"
MEANINGS = (WEIGHT, "motion", "invalid", "overload", "underload", "word")


@dataclass(frozen=True)
class Reading:
    """The weight of a pack in milligrams, with the device's counter and article if it has them."""

    mass: int
    counter: int | None = None
    article: str | None = None


@dataclass(frozen=True)
class Note:
    """Something to be reported: its kind, a sentence, and for how many packs or lines it stands;
    the device's counter where a pack was counted and not weighed, and the row that it is about."""

    kind: str
    text: str
    count: int = 1
    counter: int | None = None
    row: int | None = None


@dataclass(frozen=True)
class Linked:
    """A device is reached now, or isn't, and why not."""

    is_there: bool
    why: str = ""


def spell(mass: int) -> str:
    """A mass in grams, as a lane of the hall reads it."""
    return f"{mass // 1000}.{mass % 1000:03}"
