"""Whether a device is there, and why it isn't: each change is told once."""

from collections.abc import Callable

from hall_adapter.readings import Linked


class Presence:
    """A device that comes and goes."""

    def __init__(self, name: str, tell: Callable[[str], None]) -> None:
        self.name = name
        self.tell = tell
        self.told: Linked | None = None

    def take(self, linked: Linked) -> None:
        """It is there, or it isn't."""
        if linked != self.told:
            how = "there" if linked.is_there else f"away ({linked.why})"
            self.tell(f"the {self.name} is {how}")
        self.told = linked
