"""Packs that the book let out and that were turned aside: a desk of the line's own voids them."""

import asyncio
from collections.abc import Callable

from hall_adapter.office import UNSETTLED, Refused, VoidDesk
from hall_adapter.readings import Note
from hall_adapter.settings import Desk

# Seconds until the book is asked again.
ASK_AGAIN = 0.5


class Voids:
    """Voids rows, one after another. A pack is settled by the next act of its lane, so the book may
    refuse it for a while; it is asked until it answers for good."""

    def __init__(self, desk: Desk, report: Callable[[Note], None]) -> None:
        self.desk = VoidDesk(desk.url, desk.number)
        self.report = report
        self.queue: asyncio.Queue[int] = asyncio.Queue()

    async def run(self) -> None:
        """Voids what comes."""
        while True:
            row = await self.queue.get()
            while not await self.is_answered(row):
                await asyncio.sleep(ASK_AGAIN)

    async def is_answered(self, row: int) -> bool:
        """Asks for a void, and says whether that is answered for good."""
        try:
            by = await asyncio.to_thread(self.desk.void, row)
            self.report(Note("void", f"row {row} is voided by row {by}"))
        except Refused as refused:
            if refused.number == UNSETTLED:
                return False
            self.report(Note("void", f"row {row} can't be voided: {refused}"))
        except (OSError, ValueError, KeyError):
            return False
        return True
