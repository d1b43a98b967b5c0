"""A command whose lines are pulses, as `gpiomon` says one for each edge of an input."""

import asyncio
from collections.abc import Callable

from hall_adapter.readings import Note

# Seconds until a command that ended is begun again.
RETRY = 0.5


async def read_one(words: tuple[str, ...], on_pulse: Callable[[], None]) -> str:
    """Runs the command once, and says how it ended."""
    process = await asyncio.create_subprocess_exec(
        *words, stdin=asyncio.subprocess.DEVNULL, stdout=asyncio.subprocess.PIPE
    )
    try:
        assert process.stdout is not None
        async for _ in process.stdout:
            on_pulse()
        return f"it ended with status {await process.wait()}"
    finally:
        if process.returncode is None:
            process.kill()


async def read_pulses(
    words: tuple[str, ...], on_pulse: Callable[[], None], report: Callable[[Note], None]
) -> None:
    """Runs the command, and begins it again where it ends: that is reported, once for as long as it
    ends in the same way and says nothing."""
    pulses, told = 0, ""

    def count() -> None:
        nonlocal pulses
        pulses += 1
        on_pulse()

    while True:
        pulses = 0
        try:
            how = await read_one(words, count)
        except OSError as error:
            how = str(error.strerror)
        if pulses or how != told:
            report(Note("pulses", f"{words[0]}: {how}"))
        told = how
        await asyncio.sleep(RETRY)
