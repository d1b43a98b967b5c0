"""Metrics as Prometheus reads them: text of version 0.0.4, and a small server that hands it out.

`Metrics` keeps numbers by name and labels; `merged` puts texts of several sources together, the
first that has a name. Only `serve` reads and writes.
"""

import asyncio
from collections.abc import Awaitable, Callable

# For each name of a metric its type and what it says; a metric has to stand here.
FAMILIES = {
    "hall_line_packs_total": ("counter", "Packs that the book judged, by their signal."),
    "hall_line_unweighed_total": ("counter", "Packs and lines that gave no weight, by why."),
    "hall_line_faults_total": ("counter", "What was reported of a line, by its kind."),
    "hall_line_rejects_confirmed_total": ("counter", "Packs that were seen behind the reject."),
    "hall_line_stopped": ("gauge", "Whether the line's gate is stopped."),
    "hall_line_device_linked": ("gauge", "Whether the weighing device is reached."),
    "hall_line_hall_linked": ("gauge", "Whether the lane's port is reached."),
    "hall_line_waiting": ("gauge", "Weights that the hall hasn't judged."),
    "hall_line_mean_off_grams": ("gauge", "The newest advice to the filler."),
    "hall_line_last_pack_seconds": ("gauge", "When the newest pack was weighed, by the clock."),
    "hall_line_answer_seconds": ("summary", "From a weight to the hall's judgement."),
    "hall_up": ("gauge", "Whether a door of the office answers."),
    "hall_rows": ("gauge", "Rows of the book; of a running book all but the newest."),
    "hall_rows_left": ("gauge", "Rows that the book takes yet."),
    "hall_last_row_age_seconds": ("gauge", "Seconds since the number of rows last grew."),
    "hall_packs_total": ("counter", "Packs by lane and signal, as their rows stand in the file."),
    "hall_pile_packs": ("gauge", "Packs in each pile."),
    "hall_batches": ("gauge", "Batches by state."),
    "hall_lane_working": ("gauge", "Whether a lane has a batch."),
    "hall_batch_packs": ("gauge", "Packs of a batch's population."),
    "hall_batch_mean_margin": ("gauge", "Mean contents less nominal, in grams or millilitres."),
    "hall_batch_allowance_left": ("gauge", "Non-standard packs that a batch may still have."),
    "hall_batch_inadequate": ("gauge", "Inadequate packs of a batch's population."),
    "hall_batch_held": ("gauge", "Whether a batch is held."),
    "hall_batch_forecast": ("gauge", "Whether a part of the verdict would hold now."),
    "hall_copy_rows_behind": ("gauge", "Rows that a copy of the book lacks, as it was last said."),
    "hall_copy_said_age_seconds": ("gauge", "Seconds since that was said."),
    "hall_disk_free_bytes": ("gauge", "Free bytes of a disk."),
    "hall_list_rows_behind": ("gauge", "Rows that the list of what is in force lacks."),
    "hall_archive_answers": ("gauge", "Whether the archive says how far it has followed the book."),
    "hall_archive_rows_behind": ("gauge", "Rows that the archive lacks."),
    "hall_archive_asked_age_seconds": ("gauge", "Since the archive was last known to have all."),
    "hall_archive_refused": ("gauge", "Whether the archive takes nothing of another book."),
    "hall_door_connections": ("gauge", "Connections at a door of the office."),
    "hall_doors": ("gauge", "Doors of the office."),
    "hall_doors_busy": ("gauge", "Doors that somebody is at, or waits at."),
}

Labels = tuple[tuple[str, str], ...]


def spelled(value: str) -> str:
    """The value of a label, as the text has it."""
    return value.replace("\\", "\\\\").replace('"', '\\"').replace("\n", "\\n")


class Metrics:
    """Numbers by name and labels; each has these labels too."""

    def __init__(self, **labels: str) -> None:
        self.labels = labels
        self.values: dict[str, dict[tuple[str, Labels], float]] = {}

    def key(self, labels: dict[str, str]) -> Labels:
        """Labels, in one order."""
        return tuple(sorted({**self.labels, **labels}.items()))

    def set(self, name: str, value: float, **labels: str) -> None:
        """Sets a number."""
        self.values.setdefault(name, {})[("", self.key(labels))] = value

    def add(self, name: str, count: float = 1, **labels: str) -> None:
        """Adds to a number that begins at 0."""
        family = self.values.setdefault(name, {})
        key = ("", self.key(labels))
        family[key] = family.get(key, 0) + count

    def observe(self, name: str, value: float, **labels: str) -> None:
        """Takes a value into a summary: its sum and how many there were."""
        family = self.values.setdefault(name, {})
        for part, more in (("_sum", value), ("_count", 1)):
            key = (part, self.key(labels))
            family[key] = family.get(key, 0) + more

    def text(self) -> str:
        """All numbers as Prometheus reads them."""
        lines = []
        for name, family in sorted(self.values.items()):
            kind, about = FAMILIES[name]
            lines += [f"# HELP {name} {about}", f"# TYPE {name} {kind}"]
            for (part, labels), value in sorted(family.items()):
                words = ",".join(f'{key}="{spelled(text)}"' for key, text in labels)
                lines.append(f"{name}{part}{{{words}}} {value:.15g}")
        return "".join(f"{line}\n" for line in lines)


def family_of(line: str) -> str:
    """The name of the metric that a line of the text is about, less the ends of summaries."""
    words = line.split()
    if line.startswith("#"):
        return words[2] if len(words) > 2 and words[1] in ("HELP", "TYPE") else ""
    name = line.partition("{")[0].split(" ")[0] if words else ""
    for end in ("_sum", "_count", "_bucket"):
        name = name.removesuffix(end)
    return name


def merged(texts: list[str]) -> str:
    """Several texts as one; a metric that comes in more than one is taken from the first."""
    owner: dict[str, int] = {}
    lines = []
    for place, text in enumerate(texts):
        for line in text.splitlines():
            if (name := family_of(line)) and owner.setdefault(name, place) == place:
                lines.append(line)
    return "".join(f"{line}\n" for line in lines)


# ---- the server

MOST_HEAD = 8_192
PATIENCE = 10.0
KIND = "text/plain; version=0.0.4; charset=utf-8"


def response(status: str, body: str) -> bytes:
    """A response that ends its connection."""
    said = body.encode()
    head = f"HTTP/1.1 {status}\r\nContent-Type: {KIND}\r\nContent-Length: {len(said)}\r\n"
    return f"{head}Connection: close\r\n\r\n".encode() + said


async def answer(
    reader: asyncio.StreamReader,
    writer: asyncio.StreamWriter,
    text: Callable[[], Awaitable[str]],
) -> None:
    """Answers one request, and ends the connection."""
    try:
        async with asyncio.timeout(PATIENCE):
            head = await reader.readuntil(b"\r\n\r\n")
            asked = head.split(b" ", 2)[:2]
            if asked == [b"GET", b"/metrics"]:
                writer.write(response("200 OK", await text()))
            else:
                writer.write(response("404 Not Found", "see /metrics\n"))
            await writer.drain()
    except (OSError, asyncio.IncompleteReadError, asyncio.LimitOverrunError, TimeoutError):
        pass
    finally:
        writer.close()


async def serve(address: tuple[str, int], text: Callable[[], Awaitable[str]]) -> None:
    """Hands the metrics out, as they are at each request."""
    host, port = address
    server = await asyncio.start_server(
        lambda reader, writer: answer(reader, writer, text), host, port, limit=MOST_HEAD
    )
    async with server:
        await server.serve_forever()
