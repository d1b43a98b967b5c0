"""The socket by which the pages say a lane's batch: `POST /batch`, whose body is
`{"batch": "NAME"}`, in HTTP over a Unix socket. The front alone reaches it, by its group; it has
looked at the person's right, and names the person as `X-Person`.

Answers: 200 with `{"batch": "NAME", "heard": true}`, or `false` where no hall reads from the lane
now, so that the next one hears it first; 400 where the body names no batch, 404, 405."""

import asyncio
import json
import os
import re
from collections.abc import Callable
from contextlib import suppress

# Bytes of a head and of a body, and seconds for both.
LONGEST_HEAD = 4_096
LONGEST_BODY = 256
PATIENCE = 5.0
# Seconds until it is tried again to make the socket: its folder comes with the hall.
RETRY = 1.0
MODE = 0o660
# A name as the book takes new ones.
NAME = re.compile(r"[A-Za-z0-9][A-Za-z0-9._-]{0,31}")
PHRASES = {
    200: "OK",
    400: "Bad Request",
    404: "Not Found",
    405: "Method Not Allowed",
    413: "Payload Too Large",
    500: "Internal Server Error",
}


class Refused(Exception):
    """A request that isn't answered 200, with its status."""

    def __init__(self, status: int) -> None:
        super().__init__(str(status))
        self.status = status


def name_of(body: bytes) -> bytes:
    """The batch that a body names."""
    try:
        said = json.loads(body)
    except ValueError:
        raise Refused(400) from None
    name = said.get("batch") if isinstance(said, dict) and set(said) == {"batch"} else None
    if not isinstance(name, str) or not NAME.fullmatch(name):
        raise Refused(400)
    return name.encode()


def head_of(head: bytes) -> dict[str, str]:
    """The fields of a head, by names in small letters. Another method or path is refused."""
    first, *lines = head.decode("latin-1").rstrip("\r\n").split("\r\n")
    method, _, rest = first.partition(" ")
    if rest.partition(" ")[0] != "/batch":
        raise Refused(404)
    if method != "POST":
        raise Refused(405)
    pairs = (line.partition(":") for line in lines)
    return {name.strip().lower(): value.strip() for name, _, value in pairs}


def length_of(fields: dict[str, str]) -> int:
    """How long a body is."""
    length = fields.get("content-length", "")
    if not re.fullmatch("[0-9]{1,6}", length):
        raise Refused(400)
    if int(length) > LONGEST_BODY:
        raise Refused(413)
    return int(length)


def answer_of(status: int, body: str) -> bytes:
    """An answer, behind which the connection ends."""
    head = f"HTTP/1.1 {status} {PHRASES[status]}\r\nContent-Type: application/json\r\n"
    return f"{head}Content-Length: {len(body)}\r\nConnection: close\r\n\r\n{body}".encode()


class BatchSocket:
    """The socket. `change` takes a batch and the person who says it, and says whether a hall reads
    from the lane."""

    def __init__(self, path: str, change: Callable[[bytes, str], bool]) -> None:
        self.path = path
        self.change = change

    async def told(self, reader: asyncio.StreamReader) -> str:
        """Reads a request, does what it says, and gives the answer's body."""
        fields = head_of(await reader.readuntil(b"\r\n\r\n"))
        name = name_of(await reader.readexactly(length_of(fields)))
        person = fields.get("x-person", "")
        if not re.fullmatch(r"[a-z0-9][a-z0-9._-]{0,31}", person):
            raise Refused(400)
        is_heard = self.change(name, person)
        return json.dumps({"batch": name.decode(), "heard": is_heard})

    async def serve(self, reader: asyncio.StreamReader, writer: asyncio.StreamWriter) -> None:
        """A connection, with one request."""
        status, body = 200, ""
        try:
            async with asyncio.timeout(PATIENCE):
                body = await self.told(reader)
        except Refused as refused:
            status = refused.status
        except asyncio.LimitOverrunError:
            status = 413
        except (TimeoutError, asyncio.IncompleteReadError):
            status = 400
        except OSError:
            # the batch couldn't be kept, and wasn't said
            status = 500
        with suppress(OSError):
            writer.write(answer_of(status, body))
            await writer.drain()
        writer.close()

    async def listen(self) -> asyncio.Server:
        """Makes the socket, for the group of its folder."""
        with suppress(FileNotFoundError):
            os.remove(self.path)
        server = await asyncio.start_unix_server(self.serve, self.path, limit=LONGEST_HEAD)
        os.chmod(self.path, MODE)
        return server

    async def keep(self) -> None:
        """Serves at the socket, for as long as it runs; makes it anew where it was removed."""
        while True:
            try:
                server = await self.listen()
            except FileNotFoundError:
                await asyncio.sleep(RETRY)
                continue
            async with server:
                while os.path.exists(self.path):
                    await asyncio.sleep(RETRY)
