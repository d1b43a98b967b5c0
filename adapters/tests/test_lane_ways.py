"""A changing lane's pipe and its socket, with a reader in the place of a hall."""

import asyncio
import os
import tempfile
import unittest

from hall_adapter.batch_socket import BatchSocket, Refused, head_of, length_of, name_of
from hall_adapter.cell_pipe import MOST_WAITING, CellPipe

# Seconds within which something comes about, and in which nothing does.
PATIENCE, MOMENT = 5.0, 0.2


class Pipe(unittest.IsolatedAsyncioTestCase):
    """Readers of the pipe that come and go; a batch is said first to each."""

    async def asyncSetUp(self) -> None:
        room = tempfile.TemporaryDirectory()
        self.addCleanup(room.cleanup)
        self.path = f"{room.name}/cell-1.txt"
        self.began = 0
        self.written: list[bytes] = []
        os.mkfifo(self.path)
        self.pipe = CellPipe(self.path, self.begin, self.written.append)
        self.addCleanup(os.close, self.pipe.readers.events)
        self.keeper = asyncio.create_task(self.pipe.keep())

    async def asyncTearDown(self) -> None:
        self.keeper.cancel()
        if self.pipe.is_there():
            self.pipe.end()

    def begin(self) -> None:
        """A reader came."""
        self.began += 1
        self.pipe.say(b"batch %d\n" % self.began)

    def reader(self) -> int:
        """Opens the pipe as a hall does."""
        return os.open(self.path, os.O_RDONLY | os.O_NONBLOCK)

    async def began_within(self, times: int) -> None:
        """Waits until so many readers were seen."""
        async with asyncio.timeout(PATIENCE):
            while self.began < times:
                await asyncio.sleep(0.005)

    async def test_nobody_reads(self) -> None:
        await asyncio.sleep(MOMENT)
        self.assertEqual(
            (self.began, self.pipe.is_there(), self.pipe.has_room()), (0, False, False)
        )
        self.pipe.say(b"262\n")
        first = self.reader()
        await self.began_within(1)
        self.assertEqual(os.read(first, 100), b"batch 1\n")
        os.close(first)

    async def test_each_reader_hears_it_first(self) -> None:
        for time in range(1, 6):
            reader = self.reader()
            await self.began_within(time)
            self.pipe.say(b"262\n")
            self.assertEqual(os.read(reader, 100), b"batch %d\n262\n" % time)
            self.pipe.say(b"263\n")
            os.close(reader)
            async with asyncio.timeout(PATIENCE):
                while self.pipe.is_there():
                    await asyncio.sleep(0.005)

    async def test_the_next_has_come_before_it_is_looked(self) -> None:
        first = self.reader()
        await self.began_within(1)
        self.pipe.say(b"262\n")
        # no step of the loop lies between these
        second = self.reader()
        os.close(first)
        await self.began_within(2)
        self.pipe.say(b"263\n")
        # what the first one left comes before the batch, and so under none
        self.assertEqual(os.read(second, 100), b"batch 1\n262\nbatch 2\n263\n")
        await asyncio.sleep(MOMENT)
        self.assertEqual(self.began, 2)
        os.close(second)

    async def test_a_full_pipe(self) -> None:
        reader = self.reader()
        await self.began_within(1)
        lines = [b"%08d.000\n" % at for at in range(6_000)]
        for line in lines:
            self.pipe.say(line)
        self.assertTrue(0 < len(self.pipe.waiting) < MOST_WAITING)
        heard = b""
        async with asyncio.timeout(PATIENCE):
            while len(heard) < len(b"batch 1\n") + 13 * len(lines):
                heard += read_all(reader)
                await asyncio.sleep(0.005)
        self.assertEqual(heard, b"batch 1\n" + b"".join(lines))
        self.assertEqual(b"".join(self.written), heard)
        os.close(reader)


def read_all(pipe: int) -> bytes:
    """What lies in a pipe."""
    try:
        return os.read(pipe, 1 << 20)
    except BlockingIOError:
        return b""


class Requests(unittest.TestCase):
    """What the socket takes."""

    def test_names(self) -> None:
        self.assertEqual(name_of(b'{"batch": "A.b_c-1"}'), b"A.b_c-1")
        for body in (b"", b"{", b"[]", b"{}", b'{"batch": 1}', b'{"batch": ""}', b'"batch"',
                     b'{"batch": "A B"}', b'{"batch": "-A"}', b'{"batch": "A\\n"}',
                     b'{"batch": "A", "lane": 1}', b'{"batch": "' + b"x" * 33 + b'"}',
                     b"\xff\xfe"):  # fmt: skip
            with self.assertRaises(Refused, msg=body) as refused:
                name_of(body)
            self.assertEqual(refused.exception.status, 400)

    def test_heads(self) -> None:
        fields = head_of(b"POST /batch HTTP/1.0\r\nX-Person: anna\r\nContent-Length: 3\r\n\r\n")
        self.assertEqual((fields["x-person"], length_of(fields)), ("anna", 3))
        for first, status in (("GET /batch", 405), ("POST /", 404), ("POST /batch/", 404)):
            with self.assertRaises(Refused) as refused:
                head_of(f"{first} HTTP/1.1\r\n\r\n".encode())
            self.assertEqual(refused.exception.status, status)
        for length, status in (("", 400), ("-1", 400), ("257", 413)):
            with self.assertRaises(Refused) as refused:
                length_of({"content-length": length})
            self.assertEqual(refused.exception.status, status)


class Socket(unittest.IsolatedAsyncioTestCase):
    """The socket in a folder, and who asks there."""

    async def asyncSetUp(self) -> None:
        room = tempfile.TemporaryDirectory()
        self.addCleanup(room.cleanup)
        self.path = f"{room.name}/lane-1.socket"
        self.said: list[tuple[bytes, str]] = []
        self.is_full = False
        self.keeper = asyncio.create_task(BatchSocket(self.path, self.change).keep())
        async with asyncio.timeout(PATIENCE):
            while not os.path.exists(self.path):
                await asyncio.sleep(0.005)
        await asyncio.sleep(0.05)

    async def asyncTearDown(self) -> None:
        self.keeper.cancel()

    def change(self, name: bytes, person: str) -> bool:
        """Takes a batch."""
        if self.is_full:
            raise OSError(28, "No space left on device")
        self.said.append((name, person))
        return len(self.said) > 1

    async def ask(self, request: bytes) -> bytes:
        """What a request is answered."""
        reader, writer = await asyncio.open_unix_connection(self.path)
        writer.write(request)
        writer.write_eof()
        async with asyncio.timeout(PATIENCE):
            answer = await reader.read()
        writer.close()
        return answer

    def spell(self, body: bytes, person: str = "anna") -> bytes:
        """A request as the front sends it."""
        head = f"POST /batch HTTP/1.1\r\nX-Person: {person}\r\nContent-Length: {len(body)}\r\n\r\n"
        return head.encode() + body

    async def test_mode(self) -> None:
        self.assertEqual(os.stat(self.path).st_mode & 0o777, 0o660)

    async def test_answers(self) -> None:
        first = await self.ask(self.spell(b'{"batch":"A"}'))
        self.assertTrue(first.startswith(b"HTTP/1.1 200 OK\r\n"), first)
        self.assertTrue(first.endswith(b'{"batch": "A", "heard": false}'), first)
        second = await self.ask(self.spell(b'{"batch":"B"}', "ben"))
        self.assertTrue(second.endswith(b'{"batch": "B", "heard": true}'), second)
        self.assertEqual(self.said, [(b"A", "anna"), (b"B", "ben")])

    async def test_refusals(self) -> None:
        for request, status in (
            (self.spell(b'{"batch":"A"}', ""), b"400"),
            (self.spell(b'{"batch":"A"}', "anna\t"), b"200"),
            (self.spell(b'{"batch":"A"}', "Anna"), b"400"),
            (self.spell(b'{"batch":"A B"}'), b"400"),
            (self.spell(b'{"batch":"A"}')[:-3], b"400"),
            (b"POST /batch HTTP/1.1\r\nX-Person: a\r\nContent-Length: 999\r\n\r\n", b"413"),
            (b"GET /batch HTTP/1.1\r\n\r\n", b"405"),
            (b"nonsense", b"400"),
            (b"x" * 9_000, b"413"),
        ):
            answer = await self.ask(request)
            self.assertEqual(answer[9:12], status, (request[:80], answer))
        self.assertEqual(self.said, [(b"A", "anna")])

    async def test_it_cant_be_kept(self) -> None:
        self.is_full = True
        answer = await self.ask(self.spell(b'{"batch":"A"}'))
        self.assertEqual(answer[9:12], b"500")


if __name__ == "__main__":
    unittest.main()
