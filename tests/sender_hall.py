"""A hall that takes numbered lines as docs/FORMATS.md says, slow, deaf or cut as it is told to; and a
door that says what its book has. For tests/sender.py."""

import http.server
import random
import select
import socket
import threading
import time

# How long it waits at most before it sees that it is to end, in seconds.
LOOK = 0.02


class Hall:
    """A hall that takes numbered lines, and a door that says what its book has."""

    def __init__(self) -> None:
        self.rows: list[str] = []
        # the batch of each row, and how often a batch was taken
        self.batches: list[str] = []
        self.changes = 0
        self.is_deaf = False
        # how many of a hundred answers are cut with their connection, and whether one is owed
        self.cuts = 0
        self.is_owing = False
        # how long the hall may take over a weight, in seconds, as drawn
        self.delays = [0.0]
        self.draw = random.Random(64)
        self.door = http.server.ThreadingHTTPServer(("127.0.0.1", 0), self.answerer())
        threading.Thread(target=self.door.serve_forever, daemon=True).start()
        self.port = 0
        self.begin()

    def begin(self) -> None:
        """Takes connections, having taken nothing."""
        self.taken = 0
        self.batch = ""
        self.is_ending = False
        self.listener = socket.create_server(("127.0.0.1", self.port))
        self.port = self.listener.getsockname()[1]
        self.thread = threading.Thread(target=self.serve, daemon=True)
        self.thread.start()

    def end(self) -> None:
        """Ends in good order: what was taken is acknowledged."""
        self.is_ending = True
        self.thread.join()

    def serve(self) -> None:
        """Serves one connection after another."""
        with self.listener as listener:
            while not self.is_ending:
                if select.select([listener], [], [], LOOK)[0]:
                    self.hear(listener.accept()[0])

    def hear(self, link: socket.socket) -> None:
        """Takes the lines of a connection, until its end or the hall's."""
        held = b""
        with link:
            while not self.is_ending:
                if not select.select([link], [], [], LOOK)[0]:
                    continue
                came = received(link)
                *lines, held = (held + came).split(b"\n")
                if not came or not all(self.take(link, line.decode().split()) for line in lines):
                    return

    def keep(self, words: list[str]) -> None:
        """Takes the next line: a weight is a row of the present batch."""
        if words[0] == "batch":
            self.batch = words[1]
            self.changes += 1
        elif words[0] != "end":
            self.rows.append(words[0])
            self.batches.append(self.batch)
            self.is_ending = self.is_ending or self.is_deaf
            time.sleep(self.draw.choice(self.delays))

    def take(self, link: socket.socket, words: list[str]) -> bool:
        """Takes a line. Where it is deaf it ends well after it, and its answer is lost."""
        number = int(words[0])
        if number == self.taken + 1:
            self.taken = number
            self.keep(words[1:])
            self.is_owing = self.draw.randrange(100) < self.cuts
            if self.is_owing:
                return False
        if number <= self.taken and not self.is_deaf:
            self.is_owing = False
            try:
                link.sendall(b"ack %d\n" % self.taken)
            except OSError:
                return False
        return not self.is_ending

    def answerer(self) -> type[http.server.BaseHTTPRequestHandler]:
        hall = self

        class Answerer(http.server.BaseHTTPRequestHandler):
            """The questions of docs/FORMATS.md, over rows that are all packs of lane 3."""

            def do_GET(self) -> None:  # pylint: disable=invalid-name
                words = self.path.split("/")
                text = {"summary": f"rows {len(hall.rows)}\n", "lanes": "lane 3 batch A settled\n"}
                if words[1] == "packs":
                    gross = hall.rows[int(words[2]) - 1]
                    said = f"pack {words[2]} batch A lane 3 gross {gross} net 1.000 standard"
                    text["packs"] = f"{said} pass passed\n"
                body = text[words[1]].encode()
                self.send_response(200)
                self.send_header("Content-Length", str(len(body)))
                self.end_headers()
                try:
                    self.wfile.write(body)
                except OSError:
                    # the sender waits no more on a machine that is so slow
                    pass

            def log_message(self, format: str, *args: object) -> None:
                pass

        return Answerer


def received(link: socket.socket) -> bytes:
    """What comes of a connection; nothing where it is cut."""
    try:
        return link.recv(65536)
    except OSError:
        return b""
