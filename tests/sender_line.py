"""A line to a hall's port that holds lines back for longer than a sender waits, and is cut at drawn
lines and acknowledgements. For tests/sender.py."""

import random
import socket
import threading
import time

# How long a line is held back, in seconds, as drawn, and how many of a hundred lines and
# acknowledgements cut the connection.
HELD = [0.2, 0.4, 0.6]
CUTS = 25


def end(link: socket.socket) -> None:
    try:
        link.shutdown(socket.SHUT_RDWR)
    except OSError:
        pass
    link.close()


class SlowLine:
    """Each connection hands on whole lines, one after the other, until it is cut."""

    def __init__(self, target: int, seed: int) -> None:
        self.target = target
        self.draw = random.Random(seed)
        self.door = socket.create_server(("127.0.0.1", 0))
        self.port: int = self.door.getsockname()[1]
        threading.Thread(target=self.take_all, daemon=True).start()

    def take_all(self) -> None:
        while True:
            near = self.door.accept()[0]
            far = socket.create_connection(("127.0.0.1", self.target))
            for one, other, held in ((near, far, HELD), (far, near, [0.0])):
                threading.Thread(target=self.hand_on, args=(one, other, held), daemon=True).start()

    def hand_on(self, one: socket.socket, other: socket.socket, held: list[float]) -> None:
        rest = b""
        try:
            while came := one.recv(4096):
                *lines, rest = (rest + came).split(b"\n")
                for line in lines:
                    time.sleep(self.draw.choice(held))
                    if self.draw.randrange(100) < CUTS:
                        raise OSError("cut")
                    other.sendall(line + b"\n")
        except OSError:
            pass
        end(one)
        end(other)
