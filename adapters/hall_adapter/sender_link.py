"""A connection of a sender to a lane's port."""

import re
import socket

from hall_adapter.sender_lines import MAX_LINE

ACKNOWLEDGED = re.compile(rb"ack ([0-9]+)")


class Link:
    """A connection to a hall."""

    def __init__(self, address: tuple[str, int], seconds: float):
        self.socket = socket.create_connection(address, timeout=seconds)
        self.socket.setsockopt(socket.IPPROTO_TCP, socket.TCP_NODELAY, 1)
        self.socket.setsockopt(socket.SOL_SOCKET, socket.SO_KEEPALIVE, 1)
        self.heard = b""

    def fileno(self) -> int:
        return self.socket.fileno()

    def say(self, line: bytes) -> None:
        self.socket.sendall(line)

    def hear(self) -> list[int]:
        """The numbers of the acknowledgements that came; an OSError where the line is cut."""
        came = self.socket.recv(4096)
        if not came:
            raise ConnectionResetError
        *lines, self.heard = (self.heard + came).split(b"\n")
        found = [ACKNOWLEDGED.fullmatch(line) for line in lines]
        if MAX_LINE < len(self.heard):
            raise ConnectionAbortedError
        numbers = [int(one[1]) for one in found if one]
        if len(numbers) < len(lines):
            raise ConnectionAbortedError
        return numbers

    def end(self) -> None:
        """Says that nothing more comes; what the hall still says is heard."""
        try:
            self.socket.shutdown(socket.SHUT_WR)
        except OSError:
            pass

    def close(self) -> None:
        self.socket.close()
