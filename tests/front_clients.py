"""People who ask at the front: over TLS, with a password, from an address of this machine."""

import base64
import json
import socket
import ssl

from clients import need
from front_room import NAME

CONTEXT = ssl.create_default_context()
CONTEXT.check_hostname = False
CONTEXT.verify_mode = ssl.CERT_NONE


class Reply:
    """What came back over a link: its status, its fields and its body."""

    def __init__(self, link):
        held = b""
        while b"\r\n\r\n" not in held:
            held += take(link)
        head, self.body = held.split(b"\r\n\r\n", 1)
        first, *lines = head.decode("ascii").split("\r\n")
        self.status = int(first.split(" ")[1])
        self.fields = dict(line.lower().split(": ", 1) for line in lines)
        while len(self.body) < int(self.fields.get("content-length", 0)):
            self.body += take(link)


def take(link):
    got = link.recv(65536)
    need(got, "the front left the connection")
    return got


def connect(source="127.0.0.1", name=NAME):
    """A TLS connection to the front, from an address of this machine."""
    raw = socket.create_connection(("127.0.0.1", 443), timeout=30, source_address=(source, 0))
    return CONTEXT.wrap_socket(raw, server_hostname=name)


class Person:
    """Somebody at the front, with a password, who asks from an address of this machine."""

    def __init__(self, front, name, source="127.0.0.1", address=NAME):
        self.front = front
        self.source = source
        self.address = address
        word = base64.b64encode(f"{name}:{front.passwords.get(name, 'x')}".encode()).decode()
        self.sign = f"Authorization: Basic {word}\r\n" if name else ""
        self.requests = {}

    def head(self, method, path, more=""):
        return f"{method} {path} HTTP/1.1\r\nHost: {self.address}\r\n{self.sign}{more}\r\n".encode()

    def send(self, method, path, body=b"", more=""):
        """Asks over a connection of its own, which ends behind the answer."""
        if body:
            more += f"Content-Length: {len(body)}\r\n"
        with connect(self.source, self.address) as link:
            link.sendall(self.head(method, path, more + "Connection: close\r\n") + body)
            return Reply(link)

    def chunked(self, body):
        """Posts an act in chunks of 16 bytes."""
        parts = [body[at : at + 16] for at in range(0, len(body), 16)]
        coded = b"".join(b"%x\r\n%s\r\n" % (len(part), part) for part in parts) + b"0\r\n\r\n"
        with connect(self.source, self.address) as link:
            head = self.head("POST", "/hall/acts", "Transfer-Encoding: chunked\r\n")
            link.sendall(head + coded)
            return Reply(link)

    def act(self, desk, **members):
        """An act of a desk; its number counts up where it is accepted."""
        request = self.requests.get(desk, 0) + 1
        body = json.dumps({"desk": desk, "request": request} | members).encode()
        reply = self.send("POST", "/hall/acts", body)
        if reply.status == 200:
            self.requests[desk] = request
            self.front.told[json.loads(reply.body)["row"]] = (desk, request, members)
        return reply


def expect(reply, status, about):
    need(reply.status == status, f"{about}: {reply.status} for {status}, {reply.body[:200]}")
