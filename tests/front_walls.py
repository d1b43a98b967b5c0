"""The edge of the front: TLS and names in it, two halls at one front, and the walls
(deploy/hall.nft) around the ports of doors and scales. Run by tests/front.py."""

import json
import os
import socket
import ssl
import subprocess
import sys
import time
from collections.abc import Callable, Iterator
from contextlib import contextmanager
from typing import Any

from clients import need
from front_clients import Person, connect, expect
from front_room import FIRST_PORT, NAME, TOP, make_hall, run, wait_until
from rows import rows_behind

SCALE_PORT = 9001
FALSE_ROW = 4711
SETUP = "day 2025-03-03\nproduct juice500 500\ntare juice500 2025-03-03 20\nopen J juice500\n"
# Who answers every connection to a port with one text, as a user of this machine.
ANSWERER = """
import socket, sys, threading
port, text = int(sys.argv[1]), sys.argv[2].encode()
links = []
listener = socket.create_server(("127.0.0.1", port), reuse_port=False)
print("listens", flush=True)
while True:
    link, _ = listener.accept()
    def answer(link=link):
        while link.recv(65536):
            link.sendall(text)
    threading.Thread(target=answer, daemon=True).start()
"""
# Says what it hears at a port.
ASKER = """
import socket, sys
link = socket.create_connection(("127.0.0.1", int(sys.argv[1])), 3)
link.settimeout(3)
link.sendall(b"1 262\\n")
print(link.recv(64).decode(), end="")
"""


# ---- TLS, and names


def handshake(version: ssl.TLSVersion, ciphers: str, name: str | None = NAME) -> str:
    """What was agreed on at the front with a client of one version; nothing where it is refused."""
    context = ssl.SSLContext(ssl.PROTOCOL_TLS_CLIENT)
    context.check_hostname = False
    context.verify_mode = ssl.CERT_NONE
    context.set_ciphers(ciphers + ":@SECLEVEL=0")
    context.minimum_version = context.maximum_version = version
    raw = socket.create_connection(("127.0.0.1", 443), timeout=30)
    try:
        with context.wrap_socket(raw, server_hostname=name) as link:
            return f"{link.version()} {(link.cipher() or ['none'])[0]}"
    except (ssl.SSLError, ConnectionError):
        return ""


def check_transport(front: Any) -> None:
    """TLS 1.2 and 1.3 with forward secrecy alone; other names are told nothing."""
    tls = ssl.TLSVersion
    need(handshake(tls.TLSv1_3, "ALL").startswith("TLSv1.3 "), "TLS 1.3 is spoken")
    for ciphers in ("ALL", "ECDHE-RSA-AES128-GCM-SHA256", "ECDHE-RSA-CHACHA20-POLY1305"):
        said = handshake(tls.TLSv1_2, ciphers)
        need(said.startswith("TLSv1.2 ECDHE-"), f"TLS 1.2 with {ciphers}: {said}")
    for version, ciphers in (
        (tls.TLSv1_2, "AES128-SHA"),
        (tls.TLSv1_2, "AES128-GCM-SHA256"),
        (tls.TLSv1_2, "ECDHE-RSA-AES128-SHA"),
        (tls.TLSv1_1, "ALL"),
        (tls.TLSv1, "ALL"),
    ):
        said = handshake(version, ciphers)
        need(not said, f"{version.name} with {ciphers} is taken: {said}")
    for name in ("other.example", None):
        need(not handshake(tls.TLSv1_3, "ALL", name), f"the name {name} is answered")
    anna = Person(front, "anna")
    for host in ("other", "other.example", "127.0.0.1", f"{NAME}.example"):
        heard = other_host(anna, host)
        need(heard == b"", f"Host {host} hears {heard[:80]!r}")
        asked = [
            "curl",
            "-sk",
            "--http2",
            "--resolve",
            f"{NAME}:443:127.0.0.1",
            "-H",
            f"Host: {host}",
            f"https://{NAME}/",
        ]
        by_curl = subprocess.run(asked, capture_output=True, timeout=60)
        need(by_curl.returncode != 0 and not by_curl.stdout, f"curl with Host {host}: {by_curl}")


def other_host(person: Person, host: str) -> bytes:
    """What comes back over a connection for this front to a question for another host."""
    with connect() as link:
        link.sendall(f"GET / HTTP/1.1\r\nHost: {host}\r\n{person.sign}\r\n".encode())
        heard = b""
        try:
            while got := link.recv(65536):
                heard += got
        except OSError:
            pass
        return heard


# ---- two halls


def check_two_halls(front: Any, program: str, folder: str) -> None:
    """A second hall with people of its own, and an old book of the same people: each address shows
    its own book, list and settings, and lets in its own people alone."""
    front.show("juice.example", "juice", 8481, "/etc/hall/juice", {"carl": [101]})
    front.show("old.example", "old", 8475, "/etc/hall/front", {})
    halls = {
        book: make_hall(program, f"{folder}/{book}", SETUP, [], f"{folder}/{book}.book", port)
        for book, port in (("juice", 8481), ("old", 8475))
    }
    for book in halls:
        os.makedirs(f"/run/hall/{book}")
        for path, text in (
            (f"/run/hall/{book}/list.txt", f"list of {book}\n"),
            (f"/run/hall/{book}/lanes.txt", f"lanes of {book}\n"),
        ):
            with open(path, "w", encoding="ascii") as file:
                file.write(text)
    with open("/etc/hall/juice/juice.example.json", "w", encoding="ascii") as file:
        file.write('{"hall":"juice"}')
    front.reload()
    check_who(front)
    check_books(front, folder)
    halls["old"].kill()
    expect(at("old.example", front, "anna").send("GET", "/hall/summary"), 502, "old has ended")
    for address, name in ((NAME, "anna"), ("juice.example", "carl")):
        expect(at(address, front, name).send("GET", "/hall/summary"), 200, f"{address} goes on")
    halls["juice"].kill()
    run(f"{TOP}/deploy/site", "--remove", "old.example")
    front.reload()
    need(not handshake(ssl.TLSVersion.TLSv1_3, "ALL", "old.example"), "old.example is gone")
    print("front: check_two_halls holds", flush=True)


def at(address: str, front: Any, name: str) -> Person:
    return Person(front, name, address=address)


def check_who(front: Any) -> None:
    for address, name, status in (
        ("juice.example", "anna", 401),
        (NAME, "carl", 401),
        ("old.example", "carl", 401),
        ("juice.example", "carl", 200),
        ("old.example", "anna", 200),
        (NAME, "anna", 200),
    ):
        expect(at(address, front, name).send("GET", "/hall/summary"), status, f"{name}, {address}")
    for book, name in (("juice", "carl"), ("old", "ben")):
        for page in ("list", "lanes"):
            reply = at(f"{book}.example", front, name).send("GET", f"/{page}.txt")
            need(reply.body == f"{page} of {book}\n".encode(), f"{page} of {book}: {reply.body!r}")
    expect(at(NAME, front, "anna").send("GET", "/settings.json"), 404, "no settings")
    with open("/etc/hall/front/settings.json", "w", encoding="ascii") as file:
        file.write('{"hall":"all"}')
    for address in (NAME, "old.example"):
        reply = at(address, front, "anna").send("GET", "/settings.json")
        need(json.loads(reply.body) == {"hall": "all"}, f"settings {reply.body!r}")
    reply = at("juice.example", front, "carl").send("GET", "/settings.json")
    need(json.loads(reply.body) == {"hall": "juice"}, f"settings {reply.body!r}")


def check_books(front: Any, folder: str) -> None:
    """Acts of one number and desk at two addresses are rows of two books."""
    for address, name in (("juice.example", "carl"), ("old.example", "anna")):
        book = address.split(".", maxsplit=1)[0]
        body = b'{"act":"product","desk":101,"request":1,"name":"%s","nominal":100000}'
        reply = at(address, front, name).send("POST", "/hall/acts", body % book.encode())
        expect(reply, 200, f"{name} at {address}")
        need(json.loads(reply.body) == {"row": 5}, f"{name} is told {reply.body!r}")
        [row] = rows_behind(f"{folder}/{book}.book", 4)
        need((row.desk, row.request, row.act["name"]) == (101, 1, book), f"{book} has {row}")
    reply = at("old.example", front, "ben").send(
        "POST", "/hall/acts", b'{"act":"end","desk":101,"request":2,"batch":"J"}'
    )
    expect(reply, 403, "ben as 101 in the old book")


# ---- the walls


def as_user(user: str, *words: str, group: str = "") -> list[str]:
    return [
        "setpriv",
        f"--reuid={user}",
        f"--regid={group or user_group(user)}",
        "--clear-groups",
        sys.executable,
        "-c",
        *words,
    ]


def user_group(user: str) -> str:
    return "nogroup" if user == "nobody" else user


@contextmanager
def answerer(user: str, port: int, text: str) -> Iterator[None]:
    """Somebody who listens at a port as a user, and answers everything with a text."""
    words = as_user(user, ANSWERER, str(port), text)
    process = subprocess.Popen(words, stdout=subprocess.PIPE)
    try:
        assert process.stdout
        need(process.stdout.readline() == b"listens\n", f"{user} can't listen at {port}")
        yield
    finally:
        process.kill()
        process.wait()


def heard(user: str, port: int) -> str:
    """What a user hears at a port; nothing where they are refused or not answered."""
    asked = subprocess.run(as_user(user, ASKER, str(port)), capture_output=True, text=True)
    return asked.stdout


def reaches(user: str, port: int, group: str = "") -> bool:
    """Whether a user of this machine reaches a port, in a group."""
    connect = f"import socket; socket.create_connection(('127.0.0.1', {port}), 5)"
    words = as_user(user, connect, group=group)
    return subprocess.run(words, capture_output=True).returncode == 0


def false_office() -> str:
    body = f'{{"row":{FALSE_ROW}}}'
    return (
        f"HTTP/1.1 200 OK\r\nContent-Type: application/json\r\nContent-Length: {len(body)}\r\n"
        f"Book-Row: {FALSE_ROW}\r\n\r\n{body}"
    )


def load() -> None:
    run("nft", "-f", f"{TOP}/deploy/hall.nft")


def check_walls(front: Any, hall: Any, begin: Callable[[], Any]) -> None:
    """Who reaches a door or a scale's port, and who is heard from one, without the walls and with
    them. The hall is ended and begun again meanwhile; it is ended where this returns."""
    front.stop()
    for user in ("nobody", "root", "www-data"):
        need(reaches(user, FIRST_PORT), f"without walls {user} reaches a door")
    with answerer("nobody", SCALE_PORT, "ack 1\n"):
        need(heard("hall", SCALE_PORT) == "ack 1\n", "without walls nobody answers a sender")
    load()
    load()
    for user, may in (("nobody", False), ("root", False), ("hall", False), ("www-data", True)):
        need(reaches(user, FIRST_PORT) == may, f"{user} at a door: not {may}")
    need(reaches("hall", FIRST_PORT, "hall-doors"), "the list and the standby reach no door")
    with answerer("hall", SCALE_PORT, "ack 1\n"):
        for user, text in (("nobody", ""), ("root", ""), ("www-data", ""), ("hall", "ack 1\n")):
            need(heard(user, SCALE_PORT) == text, f"{user} at a scale's port doesn't hear {text!r}")
    with answerer("nobody", SCALE_PORT, "ack 1\n"):
        need(heard("hall", SCALE_PORT) == "", "with walls nobody answers a sender")
    hall.kill()
    front.start()
    false_answers(front)
    again = begin()
    wait_until(lambda: Person(front, "anna").send("GET", "/hall/summary").status == 200, "again")
    again.kill()
    print("front: check_walls holds", flush=True)


def false_answers(front: Any) -> None:
    """While the hall is gone another user listens at its doors."""
    anna = Person(front, "anna")
    body = b'{"act":"end","desk":101,"request":99,"batch":"A"}'
    with answerer("nobody", FIRST_PORT, false_office()), answerer(
        "nobody", FIRST_PORT + 1, false_office()
    ):
        for method, path, sent in (("GET", "/hall/summary", b""), ("POST", "/hall/acts", body)):
            began = time.monotonic()
            reply = anna.send(method, path, sent)
            need(
                reply.status in (502, 504) and str(FALSE_ROW).encode() not in reply.body,
                f"nobody answers for a door: {reply.status}, {reply.body!r}",
            )
            need(time.monotonic() - began < 30, "the front waits too long")
        run("nft", "delete", "table", "inet", "hall")
        reply = anna.send("POST", "/hall/acts", body)
        need(json.loads(reply.body) == {"row": FALSE_ROW}, f"without walls: {reply.body!r}")
        load()
