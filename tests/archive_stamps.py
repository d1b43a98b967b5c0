#!/usr/bin/python3
"""Stamps of the archive's witness by an authority of this test's own, with Debian's openssl: a line
is stamped and holds; a line or a stamp that was changed, a stamp of another line or another
authority are told; without an answer, or with one to another question, nothing is kept.

usage: tests/archive_stamps.py      needs openssl; done in 10 seconds"""

import glob
import io
import os
import shutil
import subprocess
import sys
import tempfile
import threading
from contextlib import redirect_stderr, redirect_stdout
from http.server import BaseHTTPRequestHandler, HTTPServer
from typing import Any

HERE = os.path.dirname(os.path.realpath(__file__))
sys.path.insert(0, f"{HERE}/../archive")

from clients import need  # noqa: E402

from hall_archive import stamps  # noqa: E402
from hall_archive.__main__ import main as archive  # noqa: E402
from hall_archive.witness import Differs, Witness, digest_of, read_lines  # noqa: E402

MOMENT = 1_764_585_125_250
SETTINGS = """
[tsa]
default_tsa = own
[own]
serial = {folder}/serial
crypto_device = builtin
signer_cert = {folder}/{name}.crt
signer_key = {folder}/{name}.key
certs = {folder}/{name}.ca.crt
signer_digest = sha256
default_policy = 1.2.3.4.1
digests = sha256
ordering = yes
tsa_name = yes
"""


def openssl(*words: str) -> None:
    subprocess.run(["openssl", *words], check=True, capture_output=True)


class Authority:
    """Stamps what is posted to it; `answer` may be another one's bytes."""

    def __init__(self, folder: str, name: str) -> None:
        self.folder, self.name = folder, name
        self.answer = b""
        self.certificates()
        with open(f"{folder}/{name}.cnf", "w", encoding="ascii") as file:
            file.write(SETTINGS.format(folder=folder, name=name))
        if not os.path.exists(f"{folder}/serial"):
            with open(f"{folder}/serial", "w", encoding="ascii") as file:
                file.write("01\n")
        self.server = HTTPServer(("127.0.0.1", 0), self.handler())
        threading.Thread(target=self.server.serve_forever, args=(0.01,), daemon=True).start()
        self.url = f"http://127.0.0.1:{self.server.server_address[1]}/"

    def path(self, more: str) -> str:
        return f"{self.folder}/{self.name}.{more}"

    def certificates(self) -> None:
        """A certificate that signs itself, and one under it that may stamp."""
        new = ("req", "-newkey", "rsa:2048", "-nodes")
        own, under = ("-subj", f"/CN={self.name} root"), ("-subj", f"/CN={self.name}")
        root = ("-keyout", self.path("ca.key"), "-out", self.path("ca.crt"))
        openssl(*new, "-x509", "-days", "2", *own, *root)
        openssl(*new, *under, "-keyout", self.path("key"), "-out", self.path("csr"))
        with open(self.path("ext"), "w", encoding="ascii") as file:
            file.write("extendedKeyUsage = critical,timeStamping\n")
        signed = ("-CA", self.path("ca.crt"), "-CAkey", self.path("ca.key"), "-CAcreateserial")
        asked = ("-in", self.path("csr"), "-out", self.path("crt"), "-extfile", self.path("ext"))
        openssl("x509", "-req", "-days", "2", *asked, *signed)

    def stamped(self, query: bytes) -> bytes:
        with open(self.path("query"), "wb") as file:
            file.write(query)
        words = ("-config", self.path("cnf"), "-queryfile", self.path("query"))
        openssl("ts", "-reply", *words, "-out", self.path("reply"))
        with open(self.path("reply"), "rb") as file:
            return file.read()

    def handler(self) -> type[BaseHTTPRequestHandler]:
        authority = self

        class Handler(BaseHTTPRequestHandler):
            def do_POST(self) -> None:
                query = self.rfile.read(int(self.headers["Content-Length"]))
                body = authority.answer or authority.stamped(query)
                self.send_response(200)
                self.end_headers()
                self.wfile.write(body)

            def log_message(self, *_: object) -> None:
                pass

        return Handler


class Book:
    """A witness of three lines, and settings."""

    def __init__(self, folder: str, url: str, authority: str) -> None:
        self.folder = folder
        self.settings = f"{folder}/archive.toml"
        with open(self.settings, "w", encoding="utf-8") as file:
            file.write(
                f'database = "sqlite:///{folder}/a.db"\nfolder = "{folder}"\n'
                f'read = "/none"\nstamps = "{url}"\nauthority = "{authority}"\n'
                '[[book]]\nhall = "main"\nname = "day"\n'
            )
        self.path = f"{folder}/main.day.witness"
        self.witness = Witness(self.path)
        self.add()

    def add(self) -> None:
        rows = 5 * (len(self.witness.lines) + 1)
        self.witness.append(MOMENT + rows, rows, f"{rows:064x}")

    def stamp(self) -> tuple[int, str]:
        said = io.StringIO()
        with redirect_stdout(said), redirect_stderr(said):
            status = archive(["--settings", self.settings, "stamp", "day"])
        return status, said.getvalue()

    def check(self, authority: str) -> int:
        with open(self.path, encoding="ascii") as file:
            return stamps.check(self.path, read_lines(file.read()), authority)

    def is_told(self, authority: str, number: int) -> None:
        try:
            held = self.check(authority)
        except Differs as fault:
            need(str(fault).startswith(f"line {number} "), f"line {number}: {fault}")
            return
        need(False, f"line {number}: {held} stamps hold")

    def stamps(self) -> list[str]:
        return sorted(glob.glob(f"{self.path}.*"))


def try_stamps(book: Book, own: Authority) -> None:
    """Two lines of three are stamped, the second one once."""
    for _ in range(2):
        status, said = book.stamp()
        need(status == 0 and " is stamped: " in said, f"{status} {said}")
        book.add()
    status, said = book.stamp()
    need(status == 0 and said.startswith("line 3 "), f"{status} {said}")
    status, said = book.stamp()
    need(status == 0 and " is stamped already: " in said, f"{status} {said}")
    need(book.check(own.path("ca.crt")) == 3, "the stamps hold")


def try_faults(book: Book, own: Authority, other: Authority) -> None:
    """No stamp is kept without an answer, of another query, or of another authority."""
    book.add()
    first = book.stamps()[0]
    with open(first, "rb") as file:
        of_another = file.read()
    for answer in (b"none", of_another):
        own.answer = answer
        status, said = book.stamp()
        need(status == 3 and "isn't stamped" in said, f"{status} {said}")
    own.answer = b""
    own.server.shutdown()
    own.server.server_close()
    status, said = book.stamp()
    need(status == 3 and "isn't stamped" in said, f"{status} {said}")
    need(len(book.stamps()) == 3, f"kept are {book.stamps()}")
    try:
        stamps.stamp(
            digest_of(str(book.witness.lines[3])),
            stamps.path_of(book.path, 4),
            other.url,
            own.path("ca.crt"),
        )
    except stamps.NotStamped:
        pass
    need(len(book.stamps()) == 3, "another authority's stamp is kept")


def try_spoiled(book: Book, own: Authority, other: Authority) -> None:
    """A stamp of another line, a changed one, one of no line, and another authority."""
    root, copies = own.path("ca.crt"), f"{book.folder}/copies"
    book.is_told(other.path("ca.crt"), 1)
    shutil.copytree(book.folder, copies)
    shutil.copy(f"{book.path}.1.tsr", f"{book.path}.2.tsr")
    book.is_told(root, 2)
    shutil.copy(f"{copies}/main.day.witness.2.tsr", f"{book.path}.2.tsr")
    with open(f"{book.path}.3.tsr", "r+b") as file:
        file.seek(-9, os.SEEK_END)
        byte = file.read(1)[0]
        file.seek(-9, os.SEEK_END)
        file.write(bytes([byte ^ 1]))
    book.is_told(root, 3)
    shutil.copy(f"{copies}/main.day.witness.3.tsr", f"{book.path}.3.tsr")
    shutil.copy(f"{copies}/main.day.witness.3.tsr", f"{book.path}.9.tsr")
    book.is_told(root, 9)
    os.remove(f"{book.path}.9.tsr")
    need(book.check(root) == 3, "the good stamps hold again")


def main() -> None:
    with tempfile.TemporaryDirectory() as folder:
        own, other = (Authority(folder, name) for name in ("own", "other"))
        where: Any = f"{folder}/book"
        os.mkdir(where)
        book = Book(where, own.url, own.path("ca.crt"))
        try_stamps(book, own)
        try_spoiled(book, own, other)
        try_faults(book, own, other)
    print("3 lines stamped; 4 spoiled stamps told; 4 times no stamp, and none kept")


if __name__ == "__main__":
    main()
