"""Runs a command at another host, and hands its input, its outputs and its status on, as ssh does.

    there.py HOST PORT WORD..      the words are run at HOST, where `Helper` listens at PORT
"""

import contextlib
import json
import os
import socket
import subprocess
import sys
import threading

# The status where the other host doesn't answer, that of ssh.
NO_ANSWER = 255


class Helper:
    """Takes commands at an address, each over a connection of its own, and runs them there."""

    def __init__(self, address, prefix):
        self.prefix = prefix
        self.running = set()
        self.door = socket.create_server(address)
        threading.Thread(target=self.take_all, daemon=True).start()

    def take_all(self):
        while True:
            try:
                link, _ = self.door.accept()
            except OSError:
                return
            threading.Thread(target=self.run, args=(link,), daemon=True).start()

    def run(self, link):
        with link, link.makefile("rb", 0) as source:
            words = json.loads(source.readline())
            process = subprocess.Popen(self.prefix + words, stdin=subprocess.PIPE,
                                       stdout=subprocess.PIPE, stderr=subprocess.PIPE)
            self.running.add(process)
            threading.Thread(target=feed, args=(link, process.stdin), daemon=True).start()
            printed, said = process.stdout.read(), process.stderr.read()
            ended = json.dumps([process.wait(), said.decode(errors="replace")])
            self.running.discard(process)
            with contextlib.suppress(OSError):
                link.sendall(ended.encode() + b"\n" + printed)

    def end(self):
        """Takes no more, and ends what runs."""
        self.door.close()
        for process in list(self.running):
            process.kill()
            process.wait()


def feed(link, sink):
    """Hands a command its input until one of both ends."""
    with contextlib.suppress(OSError, ValueError):
        while piece := link.recv(65536):
            sink.write(piece)
            sink.flush()
    with contextlib.suppress(OSError):
        sink.close()


def hand_on(link):
    with contextlib.suppress(OSError):
        while piece := os.read(0, 65536):
            link.sendall(piece)
        link.shutdown(socket.SHUT_WR)


def main(host, port, words):
    try:
        with socket.create_connection((host, int(port))) as link:
            link.sendall(json.dumps(words).encode() + b"\n")
            threading.Thread(target=hand_on, args=(link,), daemon=True).start()
            answer = b"".join(iter(lambda: link.recv(65536), b""))
        ended, printed = answer.split(b"\n", 1)
        status, said = json.loads(ended)
    except (OSError, ValueError):
        os._exit(NO_ANSWER)
    os.write(2, said.encode())
    os.write(1, printed)
    # the thread may still wait for input that nobody takes any more
    os._exit(status % 256)


if __name__ == "__main__":
    main(sys.argv[1], sys.argv[2], sys.argv[3:])
