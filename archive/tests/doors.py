"""A door of a hall for tests: it answers `GET /acts/N` as docs/FORMATS.md says, from a text that
the test may change, and does wrong where it is told to."""

import threading
from http.server import BaseHTTPRequestHandler, HTTPServer

PAGE = 128
LAST_REQUEST = 1000


class FakeDoor:
    """Serves one connection after another on a port of the system's choice."""

    def __init__(self, text: str = "") -> None:
        self.lines = text.splitlines(keepends=True)
        self.links = 0
        self.most = 0
        self.faults: list[str] = []
        self.server = HTTPServer(("127.0.0.1", 0), self.handler())
        self.port = self.server.server_address[1]
        self.thread = threading.Thread(target=self.server.serve_forever, args=(0.01,))
        self.thread.start()

    def set(self, text: str) -> None:
        self.lines = text.splitlines(keepends=True)

    def end(self) -> None:
        self.server.shutdown()
        self.thread.join()
        self.server.server_close()

    def handler(self) -> type[BaseHTTPRequestHandler]:
        door = self

        class Handler(BaseHTTPRequestHandler):
            protocol_version = "HTTP/1.1"
            wbufsize = -1

            def setup(self) -> None:
                super().setup()
                self.asked = 0
                door.links += 1

            def do_GET(self) -> None:
                self.asked += 1
                door.most = max(door.most, self.asked)
                fault = door.faults.pop(0) if door.faults else ""
                if fault == "cut":
                    self.close_connection = True
                    return
                status = 503 if fault == "503" else 200
                after = int(self.path.removeprefix("/acts/"))
                body = "".join(door.lines[after : after + PAGE]).encode()
                if fault == "half":
                    body = body[: len(body) // 2]
                self.send_response(status)
                self.send_header("Content-Type", "text/plain")
                self.send_header("Content-Length", str(len(body)))
                self.send_header("Book-Row", str(len(door.lines)))
                if self.asked == LAST_REQUEST:
                    self.send_header("Connection", "close")
                self.end_headers()
                self.wfile.write(body)

            def log_message(self, *_: object) -> None:
                pass

        return Handler
