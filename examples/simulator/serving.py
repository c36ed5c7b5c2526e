"""The page on the loopback: it gets pictures with what is told of them, and gives the keys that are held.

`/pictures` is one answer without an end: for each picture a line of JSON, in which `bytes` has the size of what follows,
and then the picture as PPM. A page that reads slowly misses pictures, and the flight does not wait for it.
"""
import collections
import functools
import http.server
import json
import threading
from typing import Any

from . import HERE
from .aeroplane import KEYS
from .flight import Shown
from .keys import Held

HOST = "127.0.0.1"
MOST = 4096  # bytes that the page may give at once
PATIENCE = 1  # seconds, after which a page is told that there is nothing new
NOTHING = b'{"bytes": 0}\n'
TAPS = 16  # sets of keys that wait for their tick at most


class Window:
    """What lies between the flight and the page: the newest picture, and the keys that are held."""

    def __init__(self) -> None:
        self._changed = threading.Condition()
        self._newest, self._number = b"", 0
        self._held: Held = frozenset()
        self._coming: collections.deque[Held] = collections.deque(maxlen=TAPS)
        self._readers = 0
        self._is_over = False

    def put(self, shown: Shown) -> None:
        """Gives the page what a tick shows."""
        image = shown.picture.ppm()
        self._put(json.dumps({**shown.told, "bytes": len(image)}).encode() + b"\n" + image)

    def end(self, why: str) -> None:
        """Tells the page that the flight is over, and why."""
        self._put(json.dumps({"ended": why, "bytes": 0}).encode() + b"\n", is_over=True)

    def _put(self, text: bytes, is_over: bool = False) -> None:
        with self._changed:
            self._newest, self._number, self._is_over = text, self._number + 1, is_over
            self._changed.notify_all()

    def newer(self, number: int) -> tuple[bytes, int, bool]:
        """The newest picture, its number, which is greater than this, and whether it is the last; where none comes for a
        while, an empty line of JSON."""
        with self._changed:
            if self._changed.wait_for(lambda: self._number > number, PATIENCE):
                return self._newest, self._number, self._is_over
            return NOTHING, number, self._is_over

    def held(self) -> Held:
        """The keys that are held in the next tick. A key that is pressed and let go between two ticks has one of its own."""
        with self._changed:
            if self._coming:
                self._held = self._coming.popleft()
            return self._held

    def hear(self, held: Held) -> None:
        """Takes the keys that are held on the page."""
        if not held <= set(KEYS):
            raise ValueError("there is no such key")
        with self._changed:
            self._coming.append(held)

    def count_reader(self, more: int) -> None:
        """A page has come, or gone; where there is none, no key is held."""
        with self._changed:
            self._readers += more
            if not self._readers:
                self._coming.append(frozenset())


class Handler(http.server.BaseHTTPRequestHandler):
    """Answers the page."""

    def __init__(self, window: Window, page: bytes, *words: Any):
        self._window, self._page = window, page
        super().__init__(*words)

    def do_GET(self) -> None:
        """The page, or the pictures."""
        if not self._is_ours():
            self.send_error(403)
        elif self.path == "/":
            self._answer(self._page, "text/html; charset=utf-8")
        elif self.path == "/pictures":
            self._send_pictures()
        else:
            self.send_error(404)

    def do_POST(self) -> None:
        """The keys that are held."""
        size = self.headers.get("Content-Length", "")
        if not self._is_ours() or self.path != "/keys" or not size.isdigit() or int(size) > MOST:
            self.send_error(403)
            return
        try:
            self._window.hear(frozenset(json.loads(self.rfile.read(int(size)))))
        except (ValueError, TypeError):
            self.send_error(400)
        else:
            self._answer(b"", "text/plain")

    def _is_ours(self) -> bool:
        """Whether the page of this server asks, and not one of another host that has found its port."""
        host, port = self.server.server_address[:2]
        ours = {f"{name}:{port}" for name in (host, "localhost")}
        origin = self.headers.get("Origin", "")
        return self.headers.get("Host") in ours and origin.removeprefix("http://") in ours | {""}

    def _answer(self, body: bytes, kind: str) -> None:
        self.send_response(200)
        self.send_header("Content-Type", kind)
        self.send_header("Content-Length", str(len(body)))
        self.send_header("Cache-Control", "no-store")
        self.end_headers()
        self.wfile.write(body)

    def _send_pictures(self) -> None:
        """Sends pictures until the page or the flight ends."""
        self.send_response(200)
        self.send_header("Content-Type", "application/octet-stream")
        self.send_header("Cache-Control", "no-store")
        self.end_headers()
        self._window.count_reader(1)
        number, is_over = 0, False
        try:
            while not is_over:
                text, number, is_over = self._window.newer(number)
                self.wfile.write(text)
        except OSError:
            pass  # the page has gone
        finally:
            self._window.count_reader(-1)

    def log_message(self, *_: Any) -> None:
        """Nothing is told of each request."""


class Server(http.server.ThreadingHTTPServer):
    """The server of a window's page, in threads of its own; a port of 0 takes one that is free."""

    daemon_threads = True

    def __init__(self, window: Window, port: int, page: bytes | None = None):
        page = page or (HERE / "page.html").read_bytes()
        super().__init__((HOST, port), functools.partial(Handler, window, page))
        threading.Thread(target=self.serve_forever, daemon=True).start()

    @property
    def url(self) -> str:
        """Where the page is."""
        return f"http://{HOST}:{self.server_address[1]}/"

    def handle_error(self, *_: Any) -> None:
        """A page that goes is no error."""
