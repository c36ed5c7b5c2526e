"""Chromium without a window, driven over its own pipe: pages are opened, keys are pressed, and what is there is read."""
import base64
import itertools
import json
import os
import pathlib
import shutil
import subprocess
import tempfile
import time
from typing import Any

CHROMIUM = next(filter(None, map(shutil.which, ("chromium", "chromium-browser", "google-chrome"))), None)
CODES = {"ArrowLeft": 37, "ArrowUp": 38, "ArrowRight": 39, "ArrowDown": 40}
PATIENCE, ENDING = 60, 10  # seconds that something, and the end, may take


class Browser:
    """A page in Chromium, of a width and a height."""

    def __init__(self, width: int = 1280, height: int = 760):
        assert CHROMIUM
        self._folder = tempfile.TemporaryDirectory(ignore_cleanup_errors=True)
        given, self._commands = os.pipe()
        self._replies, replies = os.pipe()
        call = [CHROMIUM, "--headless", "--no-sandbox", "--disable-gpu", "--disable-dev-shm-usage", "--remote-debugging-pipe",
                f"--user-data-dir={self._folder.name}", f"--window-size={width},{height}", "about:blank"]
        wrapped = ["sh", "-c", f'exec "$@" 3<&{given} 4>&{replies}', "sh", *call]
        self._process = subprocess.Popen(wrapped, pass_fds=(given, replies), stdout=subprocess.DEVNULL,
                                         stderr=subprocess.DEVNULL)
        os.close(given)
        os.close(replies)
        self._numbers, self._rest, self._session = itertools.count(1), b"", None
        target = next(info for info in self._ask("Target.getTargets")["targetInfos"] if info["type"] == "page")
        self._session = self._ask("Target.attachToTarget", targetId=target["targetId"], flatten=True)["sessionId"]

    def __enter__(self) -> "Browser":
        return self

    def __exit__(self, *_: Any) -> None:
        try:
            self._session = None
            self._ask("Browser.close")
            self._process.wait(ENDING)
        except (RuntimeError, OSError, subprocess.TimeoutExpired):
            self._process.kill()
            self._process.wait()
        os.close(self._commands)
        os.close(self._replies)
        self._folder.cleanup()

    def open(self, url: str) -> None:
        """Opens a page."""
        self._ask("Page.navigate", url=url)

    def value(self, expression: str) -> Any:
        """The value of an expression in the page."""
        return self._ask("Runtime.evaluate", expression=expression, returnByValue=True)["result"].get("value")

    def wait_for(self, expression: str, seconds: float = PATIENCE) -> Any:
        """Waits until an expression in the page is true, and returns its value."""
        end = time.monotonic() + seconds
        while not (value := self.value(expression)):
            if time.monotonic() > end:
                raise TimeoutError(expression)
            time.sleep(0.05)
        return value

    def press(self, key: str, is_down: bool = True) -> None:
        """Presses a key, or lets it go."""
        code = CODES.get(key) or ord(key.upper())
        self._ask("Input.dispatchKeyEvent", type="keyDown" if is_down else "keyUp", key=key, windowsVirtualKeyCode=code)

    def take_picture(self, path: str | os.PathLike) -> None:
        """Writes what is seen of the page as a PNG."""
        pathlib.Path(path).write_bytes(base64.b64decode(self._ask("Page.captureScreenshot", format="png")["data"]))

    def _ask(self, method: str, **words: Any) -> dict:
        """Gives a command, and returns what is answered."""
        number = next(self._numbers)
        message = {"id": number, "method": method, "params": words}
        if self._session:
            message["sessionId"] = self._session
        os.write(self._commands, json.dumps(message).encode() + b"\0")
        while True:
            answer = self._read()
            if answer.get("id") == number:
                if "error" in answer:
                    raise RuntimeError(answer["error"]["message"])
                return answer["result"]

    def _read(self) -> dict:
        """The next message."""
        while b"\0" not in self._rest:
            piece = os.read(self._replies, 1 << 16)
            if not piece:
                raise RuntimeError("Chromium has ended")
            self._rest += piece
        message, _, self._rest = self._rest.partition(b"\0")
        return json.loads(message)
