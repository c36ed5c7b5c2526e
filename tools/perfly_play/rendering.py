"""Has perfly draw a play: its frames as pictures, and behind them its report."""
import itertools
import os
import pathlib
import re
import shutil
import subprocess
import tempfile
from typing import Iterator, Sequence

from .pictures import Image, beside, read_images
from .playing import Playing, Stuck
from .reading import Mistake, read_head, read_play

CRATES = pathlib.Path(__file__).resolve().parents[2] / "crates"
BUILDS = {"perfly": "./fly < examples/shaded.play > shaded.ppm", "perfly_live": "./fly live --install ~/.local"}
REFUSED = re.compile(r"^(?:app|dbase) .* : (?:at \d+ )?fault ", re.MULTILINE)


class RenderError(Exception):
    """Why there are no pictures; the status is perfly's, or 1 where it did not run."""

    def __init__(self, text: str, status: int = 1):
        super().__init__(text)
        self.status = status


def built(name: str) -> pathlib.Path:
    """Where this repository's build of the program of this name is, or will be."""
    return CRATES / name / "out" / name


def find_program(given: str | os.PathLike | None = None, name: str = "perfly") -> str:
    """The program of this name: the one that is given, the one that PERFLY names (PERFLY_LIVE that of perfly_live), the built
    one of this repository, or the one on the PATH."""
    variable = name.upper()
    if given is None and variable in os.environ:
        given = os.environ[variable]
        if not given.strip():
            raise RenderError(f"{variable} is set, but empty: it names the program, or is not set")
    if given is not None:
        found = shutil.which(given)
        if not found:
            raise RenderError(f"there is no program {given}")
        return found
    found = str(built(name)) if built(name).is_file() else shutil.which(name)
    if not found:
        raise RenderError(f"{name} is not built: {BUILDS[name]} builds it; or {variable} names it")
    return found


def count_frames(text: bytes) -> int:
    """How many frames a play has."""
    return sum(line == b"frame" for line in text.split(b"\n"))


class Run:
    """perfly at work on a play. Iterate it once, for the pictures of its frames; then `report` is the report.

    The pictures of a frame with several channels stand side by side. A RenderError says why a run did not end with status 0.
    """

    def __init__(self, text: bytes, words: Sequence[str] = (), program: str | os.PathLike | None = None):
        self.text = text
        self.call = [find_program(program), *words]
        self.channels = read_head(text).channels
        self.report = ""

    def __iter__(self) -> Iterator[Image]:
        with tempfile.TemporaryFile() as given, tempfile.TemporaryFile() as told:
            given.write(self.text)
            given.seek(0)
            with subprocess.Popen(self.call, stdin=given, stdout=subprocess.PIPE, stderr=told) as perfly:
                try:
                    images = read_images(perfly.stdout)
                    while pieces := list(itertools.islice(images, self.channels)):
                        yield beside(pieces)
                finally:
                    perfly.stdout.close()
                    if perfly.poll() is None and not self._is_over(perfly):
                        perfly.kill()
            told.seek(0)
            self.report = told.read().decode("ascii", "replace")
        if perfly.returncode:
            raise RenderError(self._why(perfly.returncode), perfly.returncode)

    @staticmethod
    def _is_over(perfly: subprocess.Popen) -> bool:
        """Whether a program whose pictures are all read, or no longer wanted, ends by itself."""
        try:
            perfly.wait(timeout=60)
        except subprocess.TimeoutExpired:
            return False
        return True

    def _why(self, status: int) -> str:
        """What perfly said, and of a text that is no play what tools/look says."""
        said = (self.report.splitlines() or ["nothing"])[-1]
        try:
            if status == 2:
                read_play(self.text)
            elif status == 3:
                Playing(read_play(self.text)).to_end()
        except (Mistake, Stuck) as wrong:
            said = f"{said}\n{wrong}"
        return f"perfly ended with status {status}: {said}"

    def refused(self) -> int:
        """How many edits the report says were refused."""
        return len(REFUSED.findall(self.report))


def entries(report: str, frames: int) -> list[list[str]]:
    """The lines of a report by frame: for each the acts since the frame before it, and its numbers last. What stands behind the
    last frame's act is with the last frame."""
    found: list[list[str]] = [[] for _ in range(max(1, frames))]
    at = 0
    for line in report.splitlines():
        shown = re.match(r"(?:frame|probe) (\d+) ", line)
        if shown and 1 <= int(shown[1]) <= frames:
            found[int(shown[1]) - 1].append(line)
            continue
        found[min(at, len(found) - 1)].append(line)
        at += bool(re.match(r"app frame \d+ : ok$", line))
    return found
