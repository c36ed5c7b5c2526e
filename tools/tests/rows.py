"""The worked rows of crates/rows, which have for whole plays what perfly says of them; its README has their form.

Those of crates/edit_rows are files: a play, and its report.
"""
import pathlib
from typing import NamedTuple

TOP = pathlib.Path(__file__).resolve().parents[2]
DATA = TOP / "crates" / "rows" / "data"
EDIT_ROWS = TOP / "crates" / "edit_rows" / "data"
KEYS = {"row", "play", "line", "repeat", "cut", "status", "stream", "stream-sum", "told", "told-sum", "tells"}


class Row(NamedTuple):
    """A row: its name, its text, and the lines that are told of it."""

    name: str
    text: bytes
    told: list


def read_rows():
    """The rows that are a play without words, and without faults of the streams."""
    for block in (DATA / "rows").read_text().split("\n\n"):
        pairs = [line.partition(" ")[::2] for line in block.rstrip("\n").split("\n") if not line.startswith("#")]
        if pairs and {key for key, _ in pairs} <= KEYS:
            told = [value for key, value in pairs if key in ("told", "tells")]
            yield Row(dict(pairs)["row"], text_of(pairs), told)


def text_of(pairs):
    """The text of a row's play."""
    lines, cut = [], b""
    for key, value in pairs:
        if key == "play":
            lines = (DATA / value).read_bytes().split(b"\n")[:-1]
        elif key == "line":
            lines.append(value.encode())
        elif key == "repeat":
            first, last, times = map(int, value.split())
            lines[first - 1:last] = lines[first - 1:last] * times
        elif key == "cut":
            cut = value.encode()
    return b"".join(line + b"\n" for line in lines) + cut
