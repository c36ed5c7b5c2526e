"""Reads texts as programs write them: UTF-8 or UTF-16, lines that end with LF, CR LF or CR, numbers that are none."""
import pathlib
import re
from collections.abc import Iterator

LINE_END = re.compile(r"\r\n|\r|\n")
NONE = re.compile(r"[-+]?(\d*\.?\d*#?(ind|inf|qnan|snan|nan)\d*|nan\(\w*\)|infinity)", re.IGNORECASE)
MARKS = {b"\xff\xfe": "utf-16-le", b"\xfe\xff": "utf-16-be"}


def decoded(data: bytes) -> str:
    """The text of these bytes: UTF-16 where a mark or zero bytes say so, else UTF-8; a mark is left out."""
    coding = MARKS.get(data[:2])
    if coding is None and len(data) > 1 and 0 in data[:2] and data[:2] != b"\0\0":
        coding = "utf-16-be" if data[0] == 0 else "utf-16-le"
    return data.decode(coding or "utf-8", "replace").removeprefix("\ufeff")


def lines_of(text: str) -> list[str]:
    """The lines of a text, whatever they end with."""
    lines = LINE_END.split(text)
    return lines[:-1] if lines and not lines[-1] else lines


def joined_lines(path: pathlib.Path) -> Iterator[tuple[int, str]]:
    """The lines of a file with their numbers, from 1; one that ends with a backslash goes on in the next."""
    held, start = "", 1
    for number, line in enumerate(lines_of(decoded(path.read_bytes())), 1):
        start = start if held else number
        held += line
        if held.endswith("\\"):
            held = held[:-1] + " "
            continue
        yield start, held
        held = ""
    if held:
        yield start, held


def number_of(word: str) -> float:
    """The number that a word is; nan for what a program writes for a number that is none, as 1.#IND.

    Of any other word that is no number it raises ValueError."""
    try:
        return float(word)
    except ValueError:
        if NONE.fullmatch(word):
            return float("nan")
        raise
