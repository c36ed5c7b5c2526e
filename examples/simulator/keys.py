"""Flights that are recorded: which keys are held from which tick on.

    flight 1
    0 faster
    150 faster pull
    400 end

Each line behind the first has a tick and the keys that are held from it on, and the last line the tick at which the
flight ends.
"""
import os
import pathlib
from typing import IO, Collection, Iterator

from .aeroplane import KEYS

Held = frozenset[str]


class KeysError(ValueError):
    """What is wrong with a recorded flight, and in which line."""


def read_flight(path: str | os.PathLike) -> list[Held]:
    """The keys that are held at each tick of a recorded flight."""
    return list(ticks_of(pathlib.Path(path).read_text(encoding="ascii")))


def ticks_of(text: str) -> Iterator[Held]:
    """The keys that are held at each tick of a flight's text."""
    lines = text.splitlines()
    if not lines or lines[0] != "flight 1":
        raise KeysError("line 1: a flight begins with the line flight 1")
    held: Held = frozenset()
    at = 0
    for number, line in enumerate(lines[1:], 2):
        words = line.split()
        if not words or not words[0].isdigit() or int(words[0]) < at:
            raise KeysError(f"line {number}: a tick is due, which is no earlier than that of the line before")
        for at in range(at, int(words[0])):
            yield held
        at = int(words[0])
        if words[1:] == ["end"]:
            return
        held = frozenset(words[1:])
        if not held <= set(KEYS):
            raise KeysError(f"line {number}: {' '.join(sorted(held - set(KEYS)))} is no key; there are {' '.join(KEYS)}")
    raise KeysError(f"line {len(lines) + 1}: the end is due")


class Recorder:
    """Writes the keys of a flight while it is flown."""

    def __init__(self, file: IO[str]):
        self._file, self._held, self._ticks = file, frozenset(), 0
        print("flight 1", file=file)

    def take(self, held: Collection[str]) -> None:
        """Takes the keys of the next tick."""
        if self._held != held:
            print(self._ticks, *(key for key in KEYS if key in held), file=self._file)
            self._held = frozenset(held)
        self._ticks += 1

    def end(self) -> None:
        """Writes the end."""
        print(self._ticks, "end", file=self._file, flush=True)
