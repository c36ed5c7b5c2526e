"""Reads a live text as perfly_live does, and makes a play of it, or a live text of a play.

A live text has the head of a play of version 2 behind the line `perfly live 1`, and behind `app` the application's
lines and blocks: `buffer`, the lines of a buffer, and `merge`, which is made where it stands.
"""
from typing import Iterator, NamedTuple

from . import forms, limits
from .forms import Edit
from .graph import Fault, Graph
from .reading import Mistake, Reader, allowed_in, read_play

BARRED = ("wait", "await", "dbase")
OUTSIDE_BLOCK = {command: fields for command, fields in allowed_in(2, None).items() if command not in BARRED}
OUTSIDE_BLOCK["buffer"] = ()
INSIDE_BLOCK = allowed_in(2, True)


class TooLarge(ValueError):
    """Why a live text is too large for a play: the line that passes a limit of plays, and which."""

    def __init__(self, line: int, limit: int, name: str):
        super().__init__(f"line {line}: the play would have more than {limit:,} {name}")
        self.line = line


class Command(NamedTuple):
    """A command of a live text, or a block: its lines as they stand, and their edits; a block's end with `merge`."""

    first: int
    lines: list[bytes]
    edits: list[Edit]

    def is_block(self) -> bool:
        """Whether it is a block."""
        return self.edits[0].command == "buffer"


class LiveReader(Reader):
    """The lines of a live text; `goes_on` says that these bytes are only its beginning."""

    most_lines = limits.LIVE_LINES

    def __init__(self, text: bytes, goes_on: bool = False):
        super().__init__(text)
        if goes_on:
            self.rest = b""
        self.goes_on = goes_on
        self.head_lines: list[bytes] = []

    def next_words(self, due: str) -> list[str]:
        """The words of the next line; a beginning that ends is longer than a play may be."""
        if self.goes_on and self.is_over():
            raise TooLarge(self.line + 1, limits.BYTES, "bytes")
        return super().next_words(due)

    def commands(self) -> Iterator[Command]:
        """Each command and block behind the head, as soon as it is whole; raises the Mistake that perfly_live refuses
        the text for."""
        head = self.head()
        self.head_lines = self.whole[1:self.line]
        while not self.is_over():
            first, edits = self.line + 1, []
            allowed = OUTSIDE_BLOCK
            while not edits or edits[0].command == "buffer" and edits[-1].command != "merge":
                words = self.next_words("merge, which closes the block,")
                edits.append(self.edit(words, head.version, head.channels, allowed))
                allowed = INSIDE_BLOCK
            yield Command(first, self.whole[first - 1:self.line], edits)

    def version(self) -> int:
        words = self.next_words("perfly live 1")
        if words in (["perfly", "1"], ["perfly", "2"]):
            raise Mistake(self.line, "Version", "this is a play, which perfly plays; a live text begins with "
                                                "perfly live 1")
        if words != ["perfly", "live", "1"]:
            self.wrong_version(words, "a live text begins with the line perfly live 1")
        return 2

    def edit(self, words: list[str], version: int, channels: int, allowed: dict) -> Edit:
        if words[0] in BARRED:
            self.wrong("Command", words, f"a live text has no {words[0]}: a merge is made where its block stands")
        return super().edit(words, version, channels, allowed)

    def count_triangles(self, count: int) -> None:
        """Counts them; a live text may have any number of triangles."""
        self.triangles += count


def play_of(reader: LiveReader, is_inline: bool = False) -> bytes:
    """The play of a live text: its commands as the application's, with `wait k` behind the k-th block, and its blocks
    as DBASE's.

    Inline, the blocks are edits of the application, and those that are refused are left out. Raises the Mistake of a
    text that is no live text, and TooLarge at the line that passes a limit of plays.
    """
    play = _Inline() if is_inline else _Sections()
    for command in reader.commands():
        play.take(command)
        play.check(command.first, reader.head_lines)
    if reader.goes_on:
        raise TooLarge(reader.line + 1, limits.BYTES, "bytes")
    return b"".join(line + b"\n" for line in [b"perfly 2", *reader.head_lines, *play.lines()])


def live_of(text: bytes) -> bytes:
    """The live text of a play: each block stands where the application waits for it, or at the end.

    Of a fenced play perfly_live draws the pictures that perfly draws of it. Raises the Mistake of a text that is no play,
    and a ValueError where the application waits for a merge that never comes.
    """
    play, lines = read_play(text), text.split(b"\n")
    bounds = [step.line for step in play.dbase if step.edit.command in ("buffer", "merge")]
    blocks = [lines[first - 1:last] for first, last in zip(bounds[::2], bounds[1::2])]
    live, given = [b"perfly live 1", *lines[1:lines.index(b"app") + 1]], 0
    for line, edit in play.application:
        if edit.command != "wait":
            live += lines[line - 1:line + len(edit.corners) // 3]
        elif edit.fields[0] > len(blocks):
            raise ValueError(f"line {line} waits for merge {edit.fields[0]}, and the play has {len(blocks)}")
        else:
            live += [line for block in blocks[given:edit.fields[0]] for line in block]
            given = max(given, edit.fields[0])
    live += [line for block in blocks[given:] for line in block]
    return b"".join(line + b"\n" for line in live)


class _Sections:
    """The sections of a play, taken from the commands of a live text."""

    def __init__(self) -> None:
        self.application: list[bytes] = []
        self.dbase: list[bytes] = []
        self.merges = self.triangles = self.size = 0

    def take(self, command: Command) -> None:
        """Takes a command or a block."""
        if command.is_block():
            self.merges += 1
            self.put(self.application, [b"wait %d" % self.merges])
            self.put(self.dbase, command.lines)
        else:
            self.put(self.application, command.lines)
        self.triangles += sum(len(edit.corners) // 3 for edit in command.edits)

    def put(self, section: list[bytes], lines: list[bytes]) -> None:
        """Puts lines behind a section."""
        section += lines
        self.size += sum(map(len, lines)) + len(lines)

    def lines(self) -> list[bytes]:
        """The lines behind `app`."""
        return self.application + ([b"dbase", *self.dbase] if self.dbase else [])

    def check(self, line: int, head: list[bytes]) -> None:
        """Raises TooLarge at this line where a limit of plays is passed."""
        has_dbase = bool(self.dbase)
        size = self.size + sum(map(len, head)) + len(head) + len("perfly 2\n") + has_dbase * len("dbase\n")
        lines = 1 + len(head) + len(self.application) + has_dbase + len(self.dbase)
        for here, limit, name in ((lines, limits.LINES, "lines"), (size, limits.BYTES, "bytes"),
                                  (self.triangles, limits.TRIANGLES, "triangles")):
            if here > limit:
                raise TooLarge(line, limit, name)


class _Inline(_Sections):
    """The application's section alone: the edits of each block that is merged stand in its place."""

    def __init__(self) -> None:
        super().__init__()
        self.graph = Graph()

    def take(self, command: Command) -> None:
        if command.is_block():
            return self._take_block(command)
        edit, = command.edits
        if edit.command in forms.EDITS:
            _tries(self.graph, edit)
        self.graph.frame += edit.command == "frame"
        return super().take(command)

    def _take_block(self, block: Command) -> None:
        """Takes what a block brings: the edits that its own nodes allow, where the scene allows all of them."""
        own, kept, lines, at = Graph(), [], [], 1
        for edit in block.edits[1:-1]:
            end = at + 1 + len(edit.corners) // 3
            if edit.command in forms.INSIDE_BUFFER:
                kept.append(Edit(edit.command[1:], edit.fields))
                lines.append(forms.line(kept[-1]).encode())
            elif _tries(own, edit):
                kept.append(edit)
                lines += block.lines[at:end]
            at = end
        try:
            self.graph.make_all(kept)
        except Fault:
            return
        self.put(self.application, lines)
        self.triangles += sum(len(edit.corners) // 3 for edit in kept)


def _tries(graph: Graph, edit: Edit) -> bool:
    """Makes an edit, and answers whether it could be made."""
    try:
        graph.make(edit)
    except Fault:
        return False
    return True
