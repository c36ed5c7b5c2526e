"""Reads a play as perfly does: line by line, and by the first wrong line and the first cause that is wrong with it.

A Mistake has the line and the cause that perfly gives, and besides a hint what to do about it.
"""
import difflib
from typing import NamedTuple

from . import forms, limits
from .forms import Edit


class Mistake(Exception):
    """The first mistake of a text: its line, perfly's word for its cause, and a hint."""

    def __init__(self, line, cause, hint):
        super().__init__(f"line {line}: {cause}: {hint}")
        self.line, self.cause, self.hint = line, cause, hint


class Step(NamedTuple):
    """A line of a section, without its triangle lines: its number, and its edit or other act."""

    line: int
    edit: Edit


class Head(NamedTuple):
    """The head of a play: lengths in pixels or 1/4096 unit, as they stand in it."""

    version: int
    width: int
    height: int
    focal: int
    near: int
    far: int
    back: tuple
    channels: int


class Reading(NamedTuple):
    """A play: its head, the steps of both sections, and how large its text is."""

    head: Head
    application: list
    dbase: list
    size: int
    lines: int
    triangles: int


def read_play(text):
    """The play that these bytes are; raises the Mistake that perfly would refuse it for."""
    if len(text) > limits.BYTES:
        raise Mistake(0, "Length", f"the text has {len(text):,} bytes; a play has at most {limits.BYTES:,}")
    return Reader(text).play()


def read_head(text):
    """The head of the play that these bytes are; raises the Mistake of its first lines."""
    return Reader(text).head()


def enlarged(text, times):
    """The text of a play of the same views in pictures so many times as wide and high."""
    head = read_head(text)
    sides, focal = (times * head.width, times * head.height), times * head.focal
    if max(sides) > limits.SIDE or focal > limits.FOCAL:
        most = min(limits.SIDE // max(head.width, head.height), limits.FOCAL // head.focal)
        raise ValueError(f"pictures of {head.width} by {head.height} can be enlarged {most} times at most")
    version, _, _, rest = text.split(b"\n", 3)
    return b"\n".join([version, b"size %d %d" % sides, b"lens %d %d %d" % (focal, head.near, head.far), rest])


class Reader:
    """The lines of a text, taken one after the other."""

    most_lines = limits.LINES

    def __init__(self, text):
        self.size = len(text)
        *self.whole, self.rest = text.split(b"\n")
        self.line = 0
        self.triangles = 0

    def play(self):
        head = self.head()
        application, dbase = self.sections(head.version, head.channels)
        return Reading(head, application, dbase, self.size, self.line, self.triangles)

    # Lines

    def is_over(self):
        return self.line == len(self.whole) and not self.rest

    def next_words(self, due):
        """The words of the next line; `due` says what has to stand there."""
        if self.is_over():
            raise Mistake(self.line + 1, "Count", f"the text ends, where {due} has to follow")
        self.line += 1
        if self.line > self.most_lines:
            raise Mistake(self.line, "Count", f"the text has more than {self.most_lines:,} lines")
        if self.line > len(self.whole):
            raise Mistake(self.line, "Length", "the last line does not end with a line feed; end it with one")
        line = self.whole[self.line - 1]
        if len(line) > limits.LINE_BYTES:
            raise Mistake(self.line, "Length", f"the line has {len(line):,} bytes, above {limits.LINE_BYTES:,}")
        return line.decode("ascii", "backslashreplace").split(" ")

    def wrong(self, cause, words, hint):
        """A mistake of the line; where the line's shape is at fault, its hint is of that."""
        raise Mistake(self.line, cause, _shape_hint(words) or hint)

    def wrong_version(self, words, hint):
        """A mistake of the first line."""
        shape = _shape_hint(words) if words[0].startswith("perfly") else _mark_hint(self.whole[0])
        raise Mistake(self.line, "Version", shape or hint)

    def numbers(self, words, fields):
        """The words behind the first as the numbers of these fields."""
        if len(words) - 1 != len(fields):
            names = " ".join(field.name for field in fields) or "nothing"
            self.wrong("Fields", words, f"behind {words[0]} there are {len(words) - 1} words, and should be "
                                        f"{len(fields)}: {_briefly(names)}")
        return tuple(self.number(word, field, words) for word, field in zip(words[1:], fields))

    def number(self, word, field, words):
        if not _is_number(word):
            self.wrong("Number", words, _number_hint(word, field))
        value = int(word) if len(word) < 30 else 10 ** 30
        if not field.low <= value <= field.high:
            self.wrong("Range", words, f"{field.name} is {word}, and must be from {field.low} to {field.high}")
        return value

    # The head

    def version(self):
        words = self.next_words("perfly 1 or perfly 2")
        if words == ["perfly", "live", "1"]:
            raise Mistake(self.line, "Version", "this is a live text, which perfly_live plays; tools/live2play makes a play of it")
        if words not in (["perfly", "1"], ["perfly", "2"]):
            self.wrong_version(words, "a play begins with the line perfly 1, or perfly 2")
        return int(words[1])

    def head(self):
        version = self.version()
        width, height = self.head_line("size", forms.SIZE)
        focal, near, far = self.head_line("lens", forms.LENS)
        if far < near:
            raise Mistake(self.line, "Range", f"far, {far}, is nearer than near, {near}")
        back = self.head_line("back", forms.SHADE)
        return Head(version, width, height, focal, near, far, back, self.channels_and_app(version))

    def head_line(self, command, fields):
        words = self.next_words(f"the line {command}")
        if words[0] != command:
            self.wrong("Command", words, f"the line {command} has to stand here; the head is perfly, size, lens, back, app")
        return self.numbers(words, fields)

    def channels_and_app(self, version):
        channels = 1
        words = self.next_words("the line app")
        if words[0] == "channels" and version == 2:
            channels, = self.numbers(words, forms.CHANNELS)
            words = self.next_words("the line app")
        if words[0] != "app":
            self.wrong("Command", words, _command_hint(words[0], {"app": (), "channels": ()}, version))
        self.numbers(words, ())
        return channels

    # The sections

    def sections(self, version, channels):
        application, dbase = [], []
        inside = None  # whether a buffer is open, once DBASE's section has begun
        while not self.is_over() or inside:
            words = self.next_words("merge, which closes the buffer,")
            if words[0] == "dbase" and inside is None:
                self.numbers(words, ())
                inside = False
                continue
            edit = self.edit(words, version, channels, allowed_in(version, inside))
            inside = edit.command == "buffer" or inside and edit.command != "merge"
            (application if inside is None else dbase).append(Step(self.line - len(edit.corners) // 3, edit))
        return application, dbase

    def edit(self, words, version, channels, allowed):
        command = words[0]
        if command not in allowed:
            self.wrong("Command", words, _command_hint(command, allowed, version))
        if command == "sw" and len(words) == 3 and words[2] in forms.PICKS:
            return Edit(command, (self.number(words[1], forms.NODE, words), words[2]))
        fields = self.numbers(words, allowed[command])
        if command == "cview" and fields[0] >= channels:
            self.wrong("Range", words, f"there is no channel {fields[0]}: the play has {channels}, counted from 0")
        return Edit(command, fields, self.corners(command, fields))

    def corners(self, command, fields):
        """The corners of the triangle lines that follow, their colours left out."""
        if command not in forms.GEOMETRY:
            return ()
        count = fields[-1]
        self.count_triangles(count)
        corners = []
        for k in range(count):
            words = self.next_words(f"triangle {k + 1} of {count}")
            if words[0] != "t":
                self.wrong("Command", words, f"triangle {k + 1} of {count} has to stand here, a line that begins with t")
            numbers = self.numbers(words, forms.TRIANGLE)
            corners += (numbers[0:3], numbers[6:9], numbers[12:15])
        return tuple(corners)

    def count_triangles(self, count):
        """Counts the triangles that a line brings; perfly refuses those above its limit."""
        self.triangles += count
        if self.triangles > limits.TRIANGLES:
            raise Mistake(self.line, "Count", f"the play has more than {limits.TRIANGLES:,} triangles, where those of verts and of "
                                              "DBASE count too; make what stands often once, and hang it below several scs")


def allowed_in(version, inside):
    """The commands that may stand in the application's section (None), outside a buffer or inside one."""
    if inside is None:
        allowed = {**forms.EDITS, **forms.APPLICATION}
    else:
        allowed = {**forms.EDITS, **forms.INSIDE_BUFFER} if inside else forms.OUTSIDE_BUFFER
    return allowed if version == 2 else {c: f for c, f in allowed.items() if c not in forms.SECOND_VERSION}


def _is_number(word):
    digits = word[1:] if word.startswith("-") else word
    return word == "0" or digits.isascii() and digits.isdigit() and digits[0] != "0"


# Hints


def _briefly(text):
    return text if len(text) < 90 else text[:87].rsplit(" ", 1)[0] + " .."


def _mark_hint(line):
    """Of a first line that begins with a byte order mark: what to do; None where it has none."""
    if line.startswith(b"\xef\xbb\xbf"):
        return "the text begins with a byte order mark, which is not seen; save it without one (as UTF-8, not UTF-8 with BOM)"
    if line.startswith((b"\xff\xfe", b"\xfe\xff")) or b"\0" in line:
        return "the text is UTF-16; save it as ASCII or UTF-8"
    return None


def _shape_hint(words):
    """What is wrong with the shape of a line, whatever it means; None where nothing is."""
    line = " ".join(words)
    if line.endswith("\r"):
        return "the line ends with CR LF, as on Windows; a play's lines end with LF alone (try dos2unix)"
    if line.lstrip().startswith(("#", "//", ";", "%")):
        return "it looks like a comment; a play has none, take the line out"
    if not line.strip():
        return "the line is blank; a play has no blank lines, take it out"
    if "\t" in line:
        return "there is a tab in the line; words are parted by single spaces"
    if "" in words:
        return "there is a space too many; words are parted by single spaces, and a line neither begins nor ends with one"
    if "#" in line:
        return "what stands behind # looks like a comment; a play has none, take it out"
    return None


def _number_hint(word, field):
    try:
        value = float(word)
    except ValueError:
        return f"{field.name} is {word}, which is no number"
    if value != int(value) or "." in word or "e" in word.lower():
        return f"{field.name} is {word}; numbers are whole: a length of 1 is 4096, a degree 10, a scale of 1 65536"
    return f"{field.name} is {word}; a number is written without + and without leading zeros: {int(value)}"


MEANT = {  # words that others use, and what a play has for them
    "move": "trans", "translate": "trans", "position": "trans", "pos": "trans", "rotate": "rot", "turn": "rot",
    "matrix": "mat", "camera": "view", "eye": "view", "look": "view", "lookat": "view", "draw": "frame",
    "render": "frame", "step": "frame", "mesh": "geode", "geometry": "geode", "triangle": "t", "tri": "t",
    "show": "sw", "hide": "sw", "select": "sw", "sequence": "seq", "start": "run", "free": "delete",
    "destroy": "delete", "link": "add", "append": "add", "attach": "add", "unlink": "remove", "detach": "remove",
    "transform": "dcs", "vertices": "verts", "decal": "layer", "center": "centre", "distance": "range",
}
HEAD = ("perfly", "size", "lens", "back", "channels")


def _command_hint(command, allowed, version):
    if command in HEAD and "frame" in allowed:
        return f"{command} stands in the head, before app" + (" (and a play with it begins with perfly 2)"
                                                              if command == "channels" and version == 1 else "")
    if command in forms.SECOND_VERSION and version == 1:
        return f"{command} is of version 2: begin the play with perfly 2"
    if command == "t":
        return "there are more triangle lines than the line before them says"
    if command == "dbase":
        return "there is one section dbase already"
    if command in forms.INSIDE_BUFFER and "buffer" in allowed:
        return f"{command} stands in a buffer of DBASE: open one with buffer"
    if command in {**forms.EDITS, **forms.APPLICATION, **forms.DBASE}:
        return f"{command} may not stand here"
    if command.lower() in allowed:
        return f"there is no command {command}; commands are in small letters: {command.lower()}"
    close = [MEANT[command.lower()]] if MEANT.get(command.lower()) in allowed else difflib.get_close_matches(command, allowed, 1)
    return f"there is no command {command}" + (f"; {close[0]} is near to it" if close else "")
