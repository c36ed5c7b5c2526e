"""Writes a play. Lengths are in units, angles in degrees, scales are factors; ids are given out unless you choose them.

X is right, Y forward, Z up. A positive heading turns left, a positive pitch up, and a positive roll lowers the right side.

Each line is judged as it is written: what perfly would refuse, a number out of its range or an edit with a fault, is a
PlayError at the call that wrote it.
"""
import contextlib
import math
import numbers
import os
import pathlib
from typing import Any, Iterable, Iterator, Protocol, Sequence

from . import forms, limits
from .forms import Edit, Field
from .graph import Fault, Graph, explain
from .pictures import Image, shrink
from .reading import enlarged
from .rendering import Run
from .shapes import Triangle

Point = Sequence[float]
Colour = Sequence[int]
Parent = int | None
Node = int | None


class PlayError(ValueError):
    """What perfly would refuse, and why."""


def _scaled(kind: str, number: float, times: int) -> int:
    """A number in whole parts of which a play has so many to one."""
    if isinstance(number, bool) or not isinstance(number, numbers.Real) or not math.isfinite(number):
        raise PlayError(f"{kind} is {_brief(number)}, which is no number")
    return round(number * times)


def _brief(thing: Any) -> str:
    text = repr(thing)
    return text if len(text) < 60 else text[:57] + "..."


def length(units: float) -> int:
    """Units of length as a play has them."""
    return _scaled("a length", units, limits.UNIT)


def angle(degrees: float) -> int:
    """Degrees as a play has them, without whole turns."""
    tenths = _scaled("an angle", degrees, 10)
    return tenths if abs(tenths) <= limits.TURN else int(math.fmod(tenths, limits.TURN))


def factor(number: float) -> int:
    """A scale, or an entry of a matrix, as a play has it."""
    return _scaled("a scale or an entry of a matrix", number, limits.WHOLE)


def point(x: float, y: float, z: float) -> tuple[int, int, int]:
    """A point as a play has it."""
    return (length(x), length(y), length(z))


def direction(eye: Point, target: Point) -> tuple[float, float]:
    """The heading and the pitch, in degrees, with which an eye looks at a target."""
    x, y, z = (to - at for to, at in zip(target, eye, strict=True))
    return math.degrees(math.atan2(-x, y)) if x or y else 0.0, math.degrees(math.atan2(z, math.hypot(x, y)))


def _checked(command: str, fields: Sequence[Field], values: Sequence[Any]) -> Sequence[Any]:
    """The values, each within the range of its field."""
    for field, value in zip(fields, values, strict=True):
        if isinstance(value, bool) or not isinstance(value, int) or not field.low <= value <= field.high:
            shown = f"{value:.3e}" if isinstance(value, int) and abs(value) > 10 ** 12 else _brief(value)
            units = f" ({limits.COORDINATE // limits.UNIT:,} units to either side)" if field in forms.POINT else ""
            raise PlayError(f"{command}: {field.name} is {shown}, and must be a whole number "
                            f"from {field.low} to {field.high}{units}")
    return values


def _triangles(command: str, given: Iterable[Triangle]) -> list[Triangle]:
    """The triangles that are given; each may also be a pair of its corners and their colours."""
    try:
        things = list(given)
    except TypeError:
        raise PlayError(f"{command}: the triangles are {_brief(given)}, and must be a list, as shapes makes it") from None
    if not all(map(_is_triangle, things)):
        wrong = next(thing for thing in things if not _is_triangle(thing))
        raise PlayError(f"{command}: a triangle is {_brief(wrong)}, and must be three corners and their three colours, as "
                        "shapes.triangle makes it")
    return [Triangle(*thing) for thing in things]


def _is_triangle(thing: Any) -> bool:
    try:
        corners, colours = thing
        return len(corners) == len(colours) == 3 and all(len(triple) == 3 for triple in (*corners, *colours))
    except (TypeError, ValueError):
        return False


def _triangle_line(triangle: Triangle) -> str:
    """A triangle as its line."""
    numbers = [n for corner, colour in zip(*triangle) for n in (*point(*corner), *colour)]
    return "t " + " ".join(map(str, _checked("t", forms.TRIANGLE, numbers)))


def spelled(command: str, values: Sequence[Any], triangles: Sequence[Triangle] = ()) -> tuple[Edit, list[str]]:
    """An edit, each of whose numbers is within its range, and its lines."""
    named = command == "sw" and isinstance(values[1], str)
    fields = forms.EDITS[command]
    _checked(command, fields[:1] if named else fields, values[:1] if named else values)
    edit = Edit(command, tuple(values), tuple(point(*corner) for triangle in triangles for corner in triangle.corners))
    return edit, [forms.line(edit), *map(_triangle_line, triangles)]


def head_lines(width: int, height: int, focal: int | None, back: Colour, near: float, far: float,
               channels: int | None) -> list[str]:
    """The lines of a head, from `size` on; without a focal length it sees 60 degrees."""
    focal = focal or max(1, round(width * 0.875))
    size = _checked("size", forms.SIZE, (width, height))
    lens = _checked("lens", forms.LENS, (focal, length(near), length(far)))
    if far < near:
        raise PlayError(f"lens: far, {far}, is nearer than near, {near}")
    lines = ["size %d %d" % size, "lens %d %d %d" % lens, "back %d %d %d" % _checked("back", forms.SHADE, back)]
    return lines + (["channels %d" % _checked("channels", forms.CHANNELS, (channels,))] if channels else [])


class Keeper(Protocol):
    """What gives ids to the nodes of its sections, and counts their triangles."""

    def take_id(self, chosen: Node = None) -> int:
        """An id that no node has, or the chosen one."""

    def check_count(self, command: str, triangles: int) -> None:
        """Refuses triangles above a limit."""

    def note(self, command: str, triangles: int) -> None:
        """Takes note of a command that was written."""


class Section:
    """Makes nodes and edits; the application's part of a play and each buffer of DBASE is one."""

    def __init__(self, play: Keeper, graph: Graph, lines: list[str]):
        self._play, self._graph, self.lines = play, graph, lines

    # Nodes; the parent is an id, 0 for the scene, or None for none yet

    def group(self, parent: Parent, node: Node = None) -> int:
        """Makes a group; returns its id, as all of these do."""
        return self._make(parent, node, "group")

    def switch(self, parent: Parent, node: Node = None) -> int:
        """Makes a switch, which shows no child at first."""
        return self._make(parent, node, "switch")

    def lod(self, parent: Parent, node: Node = None) -> int:
        """Makes a level of detail, which has no ranges at first."""
        return self._make(parent, node, "lod")

    def sequence(self, parent: Parent, node: Node = None) -> int:
        """Makes a sequence, which is held at its first child."""
        return self._make(parent, node, "seq")

    def layer(self, parent: Parent, node: Node = None) -> int:
        """Makes a layer, whose later children lie upon its earlier ones."""
        return self._make(parent, node, "layer")

    def dcs(self, parent: Parent, x: float = 0, y: float = 0, z: float = 0, node: Node = None) -> int:
        """Makes a coordinate system that can be moved, and moves it there."""
        node = self._make(parent, node, "dcs")
        if (x, y, z) != (0, 0, 0):
            self.move(node, x, y, z)
        return node

    def scs(self, parent: Parent, x: float, y: float, z: float, scale: float = 1, heading: float = 0,
            node: Node = None) -> int:
        """Makes a coordinate system that stays: scaled, turned to the left about the upright, and set in its place."""
        turn = math.radians(heading)
        c, s = factor(scale * math.cos(turn)), factor(scale * math.sin(turn))
        return self._make(parent, node, "scs", c, s, 0, -s, c, 0, 0, 0, factor(scale), *point(x, y, z))

    def geode(self, parent: Parent, state: int, triangles: Iterable[Triangle], node: Node = None) -> int:
        """Makes geometry of these triangles."""
        triangles = _triangles("geode", triangles)
        return self._make(parent, node, "geode", state, len(triangles), triangles=triangles)

    def glass(self, parent: Parent, alpha: int, triangles: Iterable[Triangle], state: int = 7, node: Node = None) -> int:
        """Makes geometry that is blended over what lies behind it; alpha is from 0 to 255."""
        triangles = _triangles("glass", triangles)
        return self._make(parent, node, "glass", state, alpha, len(triangles), triangles=triangles)

    def _make(self, parent: Parent, node: Node, kind: str, *values: int, triangles: Sequence[Triangle] = ()) -> int:
        node = self._play.take_id(node)
        self._say(kind, node, *values, triangles=triangles)
        if parent is not None:
            self.add(parent, node)
        return node

    # Links

    def add(self, parent: int, *children: int) -> None:
        """Makes nodes the last children of another."""
        for child in children:
            self._say("add", parent, child)

    def insert(self, parent: int, place: int, child: int) -> None:
        """Makes a node the child at this place, counted from 0."""
        self._say("insert", parent, place, child)

    def replace(self, parent: int, old: int, by: int) -> None:
        """Puts a node where another stands."""
        self._say("replace", parent, old, by)

    def remove(self, parent: int, child: int) -> None:
        """Takes a node out of another's children."""
        self._say("remove", parent, child)

    def delete(self, *nodes: int) -> None:
        """Deletes nodes that are nobody's children; their ids may be used again."""
        for node in nodes:
            self._say("delete", node)

    # What a kind has

    def pick(self, switch: int, what: int | str) -> None:
        """Has a switch show "on" (all), "off" (none) or the child at a place."""
        if what not in forms.PICKS and (isinstance(what, bool) or not isinstance(what, int)):
            raise PlayError(f'sw: what is shown is {_brief(what)}, and must be "on", "off" or the place of a child')
        self._say("sw", switch, what)

    def move(self, dcs: int, x: float, y: float, z: float) -> None:
        """Moves a coordinate system to a place."""
        self._say("trans", dcs, *point(x, y, z))

    def turn(self, dcs: int, heading: float, pitch: float = 0, roll: float = 0) -> None:
        """Turns a coordinate system: to the left by its heading, up by its pitch, its right side down by its roll."""
        self._say("rot", dcs, angle(heading), angle(pitch), angle(roll))

    def scale(self, dcs: int, number: float) -> None:
        """Scales a coordinate system."""
        self._say("scale", dcs, factor(number))

    def set_matrix(self, dcs: int, entries: Sequence[float], x: float, y: float, z: float) -> None:
        """Sets the nine entries of a coordinate system, by rows, and its place."""
        self._say("mat", dcs, *map(factor, entries), *point(x, y, z))

    def set_ranges(self, lod: int, centre: Point, ranges: Sequence[float]) -> None:
        """Sets the point of a level of detail, and the distances between which each child is shown."""
        self._say("centre", lod, *point(*centre))
        for place, distance in enumerate(ranges):
            self._say("range", lod, place, length(distance))

    def set_times(self, sequence: int, *frames: int) -> None:
        """Sets for how many frames each child of a sequence stays."""
        for place, count in enumerate(frames):
            self._say("times", sequence, place, count)

    def run(self, sequence: int) -> None:
        """Starts a sequence."""
        self._say("run", sequence)

    def stop(self, sequence: int) -> None:
        """Holds a sequence where it is."""
        self._say("stop", sequence)

    def set_triangles(self, geode: int, triangles: Iterable[Triangle]) -> None:
        """Replaces the triangles of a geode by as many others."""
        triangles = _triangles("verts", triangles)
        self._say("verts", geode, len(triangles), triangles=triangles)

    # Lines

    def _say(self, command: str, *values: Any, triangles: Sequence[Triangle] = ()) -> Edit:
        """Writes an edit, which the section's graph must take; where it does not, nothing is written."""
        edit, lines = spelled(command, values, triangles)
        self._play.check_count(command, len(triangles))
        try:
            self._graph.make(edit)
        except Fault as fault:
            raise PlayError(f"{forms.line(edit)}: {explain(fault)}") from None
        self._play.note(command, len(triangles))
        self.lines += lines
        return edit


class Application(Section):
    """The application's section: what is made in it is in the scene at once."""

    def __init__(self, play: Keeper, channels: int | None):
        super().__init__(play, Graph(), [])
        self._channels = channels or 1

    def view(self, x: float, y: float, z: float, heading: float = 0, pitch: float = 0, roll: float = 0, channel: int = 0) -> None:
        """Sets where the eye of a channel is, and where it looks: along Y, turned left by its heading and up by its pitch."""
        if channel not in range(self._channels):
            raise PlayError(f"view: there is no channel {channel}; the play has {self._channels}, counted from 0")
        values = (*point(x, y, z), angle(heading), angle(pitch), angle(roll))
        _checked("view", forms.APPLICATION["view"], values)
        self._act(forms.line(Edit("cview", (channel, *values)) if channel else Edit("view", values)))

    def look_at(self, eye: Point, target: Point, roll: float = 0, channel: int = 0) -> None:
        """Sets where the eye of a channel is, and turns it to look at a point."""
        self.view(*eye, *direction(eye, target), roll, channel)

    def sync(self) -> None:
        """Lets go what earlier frames no longer need."""
        self._act("sync")

    def _act(self, line: str) -> None:
        """Writes a line that is no edit."""
        self.lines.append(line)


class Buffer(Section):
    """A buffer of DBASE: what is made in it comes into the scene when it is merged."""

    def __init__(self, play: Keeper, lines: list[str]):
        super().__init__(play, Graph(), lines)
        self.edits = []

    def ask_add(self, parent: int, child: int) -> None:
        """Asks that a node of the buffer be added below one of the scene at the merge."""
        self._ask("badd", parent, child)

    def ask_remove(self, parent: int, child: int) -> None:
        """Asks that a node be removed from the children of a node of the scene at the merge."""
        self._ask("bremove", parent, child)

    def _ask(self, command: str, parent: int, child: int) -> None:
        edit = Edit(command, _checked(command, forms.INSIDE_BUFFER[command], (parent, child)))
        self.edits.append(Edit(command[1:], edit.fields))
        self.lines.append(forms.line(edit))

    def _say(self, command: str, *values: Any, triangles: Sequence[Triangle] = ()) -> Edit:
        self.edits.append(super()._say(command, *values, triangles=triangles))
        return self.edits[-1]


class Dbase:
    """DBASE's part of a play, which is played beside the application's. Write its buffers before the waits for them.

    That the waits of both parts can be passed is not judged here; tools/look tells of a play that never ends.
    """

    def __init__(self, play: "Play"):
        self._play, self.lines, self.merges = play, [], []

    def await_frame(self, number: int) -> None:
        """Waits until the application has begun so many frames."""
        _checked("await", forms.DBASE["await"], (number,))
        self.lines.append(f"await {number}")

    @contextlib.contextmanager
    def buffer(self) -> Iterator[Buffer]:
        """A buffer; where the `with` ends it is merged."""
        self.lines.append("buffer")
        buffer = Buffer(self._play, self.lines)
        yield buffer
        self.lines.append("merge")
        self.merges.append(buffer.edits)


class Play(Application):
    """A play: its head, and the application's part. `dbase` is DBASE's part."""

    def __init__(self, width: int, height: int, focal: int | None = None, back: Colour = (150, 190, 225), near: float = 1,
                 far: float = 1000, channels: int | None = None):
        """The size in pixels; the focal length in pixels, which by default sees 60 degrees; the depths in units."""
        super().__init__(self, channels)
        self._head = head_lines(width, height, focal, back, near, far, channels)
        self._version = 2 if channels else 1
        self._ids, self._next = set(), 1
        self._triangles = self._merged = 0
        self.dbase = Dbase(self)

    def frame(self) -> None:
        """Draws the scene as it now stands."""
        self.lines.append("frame")
        self._graph.frame += 1

    def wait(self, merges: int) -> None:
        """Waits until DBASE has merged so many times."""
        _checked("wait", forms.APPLICATION["wait"], (merges,))
        if merges > len(self.dbase.merges):
            raise PlayError(f"wait {merges}: DBASE's part has {len(self.dbase.merges)} merges so far; write it first")
        self._merge_up_to(merges)
        self.lines.append(f"wait {merges}")

    def _merge_up_to(self, count: int) -> None:
        """Takes the merges into the graph that judges what the application writes next."""
        while self._merged < count:
            try:
                self._graph.make_all(self.dbase.merges[self._merged])
            except Fault as fault:
                raise PlayError(f"merge {self._merged + 1}: {explain(fault)}") from None
            self._merged += 1

    def take_id(self, chosen: Node = None) -> int:
        """An id that was not given out yet, or the chosen one."""
        if chosen is not None:
            _checked("a node", (forms.NEW,), (chosen,))
        while chosen is None:
            if self._next not in self._ids:
                chosen = self._next
            self._next += 1
        self._ids.add(chosen)
        return chosen

    def check_count(self, command: str, triangles: int) -> None:
        """Refuses triangles above what a play may have; each that is written counts."""
        if self._triangles + triangles > limits.TRIANGLES:
            raise PlayError(f"{command}: the play has more than {limits.TRIANGLES:,} triangles, where each verts counts too")

    def note(self, command: str, triangles: int) -> None:
        """Takes note of a command that was written, with so many triangles."""
        self._triangles += triangles
        if command in forms.SECOND_VERSION:
            self._version = 2

    def text(self) -> str:
        """The play."""
        self._merge_up_to(len(self.dbase.merges))
        lines = [f"perfly {self._version}", *self._head, "app", *self.lines]
        if self.dbase.lines:
            lines += ["dbase", *self.dbase.lines]
        text = "\n".join(lines) + "\n"
        if len(lines) > limits.LINES or len(text) > limits.BYTES:
            raise PlayError(f"the play has {len(lines):,} lines and {len(text):,} bytes; "
                            f"at most {limits.LINES:,} and {limits.BYTES:,}")
        return text

    def write(self, path: str | os.PathLike) -> None:
        """Writes the play as a file."""
        pathlib.Path(path).write_text(self.text(), encoding="ascii")

    def pictures(self, *words: str, smooth: int = 1, program: str | os.PathLike | None = None) -> Iterator[Image]:
        """Has perfly draw the play, and yields the picture of each frame; those of several channels stand side by side.

        Words are perfly's ("--ahead", "2"); with smooth=3 pictures are drawn three times as large and scaled down. The program
        is that of PERFLY, the built one of this repository, or perfly on the PATH. A RenderError says why there are none.
        """
        text = self.text().encode()
        run = Run(enlarged(text, smooth) if smooth > 1 else text, words, program)
        return (shrink(image, smooth) for image in run)
