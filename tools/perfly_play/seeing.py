"""Which triangle is seen at each pixel, how deep it lies there, and where in the scene.

perfly draws the play once more, with each triangle in a colour of its own: the number of the line that it stands in. Then
the ray of a pixel is cut with that triangle by perfly's own numbers (docs/specification/numbers-and-picture.md), so that
the depth is the one that the picture was drawn by.
"""
import functools
from collections.abc import Iterator
from typing import NamedTuple

from . import forms
from .fences import free_merges
from .playing import Playing
from .reading import Reading, read_play
from .rendering import Run
from .sight import Instance, Sight, through


class SeeingError(ValueError):
    """Why it cannot be told what is seen."""


class Line(NamedTuple):
    """A triangle line of a play: the geometry whose it is, by its id, its number in it, from 0, and its corners."""

    node: int
    number: int
    corners: tuple


class Frame(NamedTuple):
    """A frame of a play: its number, from 1, its picture's size, the line of the play that is seen at each pixel (0 where
    none is), by rows from the top, and what the eye sees of the scene."""

    number: int
    width: int
    height: int
    seen: list
    eye: "Eye"

    def hit(self, x: int, y: int) -> "Hit | None":
        """What is seen at a pixel, counted from 0 at the upper left; None where nothing is."""
        line = self.seen[y * self.width + x]
        return self.eye.hit(line, x, y) if line else None

    def depths(self) -> list[int]:
        """The depth at each pixel (1/4096 unit), -1 where nothing is seen; by rows from the top."""
        return [self.eye.hit_depth(line, at % self.width, at // self.width) if line else -1 for at, line in enumerate(self.seen)]


class Hit(NamedTuple):
    """What is seen at a pixel: its line of the play, the geometry and the number of the triangle in it, its depth along the
    line of sight and its place in the scene (1/4096 unit)."""

    line: int
    node: int
    number: int
    depth: int
    place: tuple


def numbered(text: bytes, through_glass: bool = False) -> bytes:
    """The text of a play that draws each triangle in the colour of its line's number, and black where nothing is. Glass
    hides what lies behind it, or is not there at all. The text must be a play."""
    lines = text.split(b"\n")
    for at, line in enumerate(lines):
        words = line.split(b" ")
        if words[0] == b"t":
            colour = b"%d %d %d" % ((at + 1) >> 16, (at + 1) >> 8 & 255, (at + 1) & 255)
            lines[at] = b" ".join(b" ".join(words[k:k + 3]) + b" " + colour for k in (1, 7, 13))
            lines[at] = b"t " + lines[at]
        elif words[0] == b"glass":
            name, state, _, count = words[1:]
            lines[at] = b" ".join((b"glass", name, state, b"0", count) if through_glass else (b"geode", name, state, count))
        elif words[0] == b"back":
            lines[at] = b"back 0 0 0"
    return b"\n".join(lines)


def triangle_lines(play: Reading) -> dict[int, Line]:
    """The triangle lines of a play, by their numbers."""
    found = {}
    for step in play.application + play.dbase:
        if step.edit.command in forms.GEOMETRY:
            for k in range(len(step.edit.corners) // 3):
                found[step.line + 1 + k] = Line(step.edit.fields[0], k, step.edit.corners[3 * k:3 * k + 3])
    return found


def frames(text: bytes, wanted: int | None = None, channel: int = 0, through_glass: bool = False) -> Iterator[Frame]:
    """What is seen in each frame of a play, or in the wanted one (from 1). Raises the Mistake of a text that is no play,
    RenderError where perfly cannot draw it, and SeeingError where a merge has no place of its own."""
    play = read_play(text)
    if channel >= play.head.channels:
        raise SeeingError(f"there is no channel {channel}; the play has {play.head.channels}, counted from 0")
    for merge in free_merges(play):
        raise SeeingError(f"merge {merge.number} of DBASE may come before or after line {merge.passed.line}, so it is not known "
                          "what a frame shows; tools/look tells of it")
    count = sum(step.edit.command == "frame" for step in play.application)
    if wanted and wanted > count:
        raise SeeingError(f"there is no frame {wanted}; the play has {count}")
    images = list(Run(numbered(text, through_glass)))
    lines = triangle_lines(play)
    playing = Playing(play)
    sight = Sight(playing.graph, play.head)
    for number in playing.frames():
        if wanted in (None, number):
            if len(images) < number:
                raise SeeingError(f"perfly drew {len(images)} frames of {count}")
            yield Frame(number, play.head.width, play.head.height, _numbers(images[number - 1], play.head.width, channel),
                        Eye(sight, playing.views[channel], lines))


def _numbers(image, width, channel):
    """The numbers that the colours of a channel's pixels are; the channels stand side by side."""
    rows = (row[3 * width * channel:3 * width * (channel + 1)] for row in image.rows)
    return [r << 16 | g << 8 | b for row in rows for r, g, b in zip(row[::3], row[1::3], row[2::3])]


class Eye:
    """The eye at a frame: cuts the rays of pixels with the triangles that are seen there."""

    def __init__(self, sight: Sight, view, lines: dict[int, Line]):
        self.head, self.lines = sight.head, lines
        self.instances: dict[int, list[Instance]] = {}
        for instance in sight.instances(view):
            self.instances.setdefault(instance.name, []).append(instance)
        self.kinds = {name: sight.graph.nodes[name].kind for name in self.instances}
        self.planes = functools.cache(self._planes)

    def _planes(self, line):
        """The triangle of a line, in each place where its geometry is."""
        if line not in self.lines:
            raise SeeingError(f"a pixel shows the colour of line {line}, which is no triangle line")
        of_line = self.lines[line]
        return [Plane(self.head, instance, of_line) for instance in self.instances.get(of_line.node, ())]

    def kind(self, node: int) -> str:
        """Whether geometry in sight is a geode or glass."""
        return self.kinds[node]

    def hit(self, line: int, x: int, y: int) -> Hit:
        """What is seen at a pixel that shows this line."""
        plane, depth, weights = self._nearest(line, x, y)
        return Hit(line, plane.line.node, plane.line.number, depth, plane.place(weights))

    def hit_depth(self, line: int, x: int, y: int) -> int:
        """The depth at a pixel that shows this line (1/4096 unit)."""
        return self._nearest(line, x, y)[1]

    def _nearest(self, line, x, y):
        """The plane of this line that is hit at a pixel, the depth, and the weights of the corners."""
        hits = []
        for plane in self.planes(line):
            weights = plane.weights(x, y)
            if weights:
                depth = 2 * self.head.focal * plane.volume // sum(weights)
                if self.head.near <= depth <= self.head.far:
                    hits.append((max(0, depth - plane.instance.shift), depth, plane, weights))
        if not hits:
            raise SeeingError(f"the pixel {x} {y} shows line {line}, and its ray does not meet that triangle")
        _, depth, plane, weights = min(hits, key=lambda hit: hit[0])
        return plane, depth, weights


class Plane:
    """A triangle line at one of its places, before the eye. The three weights of a pixel's ray are linear in x and y."""

    def __init__(self, head, instance: Instance, line: Line):
        self.instance, self.line = instance, line
        a, b, c = (through(instance.steps, corner) for corner in line.corners)
        self.volume = _dot(a, _cross(b, c))
        ray, right, down = (1 - head.width, 2 * head.focal, head.height - 1), (2, 0, 0), (0, 0, -2)
        self.forms = [tuple(_dot(d, side) for d in (ray, right, down)) for side in (_cross(b, c), _cross(c, a), _cross(a, b))]

    def weights(self, x: int, y: int) -> tuple[int, int, int] | None:
        """The weights of the corners where the ray of a pixel meets the triangle; None where it does not."""
        (a, ax, ay), (b, bx, by), (c, cx, cy) = self.forms
        weights = a + ax * x + ay * y, b + bx * x + by * y, c + cx * x + cy * y
        if self.volume > 0 and min(weights) >= 0 or self.volume < 0 and max(weights) <= 0:
            return weights
        return None

    def place(self, weights: tuple[int, int, int]) -> tuple:
        """Where in the scene the triangle has these weights."""
        steps = self.instance.steps[:len(self.instance.steps) - self.instance.of_view]
        corners = [through(steps, corner) for corner in self.line.corners]
        return tuple(sum(w * corner[i] for w, corner in zip(weights, corners)) / sum(weights) for i in range(3))


def _cross(u, v):
    return (u[1] * v[2] - u[2] * v[1], u[2] * v[0] - u[0] * v[2], u[0] * v[1] - u[1] * v[0])


def _dot(u, v):
    return u[0] * v[0] + u[1] * v[1] + u[2] * v[2]


__all__ = ["Frame", "Hit", "SeeingError", "frames", "numbered", "triangle_lines"]
