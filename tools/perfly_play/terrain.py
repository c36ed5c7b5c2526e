"""Ground from a height field: a PGM image, or an ESRI ASCII grid (.asc).

    ground = terrain.Ground(terrain.read("dem.asc"), width=200, relief=30)
    ground.add_to(play, 0, state=1)
    play.look_at((0, -100, ground.height(0, -100) + 10), (0, 0, ground.height(0, 0)))

The field's first row is its far (northern) edge. Where it has no data there is no ground.
"""
import math
import os
from typing import Callable, Iterator, Sequence

from . import limits, shapes
from .shapes import Triangle
from .writing import PlayError, Section

Height = float | None
Paint = Callable[[float], tuple[int, int, int]]

SIDE = 16  # cells along a geode: 512 triangles, so that what is out of sight is culled in pieces
MOST = 60000  # triangles, where nothing else is said: a play has 65,536
BANDS = ((0.0, (70, 110, 60)), (0.35, (120, 140, 80)), (0.65, (140, 115, 85)), (0.85, (150, 145, 140)), (1.0, (240, 240, 245)))


class Field:
    """Heights by rows, from the far edge to the near one, each from left to right; None where there is no data."""

    def __init__(self, rows: Sequence[Sequence[Height]]):
        self.rows = [list(row) for row in rows]
        self.columns = len(self.rows[0]) if self.rows else 0
        if len(self.rows) < 2 or self.columns < 2 or any(len(row) != self.columns for row in self.rows):
            raise PlayError("a height field has at least two rows of at least two heights, and each row as many as the others")

    def thinned(self, most: int) -> "Field":
        """A field of the same ground that needs no more than so many triangles: each nth row and column."""
        step = 1
        while 2 * ((len(self.rows) - 1) // step) * ((self.columns - 1) // step) > most:
            step += 1
        return self if step == 1 else Field([row[::step] for row in self.rows[::step]])


def read(path: str | os.PathLike) -> Field:
    """The height field of a file, PGM or ESRI ASCII."""
    with open(path, "rb") as file:
        data = file.read()
    try:
        return _read_pgm(data) if data[:2] in (b"P2", b"P5") else _read_grid(data)
    except (ValueError, IndexError, KeyError) as error:
        raise PlayError(f"{path}: it is neither a PGM image nor an ESRI ASCII grid that can be read: {error}") from None


def _read_pgm(data: bytes) -> Field:
    """Of a PGM image, plain or raw, of 8 or 16 bits."""
    words, at = [], 2
    while len(words) < 3:
        while data[at:at + 1].isspace():
            at += 1
        if data[at:at + 1] == b"#":
            at = data.index(b"\n", at) + 1
            continue
        end = at
        while data[end:end + 1].isdigit():
            end += 1
        words.append(int(data[at:end]))
        at = end
    width, height, most = words
    if data[:2] == b"P2":
        values = [float(word) for word in data[at:].split()]
    else:
        size, raw = (2 if most > 255 else 1), data[at + 1:]
        values = [float(int.from_bytes(raw[k:k + size], "big")) for k in range(0, size * width * height, size)]
        if len(raw) < size * width * height:
            raise ValueError("it ends too early")
    return _in_rows(values, width, height)


def _read_grid(data: bytes) -> Field:
    """Of an ESRI ASCII grid."""
    words = data.decode("ascii").split()
    head, at = {}, 0
    while at + 1 < len(words) and words[at][0].isalpha():
        head[words[at].lower()] = float(words[at + 1])
        at += 2
    absent = head.get("nodata_value", -9999.0)
    values = [None if float(word) == absent else float(word) for word in words[at:]]
    return _in_rows(values, int(head["ncols"]), int(head["nrows"]))


def _in_rows(values: Sequence[Height], columns: int, rows: int) -> Field:
    if len(values) != columns * rows:
        raise ValueError(f"{columns} by {rows} heights are due, and there are {len(values):,}")
    return Field([values[k * columns:(k + 1) * columns] for k in range(rows)])


def by_height(part: float) -> tuple[int, int, int]:
    """A colour from the lowest ground, 0, to the highest, 1: from green over brown to white."""
    for (low, first), (high, second) in zip(BANDS, BANDS[1:]):
        if part <= high:
            return shapes.mix(first, second, (part - low) / (high - low))
    return BANDS[-1][1]


class Ground:
    """A height field in its place: so many units wide, its middle at x, y, its lowest point at z, its highest `relief` above it."""

    def __init__(self, field: Field, width: float, relief: float, x: float = 0, y: float = 0, z: float = 0, most: int = MOST):
        if not 2 <= most <= limits.TRIANGLES:
            raise PlayError(f"most is {most}, and must be from 2 to {limits.TRIANGLES:,}")
        field = field.thinned(most)
        heights = [height for row in field.rows for height in row if height is not None]
        if not heights:
            raise PlayError("the height field has no data at all")
        low, span = min(heights), max(heights) - min(heights)
        scale = relief / span if span else 0
        self.z, self.relief = z, relief
        self.cell = width / (field.columns - 1)
        self.left, self.front = x - width / 2, y - self.cell * (len(field.rows) - 1) / 2
        # From the near edge to the far one, so that rows go along Y.
        self.rows = [[None if h is None else z + (h - low) * scale for h in row] for row in reversed(field.rows)]

    def height(self, x: float, y: float) -> float:
        """How high the ground is at a place, as its triangles are; a PlayError where there is none."""
        across, along = (x - self.left) / self.cell, (y - self.front) / self.cell
        i, j = min(math.floor(across), len(self.rows[0]) - 2), min(math.floor(along), len(self.rows) - 2)
        if i < 0 or j < 0 or across > i + 1 or along > j + 1:
            raise PlayError(f"there is no ground at {x:g}, {y:g}")
        corners = self.rows[j][i], self.rows[j][i + 1], self.rows[j + 1][i], self.rows[j + 1][i + 1]
        if None in corners:
            raise PlayError(f"the height field has no data at {x:g}, {y:g}")
        u, v = across - i, along - j
        here, right, far, opposite = corners
        if u >= v:  # in the first of the cell's two triangles
            return here + (right - here) * u + (opposite - right) * v
        return here + (far - here) * v + (opposite - far) * u

    def add_to(self, section: Section, parent: int | None, state: int = 1, paint: Paint = by_height) -> int:
        """Makes the ground as a group of geodes; `paint` gives the colour of a height, from 0, the lowest, to 1. Returns its id."""
        top = section.group(parent)
        row, count = top, 0
        for tile in self.tiles(paint):
            if count % limits.CHILDREN == 0:
                row = section.group(top)
            section.geode(row, state, tile)
            count += 1
        return top

    def tiles(self, paint: Paint = by_height) -> Iterator[list[Triangle]]:
        """The ground in pieces, each the triangles of a geode."""
        for j in range(0, len(self.rows) - 1, SIDE):
            for i in range(0, len(self.rows[0]) - 1, SIDE):
                columns = range(i, min(i + SIDE, len(self.rows[0]) - 1))
                rows = range(j, min(j + SIDE, len(self.rows) - 1))
                tile = [triangle for down in rows for across in columns for triangle in self._cell(across, down, paint)]
                if tile:
                    yield tile

    def _cell(self, i: int, j: int, paint: Paint) -> Iterator[Triangle]:
        """The two triangles of a cell, as far as it has data."""
        for places in (((i, j), (i + 1, j), (i + 1, j + 1)), ((i, j), (i + 1, j + 1), (i, j + 1))):
            if all(self.rows[b][a] is not None for a, b in places):
                yield Triangle(tuple(self._corner(a, b) for a, b in places), tuple(self._colour(a, b, paint) for a, b in places))

    def _corner(self, i: int, j: int) -> tuple[float, float, float]:
        return (self.left + i * self.cell, self.front + j * self.cell, self.rows[j][i])

    def _colour(self, i: int, j: int, paint: Paint) -> tuple[int, int, int]:
        """The colour of a corner, lit by the sun on the slope about it."""
        up = (-self._slope(i, j, 1, 0), -self._slope(i, j, 0, 1), 1.0)
        part = (self.rows[j][i] - self.z) / self.relief if self.relief else 0
        return shapes.shade(paint(part), shapes.brightness(up))

    def _slope(self, i: int, j: int, across: int, along: int) -> float:
        """How much the ground rises in a unit at a corner, along one axis."""
        ends = [(max(0, i - across), max(0, j - along)),
                (min(len(self.rows[0]) - 1, i + across), min(len(self.rows) - 1, j + along))]
        low, high = (self.rows[b][a] for a, b in ends)
        steps = ends[1][0] - ends[0][0] + ends[1][1] - ends[0][1]
        return 0 if low is None or high is None else (high - low) / (steps * self.cell)
