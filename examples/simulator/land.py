"""The land: the valley of examples/make without an end, in tiles, with its airfield, village and lake.

The height of the ground is that of its triangles, in whole numbers: the corners of a grid, and between them as the two
triangles of each cell are.
"""
import functools
import importlib.machinery
import importlib.util
import types
from typing import Any, Callable, Iterator

from . import EXAMPLES
from .aeroplane import UNIT, ratio

from perfly_play import shapes
from perfly_play.writing import Section

CELL, CELLS = 25, 8  # units of a cell of the ground, and cells of a tile's side
SIDE = CELL * CELLS
CORNERS = 8192  # whose heights are kept: of some more tiles than there are at once
IDS = 64  # that a tile may use
ROUND = 16  # tiles, after which ids come again
FIRST = 1000  # the first id of a tile
TREES, NEAREST_TREE, FARTHEST_TREE = 9, 92, 460
RUNWAY = (-12, 60, 12, 460)
LAKE = (0, 925, 80, 165)  # its middle, and its reach to the sides and along
LEVEL = round(-1.3 * UNIT)  # of the runway and of the lake
FIRM = round(0.5 * UNIT)  # ground above it is a hill
GRASS, TREE, MIST, PLANE = 1, 3, 8, 9  # states

Place = tuple[int, int]


def _examples() -> types.ModuleType:
    """The script examples/make, as a module."""
    loader = importlib.machinery.SourceFileLoader("examples_make", str(EXAMPLES / "make"))
    module = importlib.util.module_from_spec(importlib.util.spec_from_loader(loader.name, loader))
    loader.exec_module(module)
    return module


make: Any = _examples()


@functools.lru_cache(maxsize=CORNERS)
def corner(i: int, j: int) -> int:
    """The height of the ground at a corner of the grid, in 4096ths of a unit."""
    return round(make.valley_height(CELL * i, CELL * j) * UNIT)


def ground(x: int, y: int) -> int:
    """The height of the ground at a place, as its triangles are; all are in 4096ths of a unit."""
    (i, u), (j, v), cell = divmod(x, CELL * UNIT), divmod(y, CELL * UNIT), CELL * UNIT
    here, opposite = corner(i, j), corner(i + 1, j + 1)
    if u >= v:  # in the first of the cell's two triangles
        right = corner(i + 1, j)
        return here + ratio((right - here) * u + (opposite - right) * v, cell)
    far = corner(i, j + 1)
    return here + ratio((far - here) * v + (opposite - far) * u, cell)


def is_lake(x: int, y: int) -> bool:
    """Whether a place, in 4096ths of a unit, lies in the lake."""
    middle_x, middle_y, reach_x, reach_y = LAKE
    across, along = (x - middle_x * UNIT) * reach_y, (y - middle_y * UNIT) * reach_x
    return across * across + along * along <= (reach_x * reach_y * UNIT) ** 2


def is_runway(x: int, y: int) -> bool:
    """Whether a place, in 4096ths of a unit, lies on the runway."""
    left, near, right, far = (n * UNIT for n in RUNWAY)
    return left <= x <= right and near <= y <= far


class Land:
    """What the aeroplane flies over."""

    def height(self, x: int, y: int) -> int:
        """How high the ground or the water is."""
        return max(ground(x, y), LEVEL) if is_lake(x, y) or is_runway(x, y) else ground(x, y)

    def kind(self, x: int, y: int) -> str:
        """What is there."""
        if is_lake(x, y):
            return "lake"
        if is_runway(x, y):
            return "runway"
        return "hill" if ground(x, y) > FIRM else "field"


def tile_at(x: int, y: int) -> Place:
    """The tile in which a place, in 4096ths of a unit, lies."""
    return x // (SIDE * UNIT), y // (SIDE * UNIT)


class Numbered:
    """A section whose nodes get ids of a range of their own, so that they are the same in every run. It keeps which nodes
    were made."""

    makers = ("group", "switch", "lod", "sequence", "layer", "dcs", "scs", "geode", "glass")

    def __init__(self, section: Section, ids: range):
        """The nodes of a section, with these ids."""
        self._section, self._ids = section, iter(ids)
        self.inner: list[int] = []
        self.geometry: list[int] = []

    def __getattr__(self, name: str) -> Callable:
        call = getattr(self._section, name)
        return functools.partial(self._make, name, call) if name in self.makers else call

    def _make(self, name: str, call: Callable, parent: int | None, *values: Any) -> int:
        node = call(parent, *values, node=next(self._ids))
        (self.geometry if name in ("geode", "glass") else self.inner).append(node)
        return node

    def nodes(self) -> list[int]:
        """The nodes, each before those below it."""
        return self.inner + self.geometry


class _Plots:
    """A section that takes the triangles of the fields, two for each."""

    def __init__(self) -> None:
        make.fields(self, 0, make.Rand(11))

    def geode(self, parent: int, state: int, triangles: list) -> None:
        """Takes the triangles of a geode."""
        self.triangles = triangles

    def of(self, place: Place) -> list:
        """The triangles of the fields that begin in a tile."""
        pairs = zip(self.triangles[::2], self.triangles[1::2])
        return [triangle for pair in pairs for triangle in pair
                if place == tuple(int(n // SIDE) for n in pair[0].corners[0][:2])]


PLOTS = _Plots()
LANDMARKS: dict[Place, Callable[[Any, int], Any]] = {
    (0, 1): make.airfield,
    (-1, 3): lambda section, parent: make.village(section, parent, make.Rand(12)),
    (0, 4): make.lake,
}


def ids_of(place: Place) -> range:
    """The ids of a tile's nodes; no two tiles that are near each other have the same."""
    first = FIRST + IDS * (place[0] % ROUND * ROUND + place[1] % ROUND)
    return range(first, first + IDS)


def build(section: Section, place: Place) -> Numbered:
    """Makes a tile in a section; its first node is the group of all of it."""
    made = Numbered(section, ids_of(place))
    top = made.group(None)
    x, y = SIDE * place[0], SIDE * place[1]
    made.geode(top, GRASS, shapes.hills(x, y, x + SIDE, y + SIDE, CELLS, CELLS, _height, make.valley_colour))
    plots = PLOTS.of(place)
    if plots:
        made.geode(top, GRASS, plots)
    _plant(made, top, place)
    if place in LANDMARKS:
        LANDMARKS[place](made, top)
    return made


def _plant(made: Numbered, top: int, place: Place) -> None:
    """Trees on the slopes of a tile, which share two geodes."""
    rand = make.Rand(7919 * (place[0] % 1024) + 104729 * (place[1] % 1024) + 5)
    spots = [spot for spot in _spots(rand, place) if NEAREST_TREE <= abs(spot[0]) <= FARTHEST_TREE]
    if spots:
        kinds = [made.geode(None, TREE, shapes.tree(0, 0, 0, height, 4)) for height in (10, 14)]
        left = iter(spots)
        make.plant(made, made.group(top), rand, kinds, len(spots), lambda: next(left), _height_between)


def _spots(rand: Any, place: Place) -> Iterator[tuple[float, float]]:
    """Places of trees, by chance."""
    for _ in range(TREES):
        yield SIDE * place[0] + rand.below(16 * SIDE) / 16, SIDE * place[1] + rand.below(16 * SIDE) / 16


def _height(x: float, y: float) -> float:
    """The height of a corner of the grid, in units."""
    return corner(round(x / CELL), round(y / CELL)) / UNIT


def _height_between(x: float, y: float) -> float:
    """The height of the ground anywhere, in units."""
    return ground(round(x * UNIT), round(y * UNIT)) / UNIT
