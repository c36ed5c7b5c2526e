"""Puts a model in its place: which way is up, how large it is, and how fine; and smooths it where it has no normals."""
import math
from collections.abc import Callable

from .models import Facet, Model
from .polygons import hull_area
from .shapes import facing
from .writing import point

# A turn that makes each axis the upright: where it takes x, y, z.
TURNS: dict[str, Callable] = {
    "x": lambda x, y, z: (-z, y, x), "-x": lambda x, y, z: (z, y, -x),
    "y": lambda x, y, z: (x, -z, y), "-y": lambda x, y, z: (x, z, -y),
    "z": lambda x, y, z: (x, y, z), "-z": lambda x, y, z: (x, -y, -z),
}
USUAL = {".obj": "y", ".gltf": "y", ".glb": "y", ".ply": "z", ".stl": "z", ".off": "y"}  # by the file's ending
FOOT = 0.02  # of the model's height: what is so near to its lowest place is what it stands on
STANDS = {"y": 0.15, "z": 0.15}  # how well it must stand with an axis up that is not the usual one ..
RARELY = 0.28  # .. and with one that rarely points up
FIXED = (".gltf", ".glb")  # endings of files whose format says which axis points up
CREASE = 50  # degrees between two facets above which an edge stays an edge


def box_of(facets: list[Facet]) -> tuple:
    """The low and the high corner of the box about all corners."""
    points = [p for facet in facets for p in facet.points]
    return tuple(min(p[i] for p in points) for i in range(3)), tuple(max(p[i] for p in points) for i in range(3))


def extent(facets: list[Facet]) -> float:
    """The length of the longest side of the box about all corners."""
    low, high = box_of(facets)
    return max(b - a for a, b in zip(low, high))


def turned_up(facets: list[Facet], axis: str = "y") -> list[Facet]:
    """The facets of a model whose axis of this name (x, -x, y ..) points up, with Z up."""
    turn = TURNS[axis]

    def turned(vectors):
        return vectors and tuple(turn(*vector) for vector in vectors)
    return [facet._replace(points=turned(facet.points), normals=turned(facet.normals)) for facet in facets]


def stands(facets: list[Facet]) -> dict[str, float]:
    """For each axis how well the model would stand if it pointed up: the area between its feet less that between its
    highest places, as parts of the ground that it covers, from -1 to 1."""
    points = list({p for facet in facets for p in facet.points})
    low, high = box_of(facets)
    found = {}
    for axis in range(3):
        first, second = (axis + 1) % 3, (axis + 2) % 3
        ground = (high[first] - low[first]) * (high[second] - low[second])
        depth = FOOT * (high[axis] - low[axis])

        def area(near):
            return hull_area([(p[first], p[second]) for p in points if near(p[axis])]) / (ground or 1)
        below, above = area(lambda c: c <= low[axis] + depth), area(lambda c: c >= high[axis] - depth)
        found["xyz"[axis]], found["-" + "xyz"[axis]] = below - above, above - below
    return found


def guessed_up(facets: list[Facet], usual: str) -> str:
    """The axis that points up: the usual one of such files, unless the model stands clearly better with another."""
    found = stands(facets)
    better = {axis: how_well for axis, how_well in found.items()
              if how_well - max(0, found[usual]) > STANDS.get(axis, RARELY)}
    return max(better, key=better.get, default=usual)


def centred(facets: list[Facet], size: float) -> list[Facet]:
    """The facets scaled to a box whose longest side has this length, and moved so that its middle is at 0."""
    low, high = box_of(facets)
    middle = [(a + b) / 2 for a, b in zip(low, high)]
    scale = size / (extent(facets) or 1)
    return [facet._replace(points=tuple(tuple(scale * (c - m) for c, m in zip(p, middle)) for p in facet.points))
            for facet in facets]


# Fewer triangles


class _Grids:
    """Grids about facets, of cells all alike; each corner lies in one cell of a grid."""

    BITS = 14  # of a number that counts cells along a side

    def __init__(self, facets):
        self.facets = facets
        self.points = list({p for facet in facets for p in facet.points})
        self.low, self.side = box_of(facets)[0], extent(facets) or 1

    def cells(self, count):
        """The cell of each corner, as a number, in the grid of so many cells along the longest side."""
        (x0, y0, z0), scale, bits = self.low, count / self.side, self.BITS
        return {p: (int((p[0] - x0) * scale) << bits | int((p[1] - y0) * scale)) << bits | int((p[2] - z0) * scale)
                for p in self.points}

    def kept(self, cell_of):
        """The facets that keep three corners when those in a cell become one, with their cells; of those with the same cells
        the first."""
        kept = {}
        for facet in self.facets:
            a, b, c = facet.points
            a, b, c = cell_of[a], cell_of[b], cell_of[c]
            if a != b != c != a:
                kept.setdefault(tuple(sorted((a, b, c))), (facet, (a, b, c)))
        return kept.values()


COARSEST, FINEST = 2, 8192  # cells along the longest side


def coarsened(facets: list[Facet], cells: int) -> list[Facet]:
    """A model with fewer triangles: corners in the same cell of a grid become one, at the mean of their places. The grid
    has so many cells along the longest side. Triangles that shrink to a line or a point fall away, and all normals."""
    grids, groups = _Grids(facets), {}
    cell_of = grids.cells(cells)
    for p, cell in cell_of.items():
        groups.setdefault(cell, []).append(p)
    means = {cell: tuple(sum(c) / len(group) for c in zip(*group)) for cell, group in groups.items()}
    return [facet._replace(points=tuple(means[cell] for cell in of_facet), normals=None)
            for facet, of_facet in grids.kept(cell_of)]


def finest(facets: list[Facet], most: int) -> int:
    """The number of cells of the finest grid with which no more than so many triangles are left; found by doubling and then
    halving, as if a finer grid always left more."""
    grids = _Grids(facets)

    def fits(cells):
        return len(grids.kept(grids.cells(cells))) <= most
    low, high = COARSEST, 64
    while high < FINEST and fits(high):
        low, high = high, 2 * high
    while high - low > 1:
        middle = (low + high) // 2
        low, high = (middle, high) if fits(middle) else (low, middle)
    return low


# Normals


def _directions(facet):
    """The direction that a facet faces, of length 1, and its area twice."""
    direction = facing(*facet.points)
    size = math.hypot(*direction)
    return tuple(c / (size or 1) for c in direction), size


def smoothed(facets: list[Facet], crease: float = CREASE) -> list[Facet]:
    """The facets with normals where they have none: at each corner the mean of the directions of the facets about it, the
    larger ones weighing more, and those left out that are turned away by more than the crease (degrees)."""
    least = math.cos(math.radians(crease))
    directions = [_directions(facet) for facet in facets]
    about = {}
    for number, facet in enumerate(facets):
        for p in facet.points:
            about.setdefault(p, []).append(directions[number])

    def normal(own, p):
        near = [(d, size) for d, size in about[p] if d[0] * own[0] + d[1] * own[1] + d[2] * own[2] >= least]
        return tuple(sum(d[i] * size for d, size in near) for i in range(3)) if near else own
    return [facet if facet.normals else facet._replace(normals=tuple(normal(own, p) for p in facet.points))
            for facet, (own, _) in zip(facets, directions)]


# What is not seen


def is_flat(facet: Facet) -> bool:
    """Whether nothing of a facet is left in the whole numbers of a play: its corners lie on a line."""
    return not any(facing(*(point(*p) for p in facet.points)))


def drop_unseen(model: Model) -> None:
    """Leaves out what would not be seen: facets without an area, and materials without opacity."""
    seen = []
    for facet in model.facets:
        if round(255 * model.opacities[facet.material]) <= 0:
            model.left_out["triangles that are wholly transparent"] += 1
        elif is_flat(facet):
            model.left_out["triangles without an area"] += 1
        else:
            seen.append(facet)
    model.facets = seen
