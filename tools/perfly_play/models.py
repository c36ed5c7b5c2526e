"""What a model is once it has been read: facets (triangles with normals and colours), and what was left out of it."""
import collections
import math
from collections.abc import Callable, Sequence
from typing import NamedTuple

from .polygons import triangles_of

Vector = tuple[float, float, float]
Colour = tuple[int, int, int]


class MeshError(ValueError):
    """What is wrong with a model's file: its name, where in it, and what."""


class Facet(NamedTuple):
    """A triangle of a model: its corners, their normals (None where the file has none), their colours (None where the
    file has none), and the number of its material."""

    points: tuple
    normals: tuple | None
    colours: tuple | None
    material: int = 0


class Paint(NamedTuple):
    """How a texture colours a polygon: the texture, and the place of each corner in it."""

    texture: Callable
    places: Sequence


class Model:
    """Facets, the opacity of each material (1 hides all behind it, 0 is not seen), and what was left out."""

    def __init__(self):
        self.facets: list[Facet] = []
        self.opacities: list[float] = [1.0]
        self.left_out: collections.Counter = collections.Counter()

    def left_out_line(self) -> str:
        """What was left out, in a line."""
        return ", ".join(f"{what} ({count:,})" for what, count in self.left_out.items() if count) or "nothing"

    def new_material(self, opacity: float) -> int:
        """The number of a new material of this opacity."""
        self.opacities.append(opacity)
        return len(self.opacities) - 1

    def add_polygon(self, points: Sequence[Vector], normals: Sequence[Vector] | None, colours: Sequence[Colour] | None,
                    material: int = 0, paint: Paint | None = None) -> None:
        """Adds a polygon as triangles. Where it has a paint, the texture gives its colours, times those given."""
        if not are_finite(points):
            self.left_out["faces with corners that are nowhere"] += 1
            return
        normals = normals if normals and are_finite(normals) else None
        for corners in triangles_of(points):
            facet = Facet(*(things and tuple(things[k] for k in corners) for things in (points, normals, colours)), material)
            if paint and are_finite(paint.places):
                facet = facet._replace(colours=paint.texture([paint.places[k] for k in corners], facet.colours))
            self.facets.append(facet)


def are_finite(vectors: Sequence[Sequence[float]]) -> bool:
    """Whether all numbers of the vectors are numbers, and none is infinite."""
    return all(math.isfinite(c) for vector in vectors for c in vector)


def colour_of(parts: Sequence[float]) -> Colour:
    """The colour of three parts from 0 to 1; what is below or above is cut off."""
    return tuple(max(0, min(255, round(255 * c))) if math.isfinite(c) else 0 for c in parts[:3])
