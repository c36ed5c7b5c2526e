"""Makes the geodes of a play out of a model: shades it, splits it into pieces, and moves the eye about it."""
import math
from typing import NamedTuple

from . import limits
from .models import Colour, Facet, Model, Vector
from .placing import box_of
from .shapes import Triangle, facing, shade
from .writing import Play, PlayError

GLASS_PIECES = 1000  # so many pieces at most are made of glass by itself
MADE = 3000  # nodes that copies of a model for several lights may take


class Light(NamedTuple):
    """From where light comes, as a direction. One at the eye lights both sides of a facet, and more sharply."""

    direction: Vector
    is_at_eye: bool = False


def brightness(direction: Vector, light: Light) -> float:
    """How bright a light makes what faces this direction: from 0.4 on the far side to 1, so that both have a form; one at the
    eye from 0.3 at the rim to 1."""
    size = math.hypot(*direction) * math.hypot(*light.direction) or 1
    part = sum(n * s for n, s in zip(direction, light.direction)) / size
    return 0.3 + 0.7 * abs(part) if light.is_at_eye else 0.7 + 0.3 * part


def shaded(facet: Facet, light: Light, colour: Colour) -> Triangle:
    """The facet as a triangle of a play, each corner as bright as the light makes it; `colour` is for what has none."""
    colours = facet.colours or (colour,) * 3
    normals = facet.normals or (facing(*facet.points),) * 3
    return Triangle(facet.points, tuple(shade(c, brightness(n, light)) for c, n in zip(colours, normals)))


def pieces(facets: list[Facet], most: int) -> list[list[Facet]]:
    """The facets in pieces of at most so many, each of one place: halved along the longest side as often as needed."""
    if len(facets) <= most:
        return [facets]
    low, high = box_of(facets)
    axis = max(range(3), key=lambda i: high[i] - low[i])
    ordered = sorted(facets, key=lambda facet: sum(p[axis] for p in facet.points))
    half = len(ordered) // 2
    return pieces(ordered[:half], most) + pieces(ordered[half:], most)


def _parts(model, most):
    """The pieces of a model, each with its material and its alpha: of what is not wholly opaque small ones, since glass is
    drawn piece by piece, the farthest first."""
    materials = {}
    for facet in model.facets:
        materials.setdefault(facet.material, []).append(facet)
    alphas = {material: max(0, min(255, round(255 * model.opacities[material]))) for material in materials}
    glass = sum(len(facets) for material, facets in materials.items() if alphas[material] < 255)
    most_glass = min(most, max(1, math.ceil(2 * glass / GLASS_PIECES)))
    for material, facets in sorted(materials.items()):
        for piece in pieces(facets, most_glass if alphas[material] < 255 else most):
            yield material, alphas[material], piece


def add_model(play: Play, parent: int, model: Model, light: Light, colour: Colour, most: int) -> int:
    """Adds a model's facets below a node, and answers how many geodes they make: of each material its pieces, whose
    state is the number of the material. What is not wholly opaque becomes glass."""
    if len(model.facets) > limits.TRIANGLES:
        raise PlayError(f"the model has {len(model.facets):,} triangles, and a play at most {limits.TRIANGLES:,}: "
                        "try --coarse auto")
    made = 0
    holders = _holders(play, parent)
    for material, alpha, piece in _parts(model, most):
        triangles = [shaded(facet, light, colour) for facet in piece]
        if alpha < 255:
            play.glass(next(holders), alpha, triangles, state=material)
        else:
            play.geode(next(holders), material, triangles)
        made += 1
    return made


def _holders(play, parent):
    """Groups below a node, each as often as it may have children."""
    while True:
        group = play.group(parent)
        for _ in range(limits.CHILDREN):
            yield group


# The eye


def turntable(radius: float, focal: float, side: int, frames: int, tilt: float) -> list[tuple]:
    """The places of the eye in a turn about 0, from so far that a ball of this radius is just in the picture: x, y, z,
    heading, pitch."""
    distance = radius / math.sin(math.atan(side / 2 / focal)) * 1.02
    tilted = math.radians(tilt)
    away = distance * math.cos(tilted)
    turns = [360 * k / frames for k in range(frames)]
    return [(away * math.sin(math.radians(heading)), -away * math.cos(math.radians(heading)), distance * math.sin(tilted),
             heading, -tilt) for heading in turns]


def play_views(play: Play, places: list[tuple]) -> None:
    """A frame from each place of the eye: x, y, z, heading, pitch, and if need be roll."""
    for place in places:
        play.view(*place)
        play.frame()


def play_lit_views(play: Play, parent: int, model: Model, places: list[tuple], colour: Colour, most: int) -> tuple[int, int]:
    """Adds a model lit from the eye, with a frame from each place, and answers how many geodes it has, and copies.

    A play's colours stay, so the model is there in several copies, as many as its triangles allow; each is lit from the
    middle of some places that follow on each other, and a switch shows it at these."""
    geodes = sum(1 for _ in _parts(model, most))
    copies = max(1, min(len(places), limits.TRIANGLES // len(model.facets), MADE // (geodes + 2), limits.CHILDREN))
    switch = play.switch(parent)
    parts = [places[len(places) * k // copies:len(places) * (k + 1) // copies] for k in range(copies)]
    for part in parts:
        middle = tuple(sum(place[i] for place in part) / len(part) for i in range(3))
        add_model(play, play.group(switch), model, Light(middle, True), colour, most)
    for number, part in enumerate(parts):
        play.pick(switch, number)
        play_views(play, part)
    return geodes, copies
