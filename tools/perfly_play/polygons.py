"""Cuts polygons into triangles; a polygon need not be convex."""
from collections.abc import Sequence

from .shapes import facing


def triangles_of(points: Sequence) -> list[tuple[int, int, int]]:
    """The triangles that a polygon falls into, as numbers of its corners; it need not be convex."""
    if len(points) == 3:
        return [(0, 1, 2)]
    left = list(range(len(points)))
    flat = _flattened(points)
    out = []
    while len(left) > 3:
        ear = next((k for k in range(len(left)) if _is_ear(flat, left, k)), 0)
        out.append((left[ear - 1], left[ear], left[(ear + 1) % len(left)]))
        del left[ear]
    return out + [tuple(left)] if len(left) == 3 else out


def _flattened(points):
    """A polygon's corners in the plane that it lies in, its corners going round against the clock."""
    normal = [sum(part) for part in zip((0, 0, 0), *(facing(points[0], b, c) for b, c in zip(points[1:], points[2:])))]
    axis = max(range(3), key=lambda i: abs(normal[i]))
    first, second = (axis + 1) % 3, (axis + 2) % 3
    if normal[axis] < 0:
        first, second = second, first
    return [(p[first], p[second]) for p in points]


def _side(a, b, c):
    """Above 0 where c lies to the left of the way from a to b."""
    return (b[0] - a[0]) * (c[1] - a[1]) - (b[1] - a[1]) * (c[0] - a[0])


def _is_ear(flat, left, k):
    """Whether a corner can be cut off: it is convex, and no other corner lies in the triangle."""
    names = left[k - 1], left[k], left[(k + 1) % len(left)]
    a, b, c = (flat[n] for n in names)
    if _side(a, b, c) <= 0:
        return False
    return not any(_side(a, b, p) >= 0 and _side(b, c, p) >= 0 and _side(c, a, p) >= 0
                   for p in (flat[n] for n in left if n not in names) if p not in (a, b, c))


def hull_area(points: Sequence[tuple[float, float]]) -> float:
    """The area of the least convex polygon about points of a plane."""
    points = sorted(set(points))
    if len(points) < 3:
        return 0.0

    def chain(ordered):
        """One side of the hull, its last point left out."""
        out = []
        for p in ordered:
            while len(out) > 1 and _side(out[-2], out[-1], p) <= 0:
                out.pop()
            out.append(p)
        return out[:-1]
    hull = chain(points) + chain(points[::-1])
    return abs(sum(a[0] * b[1] - b[0] * a[1] for a, b in zip(hull, hull[1:] + hull[:1]))) / 2
