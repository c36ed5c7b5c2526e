"""Shapes made of triangles: boxes, lathed bodies, ground, and things made of these (trees, houses, an aeroplane).

Lengths are in units, angles in degrees, colours are (red, green, blue) from 0 to 255. X is right, Y forward, Z up.
Each shape is a list of Triangle, so shapes are put together with +.
"""
import math
from typing import NamedTuple

SUN = (-0.5, -0.45, 0.74)  # where the light comes from
WHITE = (236, 236, 228)
TARMAC = (78, 80, 84)
FAR_TARMAC = (96, 98, 102)


class Triangle(NamedTuple):
    """Three corners, each (x, y, z), and the colour of each; colours are blended between the corners."""

    corners: tuple
    colours: tuple


# Colours


def shade(colour, factor):
    """The colour made darker, or with a factor above 1 lighter."""
    return tuple(max(0, min(255, round(c * factor))) for c in colour)


def mix(first, second, part):
    """The colour between two: the first at 0, the second at 1."""
    return tuple(round(a + (b - a) * part) for a, b in zip(first, second))


# Triangles


def facing(a, b, c):
    """The direction that a triangle faces whose corners go round against the clock, seen from there; of any length."""
    u = [b[i] - a[i] for i in range(3)]
    v = [c[i] - a[i] for i in range(3)]
    return (u[1] * v[2] - u[2] * v[1], u[2] * v[0] - u[0] * v[2], u[0] * v[1] - u[1] * v[0])


def brightness(direction, sun=SUN):
    """How bright the sun makes what faces this direction: from 0.55 in the shadow to about 1.05."""
    size = math.sqrt(sum(n * n for n in direction)) or 1
    return 0.55 + 0.5 * max(0, sum(n * s for n, s in zip(direction, sun)) / size)


def triangle(a, b, c, colour_a, colour_b=None, colour_c=None):
    """A triangle of one colour, or with a colour at each corner, as it is given: no light falls on it."""
    return Triangle((a, b, c), (colour_a, colour_b or colour_a, colour_c or colour_a))


def facet(a, b, c, colour):
    """A triangle lit by the sun."""
    return triangle(a, b, c, shade(colour, brightness(facing(a, b, c))))


def quad(a, b, c, d, colour):
    """A flat piece with four corners, lit by the sun."""
    return [facet(a, b, c, colour), facet(a, c, d, colour)]


def disc(centre, toward, radius, sides, colour):
    """A flat round piece that faces along one axis: `toward` is "x", "y" or "z"; no light falls on it."""
    first, second = [axis for axis in range(3) if axis != "xyz".index(toward)]
    rim = []
    for k in range(sides):
        point, turn = list(centre), 2 * math.pi * k / sides
        point[first] += radius * math.cos(turn)
        point[second] += radius * math.sin(turn)
        rim.append(tuple(point))
    return [triangle(tuple(centre), rim[k - 1], rim[k], colour) for k in range(sides)]


def moved(shape, x, y, z):
    """The shape set off by this much."""
    return [Triangle(tuple((a + x, b + y, c + z) for a, b, c in t.corners), t.colours) for t in shape]


# Bodies


def flat(x0, y0, x1, y1, z, colour, far=None):
    """A rectangle on the ground; with two colours they blend from near to far."""
    far = far or colour
    a, b, c, d = (x0, y0, z), (x1, y0, z), (x1, y1, z), (x0, y1, z)
    return [triangle(a, b, c, colour, colour, far), triangle(a, c, d, colour, far, far)]


def box(x, y, z, width, depth, height, colour, roof=None):
    """A box without a floor: its middle at x, y, its foot at z."""
    x0, x1, y0, y1, top = x - width / 2, x + width / 2, y - depth / 2, y + depth / 2, z + height
    corners = [(x0, y0), (x1, y0), (x1, y1), (x0, y1)]
    out = []
    for (ax, ay), (bx, by) in zip(corners, corners[1:] + corners[:1]):
        out += quad((ax, ay, z), (bx, by, z), (bx, by, top), (ax, ay, top), colour)
    return out + quad(*((px, py, top) for px, py in corners), roof or colour)


def loft(rings, colour):
    """A skin over rings of equally many points; `colour` is one colour, or a function of the side's number."""
    out = []
    for low, high in zip(rings, rings[1:]):
        for k in range(len(low)):
            a, b, c, d = low[k - 1], low[k], high[k], high[k - 1]
            paint = colour(k) if callable(colour) else colour
            if a != b:
                out.append(facet(a, b, c, paint))
            if c != d:
                out.append(facet(a, c, d, paint))
    return out


def lathe(x, y, z, profile, sides, colour):
    """What a profile of (radius, height) makes, turned about the upright through x, y."""
    def ring(radius, height):
        turns = [2 * math.pi * k / sides for k in range(sides)]
        return [(x + radius * math.cos(t), y + radius * math.sin(t), z + height) for t in turns]
    return loft([ring(*point) for point in profile], colour)


def cone(x, y, z, radius, height, colour, sides=6):
    """A cone or pyramid without a floor: its middle at x, y, its foot at z."""
    return lathe(x, y, z, [(radius, 0), (0, height)], sides, colour)


def hills(x0, y0, x1, y1, columns, rows, height, colour):
    """Ground of columns by rows fields; `height` is a function of x, y, and `colour` one of x, y, z."""
    def at(i, j):
        x, y = x0 + (x1 - x0) * i / columns, y0 + (y1 - y0) * j / rows
        return (x, y, height(x, y))
    out = []
    for j in range(rows):
        for i in range(columns):
            a, b, c, d = at(i, j), at(i + 1, j), at(i + 1, j + 1), at(i, j + 1)
            for corners in ((a, b, c), (a, c, d)):
                light = brightness(facing(*corners))
                out.append(triangle(*corners, *(shade(colour(*p), light) for p in corners)))
    return out


# Things


def tree(x, y, z, height, sides=6, green=(40, 95, 45)):
    """A conifer: a trunk and two cones."""
    return (box(x, y, z, height * 0.1, height * 0.1, height * 0.3, (95, 70, 45))
            + cone(x, y, z + height * 0.22, height * 0.28, height * 0.5, green, sides)
            + cone(x, y, z + height * 0.5, height * 0.2, height * 0.5, shade(green, 1.15), sides))


def house(x, y, z, width, depth, height, wall, roof):
    """Walls and a saddle roof."""
    x0, x1, y0, y1 = x - width / 2, x + width / 2, y - depth / 2, y + depth / 2
    eaves, top = z + height, z + height * 1.6
    out = box(x, y, z, width, depth, height, wall)[:8]
    out += quad((x0, y0, eaves), (x1, y0, eaves), (x1, y, top), (x0, y, top), roof)
    out += quad((x1, y1, eaves), (x0, y1, eaves), (x0, y, top), (x1, y, top), roof)
    return out + [facet((x1, y0, eaves), (x1, y1, eaves), (x1, y, top), wall),
                  facet((x0, y1, eaves), (x0, y0, eaves), (x0, y, top), wall)]


def aeroplane(colour):
    """A small aeroplane, its nose along Y."""
    sections = ((-5, 0.15, 0.9), (-3.4, 0.35, 0.8), (0, 0.75, 0.7), (2.6, 0.7, 0.65), (3.6, 0.35, 0.6), (4, 0, 0.6))

    def ring(y, radius, z):
        return [(radius * math.sin(t), y, z + 1.15 * radius * math.cos(t))
                for t in (2 * math.pi * k / 8 for k in range(8))]
    body = loft([ring(*s) for s in sections], colour)
    wings = box(0, 0.9, 1.3, 12, 1.7, 0.2, shade(colour, 1.1)) + box(0, -4.2, 1.0, 4.4, 1.1, 0.15, shade(colour, 1.1))
    fin = [facet((0, -5, 1), (0, -3.4, 1), (0, -5, 2.9), shade(colour, 0.9))]
    window = box(0, 1.5, 1.2, 0.9, 1.2, 0.6, (60, 80, 100))
    return body + wings + fin + window


def balloon(colour):
    """A balloon of eight stripes with its basket."""
    profile = [(0.8, 2.5), (3.4, 6), (5, 9.5), (4.3, 13), (2.2, 15), (0, 15.6)]
    return (lathe(0, 0, 0, profile, 8, lambda side: colour if side % 2 else shade(colour, 1.35))
            + box(0, 0, 0, 1.6, 1.6, 1.6, (140, 100, 60)))


def boat(colour):
    """A sailing boat of ten units, its bow along X, its water line at z = 0.4."""
    hull = loft([[(-3.4, -1.2, 0), (3.2, -1.2, 0), (3.2, 1.2, 0), (-3.4, 1.2, 0)],
                 [(-4.4, -1.7, 1.6), (5.4, -0.4, 1.8), (5.4, 0.4, 1.8), (-4.4, 1.7, 1.6)]], colour)
    deck = quad((-4.4, -1.7, 1.6), (5.4, -0.4, 1.8), (5.4, 0.4, 1.8), (-4.4, 1.7, 1.6), (206, 176, 120))
    mast = box(0.8, 0, 1.6, 0.3, 0.3, 12, (120, 90, 60))
    sails = [triangle((-3.4, 0, 2.4), (0.6, 0, 2.4), (0.6, 0, 13), (245, 240, 225)),
             triangle((1, 0, 2.4), (4.8, 0, 2.4), (1, 0, 11), (228, 222, 205))]
    return hull + deck + mast + sails


def runway(x, y0, y1, z, width):
    """The surface of a runway along Y. Its marks lie in the same plane: make both children of a layer."""
    return flat(x - width / 2, y0, x + width / 2, y1, z, TARMAC, FAR_TARMAC)


def runway_marks(x, y0, y1, z, width):
    """Edge lines, a broken centre line, and the bars of both thresholds."""
    out = []
    for edge in (x - width / 2 + 1, x + width / 2 - 1):
        out += flat(edge - 0.4, y0, edge + 0.4, y1, z, WHITE)
    y = y0 + 40
    while y + 12 < y1 - 30:
        out += flat(x - 0.5, y, x + 0.5, y + 12, z, WHITE)
        y += 24
    for foot in (y0 + 6, y1 - 24):
        for k in (-4, -3, -2, -1, 1, 2, 3, 4):
            out += flat(x + k * 2.2 - 0.6, foot, x + k * 2.2 + 0.6, foot + 18, z, WHITE)
    return out
