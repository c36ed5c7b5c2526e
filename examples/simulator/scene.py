"""What perfly draws: the land, the balloons and the aeroplane, and from where they are seen."""
import math
from typing import NamedTuple

from .aeroplane import DEGREE, UNIT, WHOLE, Aeroplane, cosine, ratio, sine
from .land import FIRST, MIST, PLANE, SIDE, Numbered, build, make
from .paging import Pager

from perfly_play import Live, shapes

VIEWS = ("behind", "cockpit", "ground", "above")
FAR = 4000
HAZE, FLOOR = (150, 172, 176), (130, 160, 120)
POSTS = 240  # units from one place of the eye on the ground to the next
NEXT, LATER = 150, 400  # units ahead of the aeroplane about which tiles are due, and are built
RED = (205, 50, 45)


class Eye(NamedTuple):
    """Where an eye is, in 4096ths of a unit, and where it looks, in hundredths of a degree."""

    x: int
    y: int
    z: int
    heading: int
    pitch: int
    roll: int


class Scene:
    """The scene of a flight."""

    def __init__(self, world: Live, plane: Aeroplane):
        self._world, self._plane = world, plane
        made = Numbered(world, range(1, FIRST))
        self._backdrop = made.dcs(0)
        made.geode(self._backdrop, MIST, mist())
        made.geode(self._backdrop, MIST, ridges())
        self._balloons = make.fleet(made, 0)
        self._dcs = made.dcs(0)
        made.geode(self._dcs, PLANE, shapes.aeroplane(RED) + wheels())
        made.glass(self._dcs, 70, shapes.disc((0, 4.1, 0.6), "y", 1.7, 10, (40, 40, 44)))
        self.pager = Pager(world, made.group(0), build)
        self.fill()

    def fill(self) -> None:
        """Has the land about the aeroplane in the scene."""
        self.pager.fill(*self._ahead(NEXT))

    def show(self, tick: int, view: str) -> None:
        """Edits the scene to that of a tick; after it comes its frame."""
        plane = self._plane
        self.pager.turn(self._ahead(NEXT), self._ahead(LATER))
        x, y = self._ahead(NEXT)
        self._world.move(self._backdrop, x / UNIT, y / UNIT, 0)
        rise = ratio(6 * UNIT * (WHOLE + sine(90 * tick)), WHOLE)
        self._world.move(self._balloons, 0, 0, rise / UNIT)
        self._world.move(self._dcs, plane.x / UNIT, plane.y / UNIT, plane.z / UNIT)
        self._world.turn(self._dcs, *degrees(plane.heading, plane.pitch, plane.roll))
        self._look(eye_of(plane, view))

    def _ahead(self, units: int) -> tuple[int, int]:
        """A place so many units ahead of the aeroplane."""
        heading = self._plane.heading
        return (self._plane.x - ratio(units * UNIT * sine(heading), WHOLE),
                self._plane.y + ratio(units * UNIT * cosine(heading), WHOLE))

    def _look(self, eye: Eye) -> None:
        """Sets the eye."""
        self._world.view(eye.x / UNIT, eye.y / UNIT, eye.z / UNIT, *degrees(eye.heading, eye.pitch, eye.roll))


def degrees(*angles: int) -> list[float]:
    """Angles in degrees, each a whole number of tenths."""
    return [ratio(angle, DEGREE // 10) / 10 for angle in angles]


def eye_of(plane: Aeroplane, view: str) -> Eye:
    """The eye of a view, which is never below the ground."""
    if view == "behind":
        eye = _along(plane, -28, 8)._replace(pitch=plane.pitch // 2 - 8 * DEGREE, roll=plane.roll // 4)
    elif view == "cockpit":
        eye = _along(plane, 5, 1)
    elif view == "ground":
        x, y = (POSTS * UNIT * ratio(n, POSTS * UNIT) + 30 * UNIT for n in (plane.x, plane.y))
        z = plane.surface.height(x, y) + 6 * UNIT
        eye = Eye(x, y, z, *_direction(plane.x - x, plane.y - y, plane.z - z), 0)
    else:
        eye = Eye(plane.x, plane.y, plane.z + 320 * UNIT, 0, -90 * DEGREE, 0)
    return eye._replace(z=max(eye.z, plane.surface.height(eye.x, eye.y) + 2 * UNIT))


def _along(plane: Aeroplane, ahead: int, up: int) -> Eye:
    """An eye so many units ahead of the aeroplane and above it, that looks as the aeroplane does."""
    level = ratio(ahead * UNIT * cosine(plane.pitch), WHOLE)
    return Eye(plane.x - ratio(level * sine(plane.heading), WHOLE), plane.y + ratio(level * cosine(plane.heading), WHOLE),
               plane.z + up * UNIT + ratio(ahead * UNIT * sine(plane.pitch), WHOLE),
               plane.heading, plane.pitch, plane.roll)


def _direction(x: int, y: int, z: int) -> tuple[int, int]:
    """The heading and the pitch to what is so far away, in whole tenths of a degree."""
    step = DEGREE // 10
    heading = round(math.degrees(math.atan2(-x, y)) * 10) * step
    return heading, round(math.degrees(math.atan2(z, math.hypot(x, y))) * 10) * step


def wheels() -> list:
    """The wheels and their struts."""
    dark = (44, 44, 48)
    return sum((shapes.box(x, y, -0.9, 0.35, 0.8, 0.8, dark) + shapes.box(x, y, -0.3, 0.15, 0.15, 0.8, dark)
                for x, y in ((-1.4, 0.4), (1.4, 0.4), (0, 2.9))), [])


def mist() -> list:
    """A floor far below the land, whose colour becomes the sky's: behind the land it is the horizon."""
    rim = [(3 * SIDE * 5 * math.cos(turn), 3 * SIDE * 5 * math.sin(turn), -60) for turn in _turns(32)]
    return [shapes.triangle((0, 0, -60), a, b, FLOOR, make.SKY, make.SKY) for a, b in zip(rim[-1:] + rim, rim)]


def ridges() -> list:
    """Hills in the haze about the eye, which hide where the land ends."""
    count, reach = 64, 3.1 * SIDE
    foot = [(reach * math.cos(turn), reach * math.sin(turn)) for turn in _turns(count)]
    tops = [46 + 14 * math.sin(k * math.pi / 8) + 9 * math.sin(k * math.pi * 7 / 32) for k in range(count)]
    out = []
    for k in range(count):
        (ax, ay), (bx, by) = foot[k - 1], foot[k]
        low, high = ((ax, ay, -60), (bx, by, -60)), ((ax, ay, tops[k - 1]), (bx, by, tops[k]))
        out += [shapes.triangle(low[0], low[1], high[1], FLOOR, FLOOR, HAZE),
                shapes.triangle(low[0], high[1], high[0], FLOOR, HAZE, HAZE)]
    return out


def _turns(count: int) -> list[float]:
    """The angles of so many equal steps about the circle."""
    return [2 * math.pi * k / count for k in range(count)]
