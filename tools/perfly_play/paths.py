"""Paths: where something is at each frame, an eye or a thing that moves, from a few stops.

    eye = paths.Path([(1, (0, -60, 20)), (25, (0, -10, 8)), (49, (40, 30, 12))])
    for frame in eye.frames():
        play.look_at(eye.at(frame), (0, 20, 5))
        play.frame()

A stop is a frame and the numbers there, as many at each stop: a point, a point with a heading, one number. To stay, name a
stop twice. A Path goes straight from stop to stop, each leg at the pace of its ease; a Curve goes through its stops without
stopping.
"""
import bisect
from typing import Callable, Sequence

from .writing import PlayError

Numbers = Sequence[float]
Stop = tuple[float, Numbers]
Ease = Callable[[float], float]


# Eases: how far along a leg, 0 to 1, at a part of its time


def steady(part: float) -> float:
    """At one pace."""
    return part


def gentle(part: float) -> float:
    """Slow at both ends."""
    return part * part * (3 - 2 * part)


def starting(part: float) -> float:
    """Slow at the beginning."""
    return part * part


def stopping(part: float) -> float:
    """Slow at the end."""
    return part * (2 - part)


class Path:
    """Straight legs from stop to stop. Before the first stop it is there, and behind the last one there."""

    def __init__(self, stops: Sequence[Stop], ease: Ease = gentle):
        self.times = [time for time, _ in stops]
        self.points = [tuple(numbers) for _, numbers in stops]
        self.ease = ease
        if not stops:
            raise PlayError("a path has no stop")
        if any(later <= time for time, later in zip(self.times, self.times[1:])):
            raise PlayError("the frames of a path's stops must rise")
        if len({len(numbers) for numbers in self.points}) > 1:
            raise PlayError("the stops of a path must have as many numbers as each other")

    def frames(self) -> range:
        """The frames from the first stop to the last."""
        return range(round(self.times[0]), round(self.times[-1]) + 1)

    def at(self, frame: float) -> tuple[float, ...]:
        """The numbers at a frame."""
        if frame <= self.times[0] or len(self.times) == 1:
            return self.points[0]
        if frame >= self.times[-1]:
            return self.points[-1]
        leg = bisect.bisect_right(self.times, frame) - 1
        return self._inside(leg, (frame - self.times[leg]) / (self.times[leg + 1] - self.times[leg]))

    def _inside(self, leg: int, part: float) -> tuple[float, ...]:
        far = self.ease(part)
        return tuple(a + (b - a) * far for a, b in zip(self.points[leg], self.points[leg + 1]))


class Curve(Path):
    """A smooth curve through the stops (cubic Hermite; at each stop it goes along with the stops before and behind it)."""

    def __init__(self, stops: Sequence[Stop]):
        super().__init__(stops, steady)
        self.slopes = [self._slope(k) for k in range(len(stops))]

    def _slope(self, k: int) -> tuple[float, ...]:
        """How much the numbers change in a frame at a stop."""
        before, behind = max(0, k - 1), min(len(self.times) - 1, k + 1)
        time = self.times[behind] - self.times[before]
        return tuple((b - a) / time if time else 0 for a, b in zip(self.points[before], self.points[behind]))

    def _inside(self, leg: int, part: float) -> tuple[float, ...]:
        time = self.times[leg + 1] - self.times[leg]
        square, cube = part * part, part ** 3
        weights = (2 * cube - 3 * square + 1, (cube - 2 * square + part) * time, 3 * square - 2 * cube, (cube - square) * time)
        rows = zip(self.points[leg], self.slopes[leg], self.points[leg + 1], self.slopes[leg + 1])
        return tuple(sum(weight * number for weight, number in zip(weights, row)) for row in rows)
