"""A flight, tick by tick: keys in, frames out."""
import collections
import time
from typing import Any, Collection, Iterator, Mapping, NamedTuple

from .aeroplane import DEGREE, RATE, UNIT, Aeroplane
from .land import Land
from .scene import FAR, VIEWS, Scene, make

from perfly_play import Live
from perfly_play.driving import Frame
from perfly_play.pictures import Image


class Shown(NamedTuple):
    """What a tick shows: its picture, and what is told."""

    picture: Image
    told: dict[str, Any]


def start_world(width: int, height: int, **words: Any) -> Live:
    """Starts perfly_live for a flight; the words are those of Live."""
    return Live(width, height, back=make.SKY, far=FAR, **words)


class Flight:
    """A flight: each tick is a step of the aeroplane and a frame. `ahead` frames may be under way at once."""

    def __init__(self, world: Live, ahead: int = 1):
        self._world, self._most = world, ahead
        self.plane = Aeroplane(Land())
        self.scene = Scene(world, self.plane)
        self.ticks = 0
        self._view = 0
        self._before: frozenset[str] = frozenset()
        self._due: collections.deque[dict[str, Any]] = collections.deque()
        self._ended: collections.deque[float] = collections.deque(maxlen=RATE)

    def tick(self, held: Collection[str]) -> list[Shown]:
        """Flies for a tick while these keys are held; gives what has to be shown by now."""
        pressed = set(held) - self._before
        self._before = frozenset(held)
        if "restart" in pressed:
            vars(self.plane).update(vars(Aeroplane(self.plane.surface)))
            self.scene.fill()
        self._view = (self._view + ("view" in pressed)) % len(VIEWS)
        self.plane.step(held)
        self.scene.show(self.ticks, VIEWS[self._view])
        self._world.frame(wait=False)
        self.ticks += 1
        self._due.append(told_of(self.plane, VIEWS[self._view], self.ticks))
        return list(self.shown(self._most - 1))

    def shown(self, left: int = 0) -> Iterator[Shown]:
        """What the frames under way show, but for so many."""
        pictures = self._world.pictures()
        while len(self._due) > left:
            yield self._show(next(pictures))

    def end(self) -> Iterator[Shown]:
        """Ends the flight, and perfly_live with it, which then has freed all that was deleted."""
        yield from self.shown()
        self.scene.pager.close()
        self._world.close()
        self.scene.pager.note_freed()

    def _show(self, frame: Frame) -> Shown:
        """What a frame shows."""
        self._ended.append(time.monotonic())
        told = self._due.popleft()
        told |= {"frame": frame.number, "shown": frame.shown, "states": frame.states, "visited": frame.visited,
                 "rate": rate_of(self._ended), **self.scene.pager.counts()._asdict()}
        return Shown(frame, told)


def told_of(plane: Aeroplane, view: str, tick: int) -> dict[str, Any]:
    """What is told of the aeroplane: lengths in units, speeds in units a second, angles in degrees."""
    return {"tick": tick, "view": view, "state": plane.state(), "has_crashed": bool(plane.crash),
            "height": plane.z / UNIT, "above": (plane.z - plane.floor()) / UNIT,
            "below": plane.surface.kind(plane.x, plane.y), "speed": plane.speed * RATE / UNIT,
            "climb": plane.climb * RATE / UNIT, "heading": -plane.heading / DEGREE % 360,
            "pitch": plane.pitch / DEGREE, "roll": plane.roll / DEGREE, "throttle": plane.throttle}


def rate_of(times: Collection[float]) -> float:
    """Frames a second, of the times at which the last ones came."""
    span = max(times) - min(times)
    return (len(times) - 1) / span if span else 0.0


def summary(told: Mapping[str, Any]) -> str:
    """What is told, as a line."""
    return (f"tick {told['tick']}: {told['state']}, {told['above']:.1f} units above the {told['below']}, "
            f"{told['speed']:.1f} units a second, heading {told['heading']:.0f}")
