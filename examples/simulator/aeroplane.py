"""The aeroplane: a simple flight model in whole numbers, so that the same keys fly the same way on every machine.

Lengths are in 4096ths of a unit, speeds in these a tick, angles in hundredths of a degree. A tick is a 20th of a second,
and a unit is meant to be a metre. A positive heading turns left, a positive pitch up, and a positive roll lowers the
right side, as perfly has them.
"""
import dataclasses
import math
from typing import Collection, Protocol

UNIT = 4096
RATE = 20  # ticks a second
DEGREE = 100
WHOLE = 65536  # of a sine: this is 1
SINES = [round(math.sin(math.radians(k / DEGREE)) * WHOLE) for k in range(90 * DEGREE + 1)]

KEYS = ("left", "right", "pull", "push", "faster", "slower", "brake", "view", "restart")


def per_second(units: float) -> int:
    """A speed, told in units a second."""
    return round(units * UNIT / RATE)


STALL = per_second(26)  # below it the wings do not carry the aeroplane
TOP = per_second(75)  # its speed at full throttle, level
THRUST = round(6 * UNIT / RATE ** 2)  # what full throttle adds in a tick
WEIGHT = round(9.8 * UNIT / RATE ** 2)  # what falling adds in a tick
FRICTION = round(0.5 * UNIT / RATE ** 2)
BRAKES = round(5 * UNIT / RATE ** 2)
TURN = 860_000  # a hundredth of a degree a tick, times a speed: half as quick again as a coordinated turn
ROLLING, ROLLING_BACK, MOST_ROLL = 250, 60, 60 * DEGREE
PITCHING, PITCHING_BACK, MOST_PITCH = 80, 25, 30 * DEGREE
STEERING = 120
HARD = per_second(4)  # a descent that the wheels do not bear
ASLANT = 15 * DEGREE  # a roll with which a wing meets the ground first
WHEELS = 3686  # how far they reach below the aeroplane's place
REACH = 100_000 * UNIT  # of the known land
START = (0, 78 * UNIT)


class Surface(Protocol):
    """What the aeroplane flies over."""

    def height(self, x: int, y: int) -> int:
        """How high the ground or the water is."""

    def kind(self, x: int, y: int) -> str:
        """What is there: "runway", "field", "hill" or "lake"."""


def ratio(number: int, by: int) -> int:
    """The whole number nearest to a quotient."""
    return (2 * number + by) // (2 * by)


def sine(angle: int) -> int:
    """The sine, of which 65,536 is 1."""
    angle %= 360 * DEGREE
    if angle >= 180 * DEGREE:
        return -sine(angle - 180 * DEGREE)
    return SINES[min(angle, 180 * DEGREE - angle)]


def cosine(angle: int) -> int:
    """The cosine, of which 65,536 is 1."""
    return sine(angle + 90 * DEGREE)


def towards(value: int, target: int, step: int) -> int:
    """The value, nearer to a target by a step at most."""
    return max(target, value - step) if value > target else min(target, value + step)


@dataclasses.dataclass
class Aeroplane:
    """The aeroplane; it begins on the runway."""

    surface: Surface
    x: int = START[0]
    y: int = START[1]
    z: int = 0
    speed: int = 0
    climb: int = 0
    heading: int = 0
    pitch: int = 0
    roll: int = 0
    throttle: int = 0  # in hundredths
    is_rolling: bool = True  # on its wheels
    crash: str = ""  # why it flies no more
    landings: int = 0

    def __post_init__(self) -> None:
        self.z = self.floor()

    def floor(self) -> int:
        """The height that it has when its wheels stand on what is below it."""
        return self.surface.height(self.x, self.y) + WHEELS

    def step(self, held: Collection[str]) -> None:
        """Flies for a tick, while these keys are held."""
        if self.crash:
            return
        self.throttle = max(0, min(100, self.throttle + 2 * (("faster" in held) - ("slower" in held))))
        side = ("right" in held) - ("left" in held)
        self._pitch(("pull" in held) - ("push" in held))
        if self.is_rolling:
            self._steer(side)
        else:
            self._bank(side)
        self._accelerate("brake" in held)
        self._move()
        self._meet()

    def _pitch(self, stick: int) -> None:
        """Turns the nose up or down; alone it comes back, and in a stall it falls."""
        if stick and (not self.is_rolling or self.speed > STALL):
            self.pitch = towards(self.pitch, stick * MOST_PITCH, PITCHING)
        else:
            self.pitch = towards(self.pitch, 0, PITCHING_BACK)
        if self.is_rolling:
            self.pitch = max(0, self.pitch)
        elif self.speed < STALL:
            self.pitch = towards(self.pitch, -MOST_PITCH, 2 * PITCHING)

    def _steer(self, side: int) -> None:
        """Steers on the wheels."""
        self.roll = 0
        if self.speed:
            self.heading = (self.heading - side * STEERING) % (360 * DEGREE)

    def _bank(self, side: int) -> None:
        """Banks, and turns as the bank turns it."""
        if side:
            self.roll = towards(self.roll, side * MOST_ROLL, ROLLING)
        else:
            self.roll = towards(self.roll, 0, ROLLING_BACK)
        turn = ratio(TURN * sine(self.roll), cosine(self.roll) * max(self.speed, STALL))
        self.heading = (self.heading - turn) % (360 * DEGREE)

    def _accelerate(self, is_braking: bool) -> None:
        """Adds thrust, and takes off drag, what climbing costs, and what the wheels do."""
        gain = ratio(THRUST * self.throttle, 100) - ratio(THRUST * self.speed * self.speed, TOP * TOP)
        gain -= ratio(WEIGHT * sine(self.pitch), WHOLE)
        if self.is_rolling:
            gain -= BRAKES if is_braking else FRICTION if not self.throttle else 0
        self.speed = max(0, self.speed + gain)

    def _move(self) -> None:
        """Goes on by a tick."""
        along = ratio(self.speed * cosine(self.pitch), WHOLE)
        self.x -= ratio(along * sine(self.heading), WHOLE)
        self.y += ratio(along * cosine(self.heading), WHOLE)
        self.climb = ratio(self.speed * sine(self.pitch), WHOLE) - max(0, STALL - self.speed)
        self.z += self.climb

    def _meet(self) -> None:
        """Meets what is below: takes off, rolls, lands or crashes."""
        kind, floor = self.surface.kind(self.x, self.y), self.floor()
        if max(abs(self.x), abs(self.y)) > REACH:
            self._end("left the known land", max(self.z, floor))
        elif self.is_rolling and self.climb > 0 and self.z > floor:
            self.is_rolling = False
        elif self.is_rolling and kind in ("runway", "field"):
            self.z, self.climb = floor, 0
        elif self.z <= floor:
            self._touch(kind, floor)

    def _touch(self, kind: str, floor: int) -> None:
        """Touches the ground or the water, with its wheels or not."""
        if kind == "lake":
            self._end("fell into the lake", floor)
        elif kind == "hill":
            self._end("met a hill", floor)
        elif self.climb < -HARD:
            self._end("touched down too hard", floor)
        elif abs(self.roll) > ASLANT:
            self._end("a wing met the ground", floor)
        else:
            self.z, self.climb, self.pitch, self.roll, self.is_rolling = floor, 0, max(0, self.pitch), 0, True
            self.landings += 1

    def _end(self, why: str, z: int) -> None:
        """It flies no more."""
        self.crash, self.z, self.speed, self.climb = why, z, 0, 0

    def state(self) -> str:
        """What it does, in a word or two."""
        if self.crash:
            return f"crashed: {self.crash}"
        if self.is_rolling:
            return ("rolling" if self.speed else "landed" if self.landings else "ready") + " on the " \
                + self.surface.kind(self.x, self.y)
        return "stalling" if self.speed < STALL else "flying"
