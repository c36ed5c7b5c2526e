"""Tiles of the land come and go while the aeroplane flies over it.

A thread builds the tiles ahead, each in a block of its own. The flight gives a block when its tile is due, so that a
block has the same place among the commands in every run; only where the thread is late the flight waits for it. A tile
far behind is taken out of the scene and deleted, and the serials of its nodes are kept until perfly tells that they are
freed: that no frame under way shows them any more.
"""
import concurrent.futures
from typing import Callable, NamedTuple

from .land import Numbered, Place, ids_of, tile_at

from perfly_play import Live
from perfly_play.writing import Section

NEAR, KEPT = 3, 4  # how many tiles about the middle one are due, and may stay
MOST = (2 * KEPT + 1) ** 2  # tiles at once

Build = Callable[[Section, Place], Numbered]


class Dropped(Exception):
    """Ends a block that is not wanted any more."""


class Draft:
    """A tile in a block that is built, and is not yet given."""

    def __init__(self, world: Live, parent: int, place: Place, build: Build):
        self._block = world.buffer()
        section = self._block.__enter__()
        try:
            self.made = build(section, place)
            section.ask_add(parent, self.made.nodes()[0])
        except BaseException as error:
            self._block.__exit__(type(error), error, error.__traceback__)
            raise

    def give(self) -> None:
        """Gives the block, which is merged where it stands."""
        self._block.__exit__(None, None, None)

    def drop(self) -> None:
        """Lets the block go; nothing of it is given."""
        self._block.__exit__(Dropped, Dropped(), None)


class Counts(NamedTuple):
    """Tiles in the scene and under way, blocks merged, nodes deleted, and those of them that were freed."""

    tiles: int
    building: int
    merged: int
    deleted: int
    freed: int


class Pager:
    """The tiles below a node of the scene."""

    def __init__(self, world: Live, parent: int, build: Build):
        self._world, self._parent, self._build = world, parent, build
        self._thread = concurrent.futures.ThreadPoolExecutor(1, "tiles")
        self._drafts: dict[Place, concurrent.futures.Future[Draft]] = {}
        self.tiles: dict[Place, Numbered] = {}
        self.unfreed: set[int] = set()  # the serials of deleted nodes that are not freed yet
        self._merged = self._deleted = self._freed = 0

    def fill(self, x: int, y: int) -> None:
        """Has all tiles about a place in the scene, and no others."""
        middle = tile_at(x, y)
        for place in [place for place in self.tiles if distance(place, middle) > NEAR]:
            self._take_out(place)
        for place in missing(middle, self.tiles):
            self._ask(place)
        for place in missing(middle, self.tiles):
            self._bring_in(place)

    def turn(self, here: tuple[int, int], ahead: tuple[int, int]) -> None:
        """A tick at a place: tiles about the place ahead are asked of the thread; one tile that is due here comes into the
        scene, and one that is far goes."""
        middle, later = tile_at(*here), tile_at(*ahead)
        for place in [place for place in self._drafts if distance(place, later) > KEPT < distance(place, middle)]:
            self._forget(place)
        for place in missing(later, self.tiles):
            self._ask(place)
        far = max(self.tiles, key=lambda place: (distance(place, middle), place))
        if distance(far, middle) > KEPT:
            self._take_out(far)
        due = missing(middle, self.tiles)
        if due:
            self._bring_in(due[0])
        self.note_freed()

    def note_freed(self) -> None:
        """Takes note of what was freed."""
        freed = self._world.take_freed()
        self._freed += len(freed)
        self.unfreed.difference_update(freed)

    def counts(self) -> Counts:
        """How many tiles, blocks and nodes there are and were."""
        return Counts(len(self.tiles), len(self._drafts), self._merged, self._deleted, self._freed)

    def close(self) -> None:
        """Ends the thread; what it built is let go."""
        for place in list(self._drafts):
            self._forget(place)
        self._thread.shutdown()

    def _ask(self, place: Place) -> None:
        """Asks a tile of the thread, once."""
        if place not in self._drafts:
            self._drafts[place] = self._thread.submit(Draft, self._world, self._parent, place, self._build)

    def _forget(self, place: Place) -> None:
        """Lets go of a tile that was asked."""
        draft = self._drafts.pop(place)
        if not draft.cancel():
            draft.result().drop()

    def _bring_in(self, place: Place) -> None:
        """Brings a tile into the scene. One that has its ids goes first, and the farthest where there are as many as may be."""
        for twin in [other for other in self.tiles if ids_of(other) == ids_of(place)]:
            self._take_out(twin)
        if len(self.tiles) == MOST:
            self._take_out(max(self.tiles, key=lambda other: (distance(other, place), other)))
        self._ask(place)
        draft = self._drafts.pop(place).result()
        draft.give()
        self.tiles[place] = draft.made
        self._merged += 1

    def _take_out(self, place: Place) -> None:
        """Takes a tile out of the scene, and deletes its nodes."""
        nodes = self.tiles.pop(place).nodes()
        serials = [self._world.serial(node) for node in nodes]
        self._world.remove(self._parent, nodes[0])
        self._world.delete(*nodes)
        self.unfreed.update(serials)
        self._deleted += len(nodes)


def distance(place: Place, middle: Place) -> int:
    """How many tiles a tile is from another, along the axis on which it is farther."""
    return max(abs(place[0] - middle[0]), abs(place[1] - middle[1]))


def missing(middle: Place, there: dict[Place, Numbered]) -> list[Place]:
    """The tiles about a middle one that are not there, the nearest first."""
    span = range(-NEAR, NEAR + 1)
    places = [(middle[0] + i, middle[1] + j) for i in span for j in span]
    return sorted((place for place in places if place not in there), key=lambda place: (distance(place, middle), place))
