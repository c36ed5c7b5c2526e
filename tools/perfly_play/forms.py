"""The forms of a play's lines: each command with its fields, and the range of each field."""
from typing import NamedTuple

from . import limits


class Field(NamedTuple):
    """A number of a line: what it means, and between what it must be."""

    name: str
    low: int
    high: int


class Edit(NamedTuple):
    """A line of a play: its command, its fields, and for geometry the corners of its triangles, three for each."""

    command: str
    fields: tuple
    corners: tuple = ()


NEW = Field("id", 1, limits.IDENTIFIER)
NODE = Field("id", 0, limits.IDENTIFIER)
PARENT, CHILD = NODE._replace(name="parent"), NODE._replace(name="child")
PLACE = Field("place", 0, limits.CHILDREN - 1)
STATE = Field("state", 0, limits.STATE)
COUNT = Field("triangles", 0, limits.GEODE_TRIANGLES)
ALPHA = Field("alpha", 0, 255)
SHADE = tuple(Field(name, 0, 255) for name in ("red", "green", "blue"))
POINT = tuple(Field(name, -limits.COORDINATE, limits.COORDINATE) for name in "xyz")
TURNS = tuple(Field(name, -limits.TURN, limits.TURN) for name in ("heading", "pitch", "roll"))
ENTRY = Field("entry", -limits.ENTRY, limits.ENTRY)
MATRIX = (ENTRY,) * 9 + POINT
PASSED = Field("number", 0, limits.LINES)

CORNER = POINT + SHADE
TRIANGLE = CORNER * 3

MAKERS = {
    "group": (NEW,), "switch": (NEW,), "dcs": (NEW,), "lod": (NEW,), "seq": (NEW,), "layer": (NEW,),
    "scs": (NEW,) + MATRIX,
    "geode": (NEW, STATE, COUNT),
    "glass": (NEW, STATE, ALPHA, COUNT),
}
EDITS = {
    **MAKERS,
    "verts": (NODE, COUNT),
    "add": (PARENT, CHILD),
    "insert": (PARENT, PLACE, CHILD),
    "replace": (PARENT, NODE, NODE),
    "remove": (PARENT, CHILD),
    "delete": (NODE,), "run": (NODE,), "stop": (NODE,),
    "sw": (NODE, PLACE),  # or on, or off, at the place
    "mat": (NODE,) + MATRIX,
    "trans": (NODE,) + POINT, "centre": (NODE,) + POINT,
    "rot": (NODE,) + TURNS,
    "scale": (NODE, ENTRY),
    "range": (NODE, Field("place", 0, limits.RANGES - 1), Field("range", 0, limits.RANGE)),
    "times": (NODE, Field("place", 0, limits.TIMES - 1), Field("frames", 1, 65535)),
}
APPLICATION = {
    "view": POINT + TURNS,
    "cview": (Field("channel", 1, limits.CHANNELS - 1),) + POINT + TURNS,
    "sync": (), "frame": (),
    "wait": (PASSED,),
}
OUTSIDE_BUFFER = {"await": (PASSED,), "buffer": ()}
INSIDE_BUFFER = {"badd": (PARENT, CHILD), "bremove": (PARENT, CHILD), "merge": ()}
DBASE = {**OUTSIDE_BUFFER, **INSIDE_BUFFER}

SIZE = (Field("width", 1, limits.SIDE), Field("height", 1, limits.SIDE))
LENS = (Field("focal length", 1, limits.FOCAL), Field("near", 1, limits.COORDINATE), Field("far", 1, limits.COORDINATE))
CHANNELS = (Field("channels", 1, limits.CHANNELS),)

PICKS = ("on", "off")
GEOMETRY = ("geode", "glass", "verts")
SECOND_VERSION = ("glass", "channels", "cview")


def line(edit):
    """An edit as its line, without its triangles."""
    return " ".join(map(str, (edit.command, *edit.fields)))
