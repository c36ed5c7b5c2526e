"""What of a graph a view shows: perfly's numbers, step by step (docs/specification/numbers-and-picture.md)."""
from typing import NamedTuple

from . import limits
from .graph import SCENE, running_place


class View(NamedTuple):
    """An eye: where it is, and where it looks."""

    x: int = 0
    y: int = 0
    z: int = 0
    heading: int = 0
    pitch: int = 0
    roll: int = 0


class Occurrence(NamedTuple):
    """A node that the walk comes to: its id, its places from the scene down, and whether its box is in sight."""

    name: int
    path: tuple
    in_sight: bool


class Instance(NamedTuple):
    """Geometry at one of its places: its id, the steps from its corners to the eye, how many of these are the view's, and by
    how much layers lessen its depths (1/4096 unit)."""

    name: int
    steps: tuple
    of_view: int
    shift: int


class Shown(NamedTuple):
    """What a view shows of a graph: the geometry in sight, in the order of the walk, and the numbers of a report."""

    geodes: list
    states: int
    visited: int


def sine(x):
    """The sine of so many tenths of a degree, as a whole number of 1/65536."""
    x %= limits.TURN
    if x > 1800:
        return -sine(x - 1800)
    product = x * (1800 - x)
    return 4 * limits.WHOLE * product // (4050000 - product)


def cosine(x):
    """The cosine, likewise."""
    return sine(x + 900)


def heading(x):
    """The turn about Z."""
    s, c = sine(x), cosine(x)
    return (c, s, 0, -s, c, 0, 0, 0, limits.WHOLE, 0, 0, 0)


def pitch(x):
    """The turn about X."""
    s, c = sine(x), cosine(x)
    return (limits.WHOLE, 0, 0, 0, c, s, 0, -s, c, 0, 0, 0)


def roll(x):
    """The turn about Y."""
    s, c = sine(x), cosine(x)
    return (c, 0, -s, 0, limits.WHOLE, 0, s, 0, c, 0, 0, 0)


def scaling(k):
    """The scale in all directions."""
    return (k, 0, 0, 0, k, 0, 0, 0, k, 0, 0, 0)


def shift(x, y, z):
    """The translation."""
    return (limits.WHOLE, 0, 0, 0, limits.WHOLE, 0, 0, 0, limits.WHOLE, x, y, z)


SAME = shift(0, 0, 0)


def _clamp(x):
    return max(-limits.COORDINATE, min(limits.COORDINATE, x))


def carry_point(step, point):
    """A point taken through a step."""
    return tuple(_clamp(sum(point[i] * step[3 * i + j] for i in range(3)) // limits.WHOLE + step[9 + j])
                 for j in range(3))


def carry_box(step, box):
    """A box (its low and its high corner) taken through a step."""
    spans = tuple(zip(*box))
    sides = []
    for j in range(3):
        low = high = 0
        for entry, (near, far) in zip(step[j:9:3], spans):
            low += entry * (near if entry >= 0 else far)
            high += entry * (far if entry >= 0 else near)
        sides.append((_clamp(low // limits.WHOLE + step[9 + j]), _clamp(high // limits.WHOLE + step[9 + j])))
    return tuple(zip(*sides))


def steps_of(node):
    """The steps of a coordinate system; those that change nothing are left out."""
    if node.kind not in ("scs", "dcs"):
        return ()
    if node.euler is None:
        return (node.matrix,)
    scale, head, tilt, bank, *place = node.euler
    steps = (scaling(scale), roll(bank), pitch(tilt), heading(head), shift(*place))
    return tuple(step for step in steps if step != SAME)


def steps_to_eye(view):
    """The steps from the scene to the eye."""
    steps = (shift(-view.x, -view.y, -view.z), heading(-view.heading), pitch(-view.pitch), roll(-view.roll))
    return tuple(step for step in steps if step != SAME)


def through(steps, point):
    """A point taken through steps, one after the other."""
    return _through(carry_point, steps, point)


def _through(carry, steps, thing):
    for step in steps:
        thing = carry(step, thing)
    return thing


def _hull(boxes):
    return (tuple(min(box[0][j] for box in boxes) for j in range(3)),
            tuple(max(box[1][j] for box in boxes) for j in range(3)))


def _place_by_distance(ranges, centre):
    """The first child of a level of detail whose ranges the distance of its centre is between, -1 where none is."""
    distance = sum(c * c for c in centre)
    ends = enumerate(zip(ranges, ranges[1:]))
    return next((place for place, (low, high) in ends if low * low <= distance < high * high), -1)


class Sight:
    """Looks at a graph, frame after frame; keeps the boxes of nodes that have not changed since the last look."""

    def __init__(self, graph, head):
        self.graph, self.head = graph, head
        self.boxes = {}

    def look(self, view):
        """What the view shows now."""
        walk = list(self.walk(view))
        nodes = self.graph.nodes
        geodes = [at.name for at in walk if at.in_sight and nodes[at.name].is_geode()]
        states = {nodes[name].state for name in geodes if nodes[name].kind == "geode"}
        return Shown(geodes, len(states), len(walk))

    def walk(self, view):
        """The nodes that the cull comes to, in their order: children of what is out of sight are left out."""
        self._forget_changed()
        yield from self._walk(SCENE, (), steps_to_eye(view))

    def _walk(self, name, path, steps):
        node = self.graph.nodes[name]
        box = self._box(name)
        in_sight = box is not None and not self.is_outside(_through(carry_box, steps, box))
        yield Occurrence(name, path, in_sight)
        if in_sight:
            below = steps_of(node) + steps
            for place in self.chosen(node, steps):
                yield from self._walk(node.children[place], (*path, place), below)

    def instances(self, view):
        """The geometry whose own box is in sight, in the order of the walk; geometry with several parents comes for each."""
        self._forget_changed()
        steps = steps_to_eye(view)
        yield from self._instances(SCENE, steps, len(steps), 0)

    def _instances(self, name, steps, of_view, shift):
        node, box = self.graph.nodes[name], self._box(name)
        if box is None or self.is_outside(_through(carry_box, steps, box)):
            return
        if node.is_geode():
            yield Instance(name, steps, of_view, shift)
        for place in self.chosen(node, steps):
            more = limits.LAYER * place if node.kind == "layer" else 0
            yield from self._instances(node.children[place], steps_of(node) + steps, of_view, shift + more)

    def chosen(self, node, steps):
        """The places of the children that a node shows, its coordinates taken through these steps to the eye."""
        places = range(len(node.children))
        if node.kind == "switch":
            one = {"on": None, "off": -1}.get(node.pick, node.pick)
        elif node.kind == "seq":
            one = node.held if node.since is None else running_place(node, self.graph.frame)
        elif node.kind == "lod":
            one = _place_by_distance(node.ranges, _through(carry_point, steps, node.centre))
        else:
            one = None
        return places if one is None else [one] if one in places else []

    def is_outside(self, box):
        """Whether nothing in a box before the eye can be seen."""
        low, high = box
        across, upright = (self.head.width - 1) * high[1], (self.head.height - 1) * high[1]
        twice = 2 * self.head.focal
        return (high[1] < self.head.near or low[1] > self.head.far or twice * low[0] > across or -twice * high[0] > across
                or twice * low[2] > upright or -twice * high[2] > upright)

    def _box(self, name):
        if name not in self.boxes:
            self.boxes[name] = self._fresh_box(self.graph.nodes[name])
        return self.boxes[name]

    def _fresh_box(self, node):
        if node.is_geode():
            boxes = [(corner, corner) for corner in node.corners]
        else:
            boxes = [box for box in map(self._box, node.children) if box]
        return _through(carry_box, steps_of(node), _hull(boxes)) if boxes else None

    def _forget_changed(self):
        for name in self.graph.changed:
            for above in self.graph.above(name) if name in self.graph.nodes else [name]:
                self.boxes.pop(above, None)
        self.graph.changed.clear()
