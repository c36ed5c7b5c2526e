"""The scene graph of a play: its nodes, and its edits with their faults (docs/specification/scene-graph.md)."""
from . import limits
from .forms import MAKERS

SCENE = 0


class Fault(Exception):
    """Why an edit cannot be made, as a report says it: "Cycle 1 2". With the kind of the node that is at fault, and the edit."""

    def __init__(self, text, kind=None, edit=None):
        super().__init__(text)
        self.kind, self.edit = kind, edit


EXPLANATIONS = {
    "Absent": "there is no node {}",
    "Taken": "the id {} is in use",
    "Place": "there is no place {}",
    "NotChild": "node {1} is no child of node {0}",
    "Cycle": "node {1} is node {0}, or above it",
    "Deep": f"a chain of {{}} nodes; at most {limits.CHAIN}",
    "Large": f"a node with all that is below it, each as often as it stands there, is above {limits.UNFOLDED:,} nodes",
    "InUse": "node {} still has a parent",
}
WANTED = {  # the kinds of node that an edit is for
    "sw": "switch", "mat": "dcs", "trans": "dcs", "rot": "dcs", "scale": "dcs", "centre": "lod", "range": "lod", "times": "seq",
    "run": "seq", "stop": "seq", "verts": "geode or glass",
}


def explain(fault):
    """What a fault says, in words."""
    words = str(fault).split(" ")
    where = ""
    if words[0] == "at":
        where, words = f"edit {words[1]} of the buffer: ", words[3:]
    command = fault.edit.command
    if words[0] == "Kind":
        return where + _explain_kind(command, int(words[1]), fault.kind)
    if words[0] == "Many":
        return where + _explain_many(command, words[1])
    return where + EXPLANATIONS[words[0]].format(*words[1:])


def _explain_kind(command, name, kind):
    """What is wrong with a node that is not of the kind for an edit."""
    if command in WANTED:
        is_kind = "0 is the scene" if name == SCENE else f"{name} is of the kind {kind}"
        return f"node {is_kind}, and {command} is for a node of the kind {WANTED[command]}"
    if name == SCENE:
        return "the scene is nobody's child" if command != "delete" else "the scene cannot be deleted"
    return f"node {name} is of the kind {kind}, which has no children"


def _explain_many(command, count):
    """What is above a limit."""
    if command == "verts":
        return f"verts brings {count} triangles, and must bring as many as the geometry has"
    if command in MAKERS:
        return f"too many nodes: at most {limits.NODES:,} besides the scene"
    return f"too many children: at most {limits.CHILDREN} of one node"


class Node:
    """A node: its kind (the word that made it), its children and parents by their ids, and what its kind has."""

    def __init__(self, kind):
        self.kind = kind
        self.children, self.parents = (), ()
        self.height, self.size = 1, 1
        self.state = self.alpha = None
        self.corners = ()
        self.pick = "off"
        self.matrix, self.euler = None, None
        self.centre, self.ranges = (0, 0, 0), ()
        self.times, self.since, self.held = (), None, 0

    def copy(self):
        """A node with the same values, which are tuples and numbers."""
        twin = Node(self.kind)
        twin.__dict__.update(self.__dict__)
        return twin

    def is_geode(self):
        """Whether it is geometry, which has no children."""
        return self.kind in ("geode", "glass")

    def translation(self):
        """Where a coordinate system sets what is below it."""
        return self.euler[4:] if self.euler else self.matrix[9:]


class Graph:
    """The nodes by their ids, and the number of the frame that is being prepared."""

    def __init__(self):
        self.nodes = {SCENE: Node("group")}
        self.frame = 1
        self.changed = set()  # the nodes that an edit has touched since somebody last emptied this set

    def copy(self):
        """A graph of its own with the same nodes."""
        twin = Graph()
        twin.nodes = {name: node.copy() for name, node in self.nodes.items()}
        twin.frame, twin.changed = self.frame, set(self.changed)
        return twin

    def take_over(self, other):
        """Becomes what another graph is."""
        self.nodes, self.changed = other.nodes, other.changed

    def make(self, edit):
        """Makes an edit, or raises its Fault and changes nothing."""
        try:
            if edit.command in MAKERS:
                self._make_node(edit)
            else:
                getattr(self, "_" + edit.command)(edit)
        except Fault as fault:
            fault.edit = edit
            raise
        self.changed.add(edit.fields[0])

    def make_all(self, edits):
        """Makes all of these edits; at the first Fault, which it raises with its place, none of them."""
        trial = self.copy()
        for place, edit in enumerate(edits, 1):
            try:
                trial.make(edit)
            except Fault as fault:
                raise Fault(f"at {place} fault {fault}", fault.kind, edit) from None
        self.take_over(trial)

    def above(self, name):
        """The nodes on the way to a node from anywhere, and the node itself, each behind all that are below it."""
        order, seen = [], set()

        def visit(at):
            seen.add(at)
            for parent in self.nodes[at].parents:
                if parent not in seen:
                    visit(parent)
            order.append(at)
        visit(name)
        return order[::-1]

    # Nodes

    def _make_node(self, edit):
        name = edit.fields[0]
        if name in self.nodes:
            raise Fault(f"Taken {name}")
        if len(self.nodes) > limits.NODES:
            raise Fault(f"Many {limits.NODES + 1}")
        node = Node(edit.command)
        if edit.command == "scs":
            node.matrix = edit.fields[1:]
        elif edit.command == "dcs":
            node.euler = (limits.WHOLE, 0, 0, 0, 0, 0, 0)
        elif node.is_geode():
            node.state, node.corners = edit.fields[1], edit.corners
            node.alpha = edit.fields[2] if edit.command == "glass" else None
        self.nodes[name] = node

    def _there(self, *names):
        for name in names:
            if name not in self.nodes:
                raise Fault(f"Absent {name}")

    def _of_kind(self, name, *kinds):
        self._there(name)
        if self.nodes[name].kind not in kinds:
            raise Fault(f"Kind {name}", self.nodes[name].kind)
        return self.nodes[name]

    def _delete(self, edit):
        name, = edit.fields
        self._there(name)
        if name == SCENE:
            raise Fault(f"Kind {SCENE}")
        if self.nodes[name].parents:
            raise Fault(f"InUse {name}")
        for child in self.nodes[name].children:
            self._unlink(name, child)
        del self.nodes[name]

    # Links

    def _add(self, edit):
        parent, child = edit.fields
        self._may_hold(parent, child)
        self._link(parent, self.nodes[parent].children + (child,))

    def _insert(self, edit):
        parent, place, child = edit.fields
        self._may_hold(parent, child, place)
        children = self.nodes[parent].children
        self._link(parent, children[:place] + (child,) + children[place:])

    def _may_hold(self, parent, child, place=0):
        self._there(parent, child)
        self._may_be_below(parent, child, lambda: self._has_place(place, self.nodes[parent].children))
        if len(self.nodes[parent].children) == limits.CHILDREN:
            raise Fault(f"Many {limits.CHILDREN + 1}")

    def _may_be_below(self, parent, child, between):
        """Kind, then the rules between, then Cycle."""
        if self.nodes[parent].is_geode():
            raise Fault(f"Kind {parent}", self.nodes[parent].kind)
        if child == SCENE:
            raise Fault(f"Kind {SCENE}")
        between()
        if child in self.above(parent):
            raise Fault(f"Cycle {parent} {child}")

    def _replace(self, edit):
        parent, old, by = edit.fields
        self._there(parent, old, by)
        self._may_be_below(parent, by, lambda: self._is_child(parent, old))
        children = list(self.nodes[parent].children)
        children[children.index(old)] = by
        self._link(parent, tuple(children))

    def _remove(self, edit):
        parent, child = edit.fields
        self._there(parent, child)
        if self.nodes[parent].is_geode():
            raise Fault(f"Kind {parent}", self.nodes[parent].kind)
        self._is_child(parent, child)
        children = list(self.nodes[parent].children)
        children.remove(child)
        self._link(parent, tuple(children))

    def _is_child(self, parent, child):
        if child not in self.nodes[parent].children:
            raise Fault(f"NotChild {parent} {child}")

    @staticmethod
    def _has_place(place, things, last=limits.CHILDREN):
        if place > len(things) or place > last:
            raise Fault(f"Place {place}")

    def _link(self, name, children):
        """Gives a node these children, unless a chain or a node with all below it would become too large."""
        measures = self._measures(name, children)
        deepest = max(height for height, _ in measures.values())
        if deepest > limits.CHAIN:
            raise Fault(f"Deep {deepest}")
        if max(size for _, size in measures.values()) > limits.UNFOLDED:
            raise Fault("Large")
        for child in self.nodes[name].children:
            self._unlink(name, child)
        for child in children:
            self.nodes[child].parents += (name,)
        self.nodes[name].children = children
        for at, (height, size) in measures.items():
            self.nodes[at].height, self.nodes[at].size = height, size

    def _measures(self, name, children):
        """The heights and the unfolded sizes of a node and those above it, if it had these children."""
        measures = {}
        for at in self.above(name):
            below = children if at == name else self.nodes[at].children
            pairs = [measures.get(c) or (self.nodes[c].height, self.nodes[c].size) for c in below]
            measures[at] = (1 + max((h for h, _ in pairs), default=0), 1 + sum(s for _, s in pairs))
        return measures

    def _unlink(self, name, child):
        parents = list(self.nodes[child].parents)
        parents.remove(name)
        self.nodes[child].parents = tuple(parents)

    # What a kind has

    def _sw(self, edit):
        name, pick = edit.fields
        self._of_kind(name, "switch").pick = pick

    def _mat(self, edit):
        node = self._of_kind(edit.fields[0], "dcs")
        node.matrix, node.euler = edit.fields[1:], None

    def _pose(self, name):
        """A DCS's scale, angles and translation; those of a matrix are its translation alone."""
        node = self._of_kind(name, "dcs")
        node.euler = node.euler or (limits.WHOLE, 0, 0, 0, *node.matrix[9:])
        return node

    def _trans(self, edit):
        node = self._pose(edit.fields[0])
        node.euler = node.euler[:4] + edit.fields[1:]

    def _rot(self, edit):
        node = self._pose(edit.fields[0])
        node.euler = node.euler[:1] + edit.fields[1:] + node.euler[4:]

    def _scale(self, edit):
        node = self._pose(edit.fields[0])
        node.euler = edit.fields[1:] + node.euler[1:]

    def _centre(self, edit):
        self._of_kind(edit.fields[0], "lod").centre = edit.fields[1:]

    def _range(self, edit):
        name, place, value = edit.fields
        node = self._of_kind(name, "lod")
        self._has_place(place, node.ranges, limits.RANGES - 1)
        node.ranges = node.ranges[:place] + (value,) + node.ranges[place + 1:]

    def _times(self, edit):
        name, place, frames = edit.fields
        node = self._of_kind(name, "seq")
        self._has_place(place, node.times, limits.TIMES - 1)
        node.times = node.times[:place] + (frames,) + node.times[place + 1:]

    def _run(self, edit):
        node = self._of_kind(edit.fields[0], "seq")
        node.since = self.frame

    def _stop(self, edit):
        node = self._of_kind(edit.fields[0], "seq")
        if node.since is not None:
            node.held, node.since = running_place(node, self.frame) or 0, None

    def _verts(self, edit):
        name, count = edit.fields
        node = self._of_kind(name, "geode", "glass")
        if 3 * count != len(node.corners):
            raise Fault(f"Many {count}")
        node.corners = edit.corners


def running_place(node, frame):
    """The place that a running sequence shows at a frame, or None."""
    times = [node.times[k] if k < len(node.times) else 1 for k in range(len(node.children))]
    if not times:
        return None
    left = (frame - node.since) % sum(times)
    for place, time in enumerate(times):
        if left < time:
            return place
        left -= time
    return None
