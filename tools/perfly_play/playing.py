"""Plays a play without drawing it: makes its edits in their order, and stops at each frame."""
from typing import NamedTuple

from .forms import Edit, line
from .graph import SCENE, Fault, Graph, explain
from .sight import View


class Refusal(NamedTuple):
    """An edit that could not be made: the line of the play, its text, its fault, that fault in words, and whether it was
    refused in a buffer, which drops it and goes on."""

    line: int
    text: str
    fault: str
    told: str
    is_dropped: bool

    def __str__(self):
        return f"line {self.line}: {self.text}: {self.told}" + (" (its buffer drops it)" if self.is_dropped else "")


class Stuck(Exception):
    """The play never ends: the lines at which the application and DBASE wait, 0 where one is over."""

    def __init__(self, application, dbase, has_dbase=True):
        merge = f"line {application} waits for a merge"
        frame = f"line {dbase} awaits a frame"
        if application and dbase:
            why = f"{merge}, and {frame} that comes behind it"
        elif application:
            why = f"{merge} that never comes, " + ("since DBASE is over" if has_dbase else "since there is no section dbase")
        else:
            why = f"{frame} that never comes, since the application is over"
        super().__init__(f"the play never ends: {why}")


class Playing:
    """A play under way: its graph, the view of each channel, and the edits that were refused so far.

    DBASE is played as far as it goes before each frame and at each wait; where nothing in a play fixes the place of a
    merge, perfly may make it earlier or later.
    """

    def __init__(self, play):
        self.play = play
        self.graph = Graph()
        self.views = [View()] * play.head.channels
        self.refusals = []
        self.begun = self.merged = 0
        self.greatest = {"nodes": 0, "children": 0, "chain": 1, "unfolded": 1}
        self.dbase = iter(play.dbase)
        self.next_of_dbase = next(self.dbase, None)

    def frames(self):
        """Plays; yields the number of each frame as the scene stands that it draws."""
        for step in self.play.application:
            if step.edit.command == "frame":
                self._play_dbase()
                self.begun += 1
                yield self.begun
                self.graph.frame += 1
            else:
                self._play_line(step)
        self._play_dbase()
        if self.next_of_dbase:
            raise Stuck(0, self.next_of_dbase.line)

    def to_end(self):
        """Plays all frames; returns the edits that were refused."""
        for _ in self.frames():
            pass
        return self.refusals

    def _play_line(self, step):
        command, fields = step.edit.command, step.edit.fields
        if command == "view":
            self.views[0] = View(*fields)
        elif command == "cview":
            self.views[fields[0]] = View(*fields[1:])
        elif command == "wait":
            self._play_dbase()
            if self.merged < fields[0]:
                raise Stuck(step.line, self.next_of_dbase.line if self.next_of_dbase else 0, bool(self.play.dbase))
        elif command != "sync":
            self._try(step, lambda: self.graph.make(step.edit))

    def _try(self, step, act, is_in_buffer=False):
        """Does what makes an edit; answers whether it was made."""
        try:
            act()
        except Fault as fault:
            self.refusals.append(Refusal(step.line, line(step.edit), str(fault), explain(fault), is_in_buffer))
            return False
        self._measure(step.edit)
        return True

    def _measure(self, edit):
        """Keeps the greatest numbers that the scene has had."""
        nodes = self.graph.nodes
        touched = nodes.values() if edit.command == "merge" else [nodes.get(edit.fields[0], nodes[SCENE])]
        now = {"nodes": len(nodes) - 1, "children": max(len(node.children) for node in touched),
               "chain": nodes[SCENE].height, "unfolded": nodes[SCENE].size}
        self.greatest = {name: max(now[name], before) for name, before in self.greatest.items()}

    def _play_dbase(self):
        while (step := self.next_of_dbase) and not self._has_to_wait(step.edit):
            self._take_dbase()
            if step.edit.command == "buffer":
                self._fill_buffer()

    def _has_to_wait(self, edit):
        return edit.command == "await" and edit.fields[0] > self.begun

    def _take_dbase(self):
        step, self.next_of_dbase = self.next_of_dbase, next(self.dbase, None)
        return step

    def _fill_buffer(self):
        """Plays a buffer up to its merge."""
        own, edits = Graph(), []
        while (step := self._take_dbase()).edit.command != "merge":
            if step.edit.command in ("badd", "bremove"):
                edits.append(Edit(step.edit.command[1:], step.edit.fields))
                continue
            if self._try(step, lambda: own.make(step.edit), is_in_buffer=True):
                edits.append(step.edit)
        self._try(step, lambda: self.graph.make_all(edits))
        self.merged += 1
