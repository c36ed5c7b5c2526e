"""Fences: which merges of a play have more than one place among the application's lines.

A merge is free where behind the frame that it awaits stands an edit, a view or a frame that does not wait for it: the merge
may come before that line or after it. A play without a free merge is fenced, and its pictures are the same every time.
"""
import bisect
from typing import NamedTuple

from .reading import Step


class FreeMerge(NamedTuple):
    """A merge that may stand at several places: its number, counted from 1, its line, how many frames it awaits, and the
    first line of the application that it may come before or after."""

    number: int
    line: int
    awaited: int
    passed: Step


class _Own(NamedTuple):
    """An edit, a view or a frame: how many frames stand before it, for how many merges the waits before it ask, its step."""

    frames: int
    waited: int
    step: Step


def free_merges(play):
    """The free merges of a play, in their order."""
    own = list(_own_lines(play.application))
    return [FreeMerge(number, line, awaited, passed.step)
            for number, (line, awaited) in enumerate(_merges(play.dbase), 1)
            for passed in _first_behind(own, awaited) if passed.waited < number]


def is_fenced(play):
    """Whether no merge of a play is free."""
    return not free_merges(play)


def count_merges(play):
    """How many merges a play has."""
    return sum(step.edit.command == "merge" for step in play.dbase)


def _own_lines(application):
    frames = waited = 0
    for step in application:
        if step.edit.command == "wait":
            waited = max(waited, step.edit.fields[0])
        elif step.edit.command != "sync":
            yield _Own(frames, waited, step)
            frames += step.edit.command == "frame"


def _merges(dbase):
    """The line of each merge, and how many frames the awaits before it ask for."""
    awaited = 0
    for step in dbase:
        if step.edit.command == "await":
            awaited = max(awaited, step.edit.fields[0])
        elif step.edit.command == "merge":
            yield step.line, awaited


def _first_behind(own, frames):
    """The first line behind so many frames, if there is one. The waits only rise, so no later one waits for less."""
    at = bisect.bisect_left(own, frames, key=lambda line: line.frames)
    return own[at:at + 1]
