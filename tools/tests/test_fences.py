"""Which merges are free: as crates/play_fences has it, as the documents say, and as counting out all orders of a play does."""
import random
import re
import subprocess
import sys
import unittest

from perfly_play.fences import free_merges, is_fenced
from perfly_play.playing import Playing, Stuck
from perfly_play.reading import read_play

from .rows import TOP, read_rows
from .test_tools import run

HEAD = "perfly 1\nsize 2 2\nlens 1 1 1073741823\nback 10 20 30\napp\n"
CRATE_TESTS = TOP / "crates" / "play_tests" / "src" / "fences.rt"


def text_of(application, dbase):
    """The text of a play of these lines."""
    return (HEAD + "".join(f"{line}\n" for line in (*application, "dbase", *dbase))).encode()


def play_of(application, dbase):
    """A play of these lines."""
    return read_play(text_of(application, dbase))


def look(application, dbase):
    """What tools/look says last of a play of these lines."""
    return run("look", given=text_of(application, dbase)).stdout.decode().split("\n\n")[-1]


def free_numbers(play):
    """The numbers of the free merges."""
    return [merge.number for merge in free_merges(play)]


def orders(application, merges, entries=0, own=0, frames=0, places=()):
    """All orders of a play to its end, by the rules of docs/specification/history.md: for each order, behind how many edits,
    views and frames each merge stands. Of the application's entries stand here the command and how many merges it wants before
    it, of the merges how many frames each wants before it."""
    if entries == len(application) and len(places) == len(merges):
        yield places
    if entries < len(application) and application[entries][1] <= len(places):
        command = application[entries][0]
        yield from orders(application, merges, entries + 1, own + (command != "sync"), frames + (command == "frame"), places)
    if len(places) < len(merges) and merges[len(places)] <= frames:
        yield from orders(application, merges, entries, own, frames, (*places, own))


def asked_of(steps, waiting, is_entry):
    """The entries of a section, each with the greatest number of the lines `waiting` before it, and that of them all."""
    asked, need = [], 0
    for edit in (step.edit for step in steps):
        if edit.command == waiting:
            need = max(need, *edit.fields)
        elif is_entry(edit.command):
            asked.append((edit.command, need))
    return asked, need


def places_of(play):
    """For each merge all its places, in the orders of the play to its end; None where there is no such order."""
    application, last = asked_of(play.application, "wait", lambda command: True)
    merges, _ = asked_of(play.dbase, "await", lambda command: command == "merge")
    found = set(orders([*application, ("sync", last)], [need for _, need in merges]))
    return [set(places) for places in zip(*found)] if found else None


def is_stuck(play):
    """Whether the play never ends."""
    try:
        list(Playing(play).frames())
    except Stuck:
        return True
    return False


def any_play(rolls):
    """A small play, of lines that are picked by chance."""
    application = [rolls.choice(("group", "view 0 0 0 0 0 0", "frame", "frame", "sync", "wait")) for _ in range(rolls.randrange(9))]
    application = [f"group {k + 1}" if line == "group" else f"wait {rolls.randrange(4)}" if line == "wait" else line
                   for k, line in enumerate(application)]
    dbase = []
    for _ in range(rolls.randrange(4)):
        dbase += [f"await {rolls.randrange(4)}"] * rolls.randrange(2) + ["buffer", "merge"]
    return play_of(application, dbase)


class Rule(unittest.TestCase):
    def test_crate(self):
        cases = re.findall(r'let text =\s*"(.*?)";\s*assert_eq!\(rt; answer\(rt.alloc\(\), text\), '
                           r"Some\(\((true|false), (?:None|Some\((\d+)\))\)\)\);", CRATE_TESTS.read_text())
        self.assertGreaterEqual(len(cases), 2)
        for text, fenced, first in cases:
            with self.subTest(text):
                play = read_play(text.replace("\\n", "\n").encode())
                self.assertEqual(is_fenced(play), fenced == "true")
                self.assertEqual(free_numbers(play)[:1], [int(first)] if first else [])

    def test_examples(self):
        plays = sorted((TOP / "examples").glob("*.play"))
        self.assertGreater(len(plays), 10)
        for play in plays:
            with self.subTest(play.name):
                self.assertTrue(is_fenced(read_play(play.read_bytes())))

    def test_town(self):
        text = subprocess.run([sys.executable, "-B", TOP / "bench" / "plays.py", "town", "2"], capture_output=True, check=True).stdout
        play = read_play(text)
        playing = Playing(play)
        self.assertEqual(list(playing.frames()), [1, 2])
        self.assertEqual((playing.refusals, playing.merged), ([], 1))
        self.assertTrue(is_fenced(play))

    def test_rows(self):
        fenced = {row.name: is_fenced(read_play(row.text)) for row in read_rows() if "merge" in row.name and row.told[0][:6] != "perfly"}
        self.assertTrue(fenced["a merge between two frames"])
        self.assertFalse(fenced["a merge that nothing waits for"])

    def test_fences(self):
        merge, frame = ["buffer", "merge"], ["frame"]
        for application, dbase, free in (
                (frame, [], []),  # no merges
                (frame, merge, [1]),  # before the frame or behind it
                ([*frame, "sync"], ["await 1", *merge], []),  # behind the last frame
                ([*frame, "group 1"], ["await 1", *merge], [1]),
                ([*frame, "sync", "wait 2", "frame"], ["await 1", *merge, *merge], []),  # two behind one fence
                (["wait 1", *frame], merge + merge, [2]),
                ([*frame, "wait 2", *frame], ["await 1", *merge, *merge, *merge], [3]),
                ([*frame, *frame, "wait 1"], ["await 2", "await 1", *merge], [])):
            with self.subTest((application, dbase)):
                self.assertEqual(free_numbers(play_of(application, dbase)), free)

    def test_all_orders(self):
        rolls, seen = random.Random(20), {"fenced": 0, "free": 0, "stuck": 0}
        for _ in range(6000):
            play = any_play(rolls)
            places = places_of(play)
            self.assertEqual(is_stuck(play), places is None, play)
            if places is None:
                seen["stuck"] += 1
                continue
            free = [number for number, found in enumerate(places, 1) if len(found) > 1]
            self.assertEqual(free_numbers(play), free, play)
            own = [step.line for step in play.application if step.edit.command not in ("wait", "sync")]
            for merge in free_merges(play):
                self.assertEqual(min(places[merge.number - 1]), own.index(merge.passed.line), play)
            seen["free" if free else "fenced"] += bool(places)
        self.assertGreater(min(seen.values()), 300)


class Look(unittest.TestCase):
    def test_documents(self):
        _, _, section = (TOP / "docs" / "PLAY.md").read_text().partition("## When pictures are the same every time\n")
        play, told = re.findall(r"```\n(.*?)```\n", section.partition("\n## ")[0], re.DOTALL)
        self.assertEqual(run("look", given=play.encode()).stdout.decode().split("\n\n")[-1], told)
        move, wait = "trans 7 0 4096 0\n", "wait 1\n"
        self.assertFalse(is_fenced(read_play(play.encode())))
        self.assertTrue(is_fenced(read_play(play.replace(move + wait, wait + move).encode())))

    def test_lines(self):
        merge = ["buffer", "merge"]
        self.assertEqual(look(["frame"], []), "fenced: no merges; the pictures are the same every time\n")
        self.assertEqual(look(["frame", "wait 1", "frame"], ["await 1", *merge]),
                         "fenced: 1 merge, each with a single place; the pictures are the same every time\n")
        self.assertEqual(look(["frame", "group 1", "wait 1"], ["await 1", *merge]),
                         "not fenced: 1 of 1 merge may come at several places; the pictures may differ\n"
                         "line 12: merge 1 awaits 1 frame, and line 7 does not wait for it: group 1\n")
