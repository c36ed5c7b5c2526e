"""A play that is written reads as a play, and what perfly would refuse is refused at the call."""
import math
import pathlib
import tempfile
import unittest

from perfly_play import Play, PlayError, RenderError, limits, shapes, sight
from perfly_play.playing import Playing
from perfly_play.reading import read_play
from perfly_play.writing import direction

from .rows import TOP

CORNERS = ((0, 0, 0), (1, 0, 0), (0, 0, 1))
DRAWS = TOP / "tools" / "tests" / "data" / "draws"

RED = [shapes.triangle((-1, 10, -1), (1, 10, -1), (0, 10, 1), (255, 0, 0))]


class Written(unittest.TestCase):
    def test_every_call(self):
        play = Play(32, 24, channels=2)
        geode = play.geode(None, 3, RED)
        group, switch, lod = play.group(0), play.switch(0), play.lod(0)
        sequence, layer, dcs = play.sequence(0), play.layer(0), play.dcs(0, 1, 2, 3)
        for parent in (group, switch, lod, sequence, layer, dcs, play.scs(0, 5, 0, 0, 2, 90)):
            play.add(parent, geode)
        pane = play.glass(group, 120, RED)
        play.insert(layer, 0, pane)
        play.replace(group, pane, geode)
        play.remove(layer, pane)
        play.delete(pane)
        play.pick(switch, "on")
        play.pick(switch, 0)
        play.turn(dcs, 370, 5, -5)
        play.scale(dcs, 1.5)
        play.set_matrix(dcs, (1, 0, 0, 0, 1, 0, 0, 0, 1), 4, 5, 6)
        play.set_ranges(lod, (0, 10, 0), (0, 100))
        play.set_times(sequence, 2)
        play.run(sequence)
        play.stop(sequence)
        play.set_triangles(geode, RED)
        play.dbase.await_frame(1)
        with play.dbase.buffer() as buffer:
            buffer.ask_add(group, buffer.geode(None, 1, RED))
            buffer.ask_remove(group, geode)
        for channel in (0, 1):
            play.view(0, 0, 0, 90 * channel, channel=channel)
        play.frame()
        play.wait(1)
        play.sync()
        play.frame()
        playing = Playing(read_play(play.text().encode()))
        self.assertEqual(list(playing.frames()), [1, 2])
        self.assertEqual(playing.refusals, [])
        self.assertEqual(playing.graph.nodes[dcs].translation(), (4 * 4096, 5 * 4096, 6 * 4096))

    def test_version(self):
        self.assertTrue(Play(8, 8).text().startswith("perfly 1\n"))
        play = Play(8, 8)
        play.glass(0, 100, RED)
        self.assertTrue(play.text().startswith("perfly 2\n"))


class Looking(unittest.TestCase):
    def test_signs(self):
        """A positive heading turns left, a positive pitch up, a positive roll lowers the right side."""
        self.assertEqual(sight.carry_point(sight.heading(900), (0, 5, 0)), (-5, 0, 0))
        self.assertEqual(sight.carry_point(sight.pitch(900), (0, 5, 0)), (0, 0, 5))
        self.assertEqual(sight.carry_point(sight.roll(900), (5, 0, 0)), (0, 0, -5))

    def test_look_at(self):
        for target, turns in (((0, 9, 0), (0, 0)), ((-9, 0, 0), (90, 0)), ((9, 0, 0), (-90, 0)), ((0, 9, 9), (0, 45)),
                              ((0, 0, -9), (0, -90)), ((0, -9, 0), (180, 0))):
            for found, due in zip(direction((1, 2, 3), tuple(a + b for a, b in zip((1, 2, 3), target))), turns):
                self.assertAlmostEqual(math.cos(math.radians(found - due)), 1)
        play = Play(8, 8, channels=2)
        play.look_at((1, 2, 3), (1, 2 - 4, 3 + 4), roll=10, channel=1)
        self.assertEqual(play.lines, ["cview 1 4096 8192 12288 1800 450 100"])


class Drawn(unittest.TestCase):
    def test_pictures(self):
        play = Play(4, 2, channels=2)
        for _ in range(3):
            play.frame()
            play.frame()
        images = list(play.pictures("--ahead", "2", smooth=2, program=DRAWS))
        self.assertEqual([(image.width, image.height, image.rows[1][0], image.rows[1][-3]) for image in images],
                         [(8, 2, 1, 2), (8, 2, 3, 4), (8, 2, 5, 6)])
        with self.assertRaisesRegex(RenderError, "no program /nowhere"):
            list(play.pictures(program="/nowhere"))

    def test_written(self):
        with tempfile.TemporaryDirectory() as folder:
            path = pathlib.Path(folder) / "one.play"
            play = Play(4, 2)
            play.write(path)
            self.assertEqual(path.read_text(), play.text())
            image = next(iter(shapes_of_one_frame().pictures(program=DRAWS)))
            image.write(path.with_suffix(".ppm"))
            self.assertEqual(path.with_suffix(".ppm").read_bytes(), b"P6\n4 2\n255\n" + bytes((1, 0, 0)) * 8)


def shapes_of_one_frame():
    """A play of a triangle and a frame."""
    play = Play(4, 2)
    play.geode(0, 0, RED)
    play.frame()
    return play


class Refused(unittest.TestCase):
    def test_numbers(self):
        with self.assertRaisesRegex(PlayError, "width is 1025"):
            Play(1025, 10)
        with self.assertRaisesRegex(PlayError, "red is 256"):
            Play(8, 8).geode(0, 0, [shapes.triangle((0, 0, 0), (1, 0, 0), (0, 0, 1), (256, 0, 0))])
        with self.assertRaisesRegex(PlayError, "no channel 1"):
            Play(8, 8).view(0, 0, 0, channel=1)
        with self.assertRaisesRegex(PlayError, "x is"):
            Play(8, 8).dcs(0, 300000, 0, 0)

    def test_faults(self):
        play = Play(8, 8)
        group, geode = play.group(0), play.geode(0, 0, RED)
        with self.assertRaisesRegex(PlayError, "there is no node 9"):
            play.add(group, 9)
        with self.assertRaisesRegex(PlayError, "of the kind geode, which has no children"):
            play.add(geode, group)
        with self.assertRaisesRegex(PlayError, "still has a parent"):
            play.delete(group)
        with self.assertRaisesRegex(PlayError, "is in use"):
            play.group(0, node=group)

    def test_slips(self):
        play = Play(8, 8)
        box = shapes.box(0, 10, 0, 1, 1, 1, (9, 9, 9))
        geode, switch = play.geode(0, 0, box), play.switch(0)
        before = play.text()
        for act, told in ((lambda: play.pick(switch, True), "what is shown is True"),
                          (lambda: play.pick(switch, "left"), "what is shown is 'left'"),
                          (lambda: play.set_triangles(geode, box[:2]), "brings 2 triangles, and must bring as many"),
                          (lambda: play.move(geode, 0, 0, 0), "of the kind geode, and trans is for a node of the kind dcs"),
                          (lambda: play.geode(1, box, 0), "the triangles are 0, and must be a list"),
                          (lambda: play.geode(0, box, box), "state is "),
                          (lambda: play.geode(0, 0, [(1, 2)]), "must be three corners"),
                          (lambda: play.geode(0, 0, [shapes.triangle(*CORNERS[:2], (0, 0, "1"), (9, 9, 9))]), "a length is '1'"),
                          (lambda: play.geode(0, 0, [shapes.triangle(*CORNERS, (0.5, 0, 0))]), "red is 0.5"),
                          (lambda: play.view(0, math.nan, 0), "a length is nan"),
                          (lambda: play.view(0, 0, 0, channel=-1), "no channel -1"),
                          (lambda: play.turn(geode, "left"), "an angle is 'left'"),
                          (lambda: play.scale(geode, None), "is None"),
                          (lambda: play.group(0, node=[]), "id is \\[\\]"), (lambda: play.wait("1"), "number is '1'")):
            with self.subTest(told), self.assertRaisesRegex(PlayError, told):
                act()
        self.assertEqual(play.text(), before)

    def test_limits(self):
        with self.assertRaisesRegex(PlayError, "triangles is 4097"):
            Play(8, 8).geode(0, 0, RED * 4097)
        play = Play(8, 8)
        for _ in range(limits.CHILDREN):
            play.group(0)
        with self.assertRaisesRegex(PlayError, "too many"):
            play.group(0)
        deep, parent = Play(8, 8), 0
        with self.assertRaisesRegex(PlayError, "a chain of 33 nodes"):
            for _ in range(limits.CHAIN):
                parent = deep.group(parent)

    def test_merges(self):
        play = Play(8, 8)
        with self.assertRaisesRegex(PlayError, "write it first"):
            play.wait(1)
        with play.dbase.buffer() as buffer:
            buffer.ask_add(77, buffer.group(None))
        with self.assertRaisesRegex(PlayError, "edit 2 of the buffer: there is no node 77"):
            play.text()
