"""A scene that is drawn while a program edits it, over the built perfly_live, or the one that PERFLY_LIVE names."""
import pathlib
import tempfile
import threading
import unittest

from perfly_play import EditRefused, Live, LiveError, Play, PlayError, limits, shapes
from perfly_play.driving import Frame, Ids, Numbers, Reply
from perfly_play.forms import Edit
from perfly_play.live_text import LiveReader, play_of
from perfly_play.reading import read_play

from .programs import PERFLY, OverPerflyLive

RED = [shapes.triangle((-1, 10, -1), (1, 10, -1), (0, 10, 1), (255, 0, 0))]
GREEN = [shapes.triangle((-1, 20, -1), (1, 20, -1), (0, 20, 1), (0, 255, 0))]
MODES = "appculldraw", "app_culldraw", "appcull_draw", "app_cull_draw"


def turn(world, frame):
    """Eight frames of a triangle that comes, turns and goes; what a frame gives is returned."""
    given = []
    dcs = world.dcs(0)
    red = world.geode(dcs, 1, RED)
    for k in range(8):
        world.turn(dcs, 9 * k)
        world.look_at((0, -k, 0), (0, 10, 0))
        given.append(frame(world))
    world.remove(dcs, red)
    world.delete(red)
    given.append(frame(world))
    return given


class Driven(OverPerflyLive):
    def test_every_call(self):
        with Live(8, 6, channels=2, timeout=20) as world:
            geode = world.geode(None, 3, RED)
            group, switch, lod = world.group(0), world.switch(0), world.lod(0)
            sequence, layer, dcs = world.sequence(0), world.layer(0), world.dcs(0, 1, 2, 3)
            for parent in (group, switch, lod, sequence, layer, dcs, world.scs(0, 5, 0, 0, 2, 90)):
                world.add(parent, geode)
            pane = world.glass(group, 120, RED)
            world.insert(layer, 0, pane)
            world.replace(group, pane, geode)
            world.remove(layer, pane)
            world.delete(pane)
            world.pick(switch, "on")
            world.pick(switch, 0)
            world.turn(dcs, 370, 5, -5)
            world.scale(dcs, 1.5)
            world.set_matrix(dcs, (1, 0, 0, 0, 1, 0, 0, 0, 1), 4, 5, 6)
            world.set_ranges(lod, (0, 10, 0), (0, 100))
            world.set_times(sequence, 2)
            world.run(sequence)
            world.stop(sequence)
            world.set_triangles(geode, RED)
            with world.buffer() as block:
                block.ask_add(group, block.geode(None, 1, RED))
                block.ask_remove(group, geode)
            for channel in (0, 1):
                world.view(0, 0, 0, 90 * channel, channel=channel)
            world.sync()
            frame = world.frame()
            world.settle()
        self.assertEqual((frame.number, frame.width, frame.height, len(frame.data)), (1, 16, 6, 16 * 6 * 3))
        self.assertEqual([(piece.width, piece.height) for piece in frame.channels], [(8, 6)] * 2)

    def test_each_picture(self):
        """Waited for or not, in every mode: a picture is that of its own frame, and the words change none."""
        streams = []
        for words in [()] + [("--mode", mode, "--ahead", "3") for mode in MODES]:
            with Live(8, 6, words=words, timeout=20) as world:
                frames = turn(world, Live.frame)
                self.assertEqual([frame.number for frame in frames], list(range(1, 10)))
            streams.append([frame.ppm() for frame in frames])
            with Live(8, 6, words=words, timeout=20) as world:
                self.assertEqual(turn(world, lambda world: world.frame(wait=False)), [None] * 9)
                streams.append([frame.ppm() for frame in world.pictures()])
                self.assertEqual(list(world.pictures()), [])
        self.assertEqual([stream for stream in streams if stream != streams[0]], [])
        self.assertGreater(len(set(streams[0])), 4 if PERFLY else 1)

    @unittest.skipUnless(PERFLY, "perfly is not built")
    def test_as_perfly(self):
        """The pictures are those that perfly draws of the play of what was given."""
        play = Play(8, 6)
        turn(play, Play.frame)
        with tempfile.TemporaryDirectory() as folder:
            record = pathlib.Path(folder) / "session.live"
            with Live(8, 6, record=record, timeout=20) as world:
                frames = turn(world, Live.frame)
            text = play_of(LiveReader(record.read_bytes()))
        self.assertEqual(text.partition(b"app\n")[2], play.text().encode().partition(b"app\n")[2])
        self.assertEqual([frame.ppm() for frame in frames], [image.ppm() for image in play.pictures()])

    def test_told(self):
        """Serials, and which of them are freed."""
        with Live(8, 6, timeout=20) as world:
            group, red = world.group(0), world.geode(None, 1, RED)
            with world.buffer() as block:
                block.ask_add(group, block.geode(None, 2, GREEN))
            world.add(group, red)
            self.assertEqual([world.serial(node) for node in (0, group, red, 3)], [0, 1, 2, 3])
            self.assertEqual(world.frame().number, 1)
            world.remove(group, red)
            world.delete(red)
            with self.assertRaisesRegex(PlayError, "no node 99"):
                world.serial(99)
            world.frame()
            world.frame()
            world.sync()
            world.settle()
            self.assertEqual((world.take_freed(), world.take_freed()), ([2], []))

    @unittest.skipUnless(PERFLY, "perfly is not built")
    def test_numbers(self):
        with Live(8, 6, timeout=20) as world:
            world.geode(0, 1, RED)
            frame = world.frame()
            self.assertEqual((frame.shown, frame.states, frame.visited), (1, 1, 2))

    def test_replies(self):
        with Live(8, 6, timeout=20) as world:
            world.add(0, 77)
            self.assertEqual((world.reply().fault, world.reply().is_ok), ("Absent 77", False))
            group = world.group(0)
            self.assertEqual((str(world.reply()), world.reply().is_ok), (f"add 0 {group}: ok", True))
            with world.buffer() as block:
                block.ask_add(78, block.group(None))
            self.assertEqual((world.reply().line, world.reply().fault), ("merge 2 0", "at 2 fault Absent 78"))
            world.frame()
            world.delete(79)
            world.add(0, 80)
            with self.assertRaisesRegex(EditRefused, "^refused: delete 79: Absent 79; add 0 80: Absent 80$") as raised:
                world.frame()
            self.assertEqual([reply.fault for reply in raised.exception.replies], ["Absent 79", "Absent 80"])
            self.assertEqual(world.frame().number, 3)
        with self.assertRaises(EditRefused), Live(8, 6, timeout=20) as world:
            world.add(0, 77)
        with Live(8, 6, strict=False, timeout=20) as world:
            world.add(0, 77)
            world.frame()
            self.assertEqual([reply.fault for reply in world.take_refused()], ["Absent 77"])

    def test_blocks_of_threads(self):
        """Threads build blocks while frames are drawn; each block comes whole."""
        def build():
            for _ in range(5):
                with world.buffer() as block:
                    tile = block.dcs(None)
                    block.geode(tile, 1, RED)
                    block.ask_add(ground, tile)
                replies.append(world.reply())

        replies = []
        with Live(8, 6, timeout=30) as world:
            ground = world.group(0)
            threads = [threading.Thread(target=build) for _ in range(3)]
            for thread in threads:
                thread.start()
            while any(thread.is_alive() for thread in threads):
                world.frame()
            for thread in threads:
                thread.join()
            world.frame()
        self.assertEqual([reply.is_ok for reply in replies], [True] * 15)

    def test_dropped_block(self):
        with Live(8, 6, timeout=20) as world:
            with self.assertRaises(ZeroDivisionError), world.buffer() as block:
                block.group(None)
                1 / 0
            world.frame()
            self.assertEqual(world.serial(world.group(0)), 1)

    def test_exception_ends_it(self):
        with self.assertRaises(ZeroDivisionError), Live(8, 6, timeout=20) as world:
            world.frame()
            1 / 0
        with self.assertRaisesRegex(LiveError, "was closed"):
            world.group(0)

    def test_pictures_behind_the_end(self):
        with Live(8, 6, timeout=20) as world:
            for _ in range(3):
                world.frame(wait=False)
        self.assertEqual([frame.number for frame in world.pictures()], [1, 2, 3])

    def test_much_at_once(self):
        """More is given and told than pipes hold."""
        with Live(64, 48, timeout=60) as world:
            dcs = world.dcs(0)
            for k in range(20000):
                world.move(dcs, k % 100, 0, 0)
                if k % 500 == 0:
                    world.frame(wait=False)
            self.assertEqual(len(list(world.pictures())), 40)

    def test_slips(self):
        """What is refused at its call is not given."""
        with Live(8, 6, timeout=20) as world:
            for act, told in ((lambda: world.view(0, 0, 0, channel=1), "no channel 1"),
                              (lambda: world.dcs(0, 300000), "x is"),
                              (lambda: world.geode(0, 0, RED * 4097), "triangles is 4097"),
                              (lambda: world.group(0, node=0), "id is 0"),
                              (lambda: world.pick(1, "left"), "what is shown is 'left'")):
                with self.subTest(told), self.assertRaisesRegex(PlayError, told):
                    act()
            world.frame()
        with self.assertRaisesRegex(LiveError, "status 1: perfly: words"):
            with Live(8, 6, words=("--mode", "none"), timeout=20) as world:
                world.frame()


class Broken(unittest.TestCase):
    def setUp(self):
        folder = tempfile.TemporaryDirectory()
        self.addCleanup(folder.cleanup)
        self.program = pathlib.Path(folder.name) / "program"

    def error_of(self, script, **words):
        """What is raised where the program is this script."""
        self.program.write_text("#!/bin/sh\n" + script)
        self.program.chmod(0o755)
        with self.assertRaises(LiveError) as raised, Live(8, 6, program=self.program, **words) as world:
            world.group(0)
            world.frame()
        return raised.exception

    def test_missing(self):
        with self.assertRaisesRegex(LiveError, "there is no program /nowhere"):
            Live(8, 6, program="/nowhere")

    def test_ended(self):
        error = self.error_of("head -n 7 > /dev/null; echo perfly: no memory >&2; exit 7")
        self.assertEqual((str(error), error.status), ("perfly_live ended with status 7: perfly: no memory", 7))
        self.assertIn("status 3: it said nothing", str(self.error_of("exit 3")))

    def test_cut(self):
        self.assertIn("the stream ends inside a picture", str(self.error_of("printf 'P6\\n8 6\\n255\\nabc'")))

    def test_wrong_entry(self):
        error = self.error_of("head -n 7 > /dev/null; echo 'app group 9 : ok' >&2; cat > /dev/null")
        self.assertIn("'app group 9 : ok' is told, where 'group 1' is due", str(error))

    def test_hangs(self):
        error = self.error_of("exec sleep 100", timeout=0.3)
        self.assertEqual(str(error), "the picture of frame 1 does not come: for 0.3 seconds nothing did")
        with self.assertRaisesRegex(LiveError, "^what was given is not taken: for 0.3 seconds nothing was$"), \
                Live(8, 6, program=self.program, timeout=0.3) as world:
            for _ in range(20000):
                world.sync()


class Parts(unittest.TestCase):
    def test_ids(self):
        """Ids are given out once, and again when their nodes were deleted or not made."""
        def told(command, node, fault=None):
            reply = Reply("", edits=[Edit(command, (node,))])
            reply.fault = fault
            ids.note(reply)

        ids = Ids()
        self.assertEqual([ids.take(None), ids.take(2), ids.take(None)], [1, 2, 3])
        for node in (1, 2, 3):
            told("group", node, "Many 4097" if node == 3 else None)
        told("delete", 1)
        told("delete", 2, "InUse 2")
        self.assertEqual(ids.serials, {0: 0, 2: 2})
        for _ in range(limits.IDENTIFIER - 3):
            ids.take(None)
        self.assertEqual([ids.take(None), ids.take(None), ids.take(None)], [3, 1, None])

    def test_chosen_ids(self):
        """A chosen id that comes and goes leaves nothing behind."""
        ids = Ids()
        for serial in range(1, 4):
            self.assertEqual(ids.take(7), 7)
            ids.note(Reply("", edits=[Edit("group", (7,))]))
            self.assertEqual(ids.serials, {0: 0, 7: serial})
            ids.note(Reply("", edits=[Edit("delete", (7,))]))
        self.assertEqual((list(ids._spare), ids._used, ids.serials), ([7], set(), {0: 0}))
        self.assertEqual([ids.take(None) for _ in range(8)], list(range(1, 9)))

    def test_frame(self):
        """The bytes of a frame, its rows and its array say the same."""
        numbers = Numbers(1, 0, 0, 1, None)
        one, two = (2, 2, bytes(range(12))), (1, 2, bytes(range(12, 18)))
        frame = Frame([one], numbers)
        self.assertEqual((b"".join(frame.rows), frame.channels), (frame.data, [frame]))
        wide = Frame([one, two], numbers)
        self.assertEqual((wide.width, wide.rows[1]), (3, bytes((6, 7, 8, 9, 10, 11, 15, 16, 17))))
        self.assertEqual(wide.ppm(), b"P6\n3 2\n255\n" + wide.data)
        try:
            import numpy
        except ImportError:
            self.skipTest("no numpy here")
        self.assertEqual(numpy.asarray(wide).shape, (2, 3, 3))
        self.assertEqual(numpy.asarray(wide)[1, 2].tolist(), [15, 16, 17])


class Record(OverPerflyLive):
    def test_record(self):
        with tempfile.TemporaryDirectory() as folder:
            record = pathlib.Path(folder) / "session.live"
            with Live(8, 6, record=record, timeout=20) as world:
                group = world.group(0)
                with world.buffer() as block:
                    block.ask_add(group, block.geode(None, 1, RED))
                world.frame()
            play = read_play(play_of(LiveReader(record.read_bytes())))
        self.assertEqual([step.edit.command for step in play.application], ["group", "add", "wait", "frame"])
        self.assertEqual([step.edit.command for step in play.dbase], ["buffer", "geode", "badd", "merge"])


if __name__ == "__main__":
    unittest.main()
