"""examples/simulator: the laws of its flight model and of its tiles, and a recorded flight."""
import hashlib
import math
import pathlib
import random
import re
import subprocess
import sys
import tempfile
import time
import unittest
from unittest import mock

from perfly_play import Live

from . import flying
from .programs import PERFLY, PERFLY_LIVE, OverPerflyLive

from simulator import aeroplane, keys, land, paging, scene
from simulator.aeroplane import RATE, UNIT, WHEELS, Aeroplane, per_second
from simulator.flight import Flight, start_world

SINES = "869aa3db2e707588"
# Of flight.keys; where the land or the model is changed, start --sum tells them anew.
COMMANDS = "52ecddb565bce67330d290497219463606757f0d1320d11c8562b67e1ab7eaae"
PICTURES = "e75cf659454d1f65e3d256a57992f3d62af37a1dc92651fcaf9dfa203bfee616"  # of an independent reading of the rules
LAND = land.Land()


def sums_of(*words, program=flying.STAND_IN):
    """What the recorded flight's run tells, by name."""
    call = [sys.executable, "-B", flying.START, "--sum", "--fly", flying.KEYS, *words]
    done = subprocess.run(call, capture_output=True, check=True, timeout=1000, text=True, env={"PERFLY_LIVE": str(program)})
    return dict(re.findall(r"^(commands|pictures) (\w+)$", done.stdout, re.MULTILINE))


def at(x, y, above, speed, **words):
    """An aeroplane that flies at a place in units, so far above the ground, with so many units a second."""
    plane = Aeroplane(LAND, x * UNIT, y * UNIT, speed=per_second(speed), is_rolling=False, **words)
    plane.z += round(above * UNIT)
    return plane


class Model(unittest.TestCase):
    def test_same_everywhere(self):
        """Sines, and where the recorded flight ends."""
        self.assertEqual(hashlib.sha256(repr(aeroplane.SINES).encode()).hexdigest()[:16], SINES)
        plane = Aeroplane(LAND)
        for held in keys.read_flight(flying.KEYS):
            plane.step(held)
        self.assertEqual((plane.x, plane.y, plane.z, plane.heading), (26523, 5024934, 614035, 4089))

    def test_never_below(self):
        """Whatever is held, the wheels are never below the ground; a crash is the end, and lies upon it."""
        for seed in range(8):
            chance, plane, held = random.Random(seed), Aeroplane(LAND), set()
            for tick in range(1200):
                if tick % 15 == 0:
                    held = set(chance.sample(aeroplane.KEYS[:-2], 2)) | ({"faster"} if chance.random() < 0.8 else set())
                before = vars(plane).copy()
                plane.step(held)
                self.assertGreaterEqual(plane.z, plane.floor(), (seed, tick))
                self.assertGreaterEqual(plane.speed, 0)
                if before["crash"]:
                    self.assertEqual(vars(plane), before)
                    break

    def test_takes_off_and_lands(self):
        plane = Aeroplane(LAND)
        self.assertEqual(plane.state(), "ready on the runway")
        for _ in range(130):
            plane.step({"faster"})
        self.assertEqual(plane.state(), "rolling on the runway")
        for _ in range(30):
            plane.step({"pull"})
        self.assertEqual(plane.state(), "flying")
        plane = at(0, 90, 3, 34)
        for _ in range(60):
            plane.step({"push"} if plane.pitch > -400 else ())
        self.assertEqual((plane.state(), plane.landings), ("rolling on the runway", 1))
        for _ in range(200):
            plane.step({"brake"})
        self.assertEqual(plane.state(), "landed on the runway")

    def test_crashes(self):
        for plane, held, why in ((at(0, 300, 60, 40), {"push"}, "touched down too hard"),
                                 (at(0, 300, 1, 40, pitch=-300), {"left"}, "a wing met the ground"),
                                 (at(0, 925, 5, 40), {"push"}, "fell into the lake"),
                                 (at(60, 300, 5, 50, heading=270 * 100), (), "met a hill"),
                                 (at(99_999, 300, 900, 50, heading=270 * 100), (), "left the known land")):
            with self.subTest(why):
                for _ in range(20 * RATE):
                    plane.step(held)
                self.assertEqual((plane.crash, plane.state(), plane.speed), (why, f"crashed: {why}", 0))

    def test_ground(self):
        """At the corners of the grid the ground is the valley's, and between them it has no steps."""
        for i, j in ((0, 0), (5, -3), (-7, 12)):
            self.assertEqual(land.ground(25 * i * UNIT, 25 * j * UNIT), round(land.make.valley_height(25 * i, 25 * j) * UNIT))
        across = [land.ground(x * UNIT // 4, 777 * UNIT + 5) for x in range(-1200, 1200)]
        self.assertLess(max(abs(a - b) for a, b in zip(across, across[1:])), UNIT)
        self.assertEqual([LAND.kind(x * UNIT, y * UNIT) for x, y in ((0, 100), (40, 100), (0, 925), (200, 300))],
                         ["runway", "field", "lake", "hill"])


class Tiles(unittest.TestCase):
    @staticmethod
    def group(section, place):
        """A tile of two groups."""
        made = land.Numbered(section, land.ids_of(place))
        made.group(made.group(None))
        return made

    def fly(self, world, pager, ticks):
        """Turns a pager along a winding way; yields each middle."""
        x = y = 0
        pager.fill(x, y)
        for tick in range(ticks):
            heading = 36 * tick + 6000 * (tick // 400)
            x -= scene.ratio(24 * UNIT * aeroplane.sine(heading), aeroplane.WHOLE)
            y += scene.ratio(24 * UNIT * aeroplane.cosine(heading), aeroplane.WHOLE)
            pager.turn((x, y), (x, y + 300 * UNIT))
            world.frame()
            yield land.tile_at(x, y)

    def test_laws(self):
        """There are never too many tiles; what is deleted is freed, each serial once, and nothing else."""
        freed = []
        with Live(2, 2, program=flying.STAND_IN) as world:
            take = world.take_freed
            world.take_freed = lambda: freed.extend(some := take()) or some
            pager = paging.Pager(world, world.group(0), self.group)
            for middle in self.fly(world, pager, 900):
                self.assertLessEqual(len(pager.tiles), paging.MOST)
                self.assertIn(middle, pager.tiles)
                self.assertTrue(all(paging.distance(place, middle) <= paging.KEPT + 3 for place in pager.tiles))
                self.assertLessEqual(len(pager.unfreed), 4)
            pager.close()
        pager.note_freed()
        counts = pager.counts()
        self.assertGreater(counts.deleted, 500)
        self.assertEqual((pager.unfreed, len(freed), len(set(freed))), (set(), counts.deleted, counts.deleted))
        self.assertEqual(counts.deleted, 2 * (counts.merged - counts.tiles))

    def test_most(self):
        """Where there are as many tiles as may be, the farthest one goes for another."""
        with Live(2, 2, program=flying.STAND_IN) as world:
            pager = paging.Pager(world, world.group(0), self.group)
            with mock.patch.object(paging, "MOST", 20):
                pager.fill(0, 0)
                self.assertEqual((len(pager.tiles), pager.counts().merged), (20, 49))
            pager.close()

    def test_ids(self):
        """Each tile is within its ids, and tiles that may be there at once have no id in common."""
        span = range(-5, 3 + 2 * paging.KEPT)
        ids = [node for i in span for j in span for node in land.ids_of((i, j))]
        self.assertEqual(len(ids), len(set(ids)))
        with Live(2, 2, program=flying.STAND_IN) as world:
            for place in ((0, 1), (-1, 3), (0, 4), (2, 2)):
                with world.buffer() as block:
                    made = land.build(block, place)
                    block.ask_add(0, made.nodes()[0])
                self.assertTrue(set(made.nodes()) <= set(land.ids_of(place)))
                world.remove(0, made.nodes()[0])
                world.delete(*made.nodes())
            world.frame()

    def test_errors_of_the_thread(self):
        """What a tile raises while it is built is raised where it is due."""
        with self.assertRaises(ZeroDivisionError), Live(2, 2, program=flying.STAND_IN) as world:
            paging.Pager(world, 0, lambda section, place: 1 // 0).fill(0, 0)


class Recorded(unittest.TestCase):
    def test_commands(self):
        """The recorded flight gives the same commands each time."""
        self.assertEqual(sums_of()["commands"], COMMANDS)

    def commands(self, build=land.build, ahead=1, ticks=200):
        """The live text of the beginning of the recorded flight."""
        land.corner.cache_clear()
        with tempfile.NamedTemporaryFile() as record, mock.patch.object(scene, "build", build), \
                start_world(4, 3, record=record.name, program=flying.STAND_IN) as world:
            flight = Flight(world, ahead)
            for held in keys.read_flight(flying.KEYS)[:ticks]:
                flight.tick(held)
            list(flight.end())
            return pathlib.Path(record.name).read_bytes()

    def test_same_each_time(self):
        """The commands are the same where the thread is late, where frames are under way, and where sines and the like are
        rounded as other machines may."""
        def slow(section, place):
            time.sleep(0.02 * (sum(place) % 2))
            return land.build(section, place)

        def other(function):
            return lambda *values: math.nextafter(function(*values), math.inf)

        others = {name: other(getattr(math, name)) for name in ("sin", "cos", "atan2", "hypot")}
        text = self.commands()
        self.assertTrue(self.commands(slow, 3) == text)
        with mock.patch.multiple(math, **others):
            self.assertTrue(self.commands() == text)
        land.corner.cache_clear()

    def test_restart(self):
        """A flight that begins again has the land about the runway, and edits are refused at no tick."""
        with start_world(4, 3, program=flying.STAND_IN) as world:
            flight = Flight(world)
            self.assertEqual(flight.scene.pager.counts().tiles, 49)
            vars(flight.plane).update(x=3000 * UNIT, y=-2600 * UNIT, z=400 * UNIT, is_rolling=False, speed=per_second(60))
            for tick in range(60):
                shown, = flight.tick({"restart", "view"} if tick == 40 else ())
                if tick == 39:
                    self.assertGreater(shown.told["deleted"], 0)
            self.assertEqual((shown.told["state"], shown.told["view"]), ("ready on the runway", "cockpit"))
            self.assertIn((0, 0), flight.scene.pager.tiles)
            list(flight.end())
        self.assertEqual(flight.scene.pager.unfreed, set())

    def test_keys(self):
        """A flight that is written is read as it was flown; slips are told."""
        flown = [{"faster"}, {"faster", "pull"}, (), (), {"view"}]
        with tempfile.TemporaryDirectory() as folder:
            path = pathlib.Path(folder) / "own.keys"
            with open(path, "w", encoding="ascii") as file:
                recorder = keys.Recorder(file)
                for held in flown:
                    recorder.take(frozenset(held))
                recorder.end()
            self.assertEqual(keys.read_flight(path), [frozenset(held) for held in flown])
        for text, told in (("", "line 1: a flight begins"), ("flight 1\nx\n", "line 2: a tick"),
                           ("flight 1\n5\n4 end\n", "line 3: a tick"), ("flight 1\n0 jump\n", "line 2: jump is no key"),
                           ("flight 1\n0\n", "line 3: the end is due")):
            with self.subTest(text), self.assertRaisesRegex(keys.KeysError, told):
                list(keys.ticks_of(text))


class Drawn(OverPerflyLive):
    @unittest.skipUnless(PERFLY, "perfly is not built")
    def test_pictures(self):
        """The recorded flight's pictures are those of an independent reading of the rules."""
        self.assertEqual(sums_of(program=PERFLY_LIVE), {"commands": COMMANDS, "pictures": PICTURES})
        words = "--", "--mode", "app_cull_draw", "--ahead", "3"
        self.assertEqual(sums_of(*words, program=PERFLY_LIVE), {"commands": COMMANDS, "pictures": PICTURES})


if __name__ == "__main__":
    unittest.main()
