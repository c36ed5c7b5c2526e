"""What is seen at a pixel: by a program that draws small plays triangle by triangle, and by perfly where it is built."""
import io
import os
import pathlib
import re
import struct
import subprocess
import sys
import tempfile
import unittest
from unittest import mock

from perfly_play import Play, pictures, rendering, seeing, shapes

from .rows import TOP

TOOLS = TOP / "tools"
PLAIN = str(TOOLS / "tests" / "data" / "plain_perfly")
NO_CACHE = {"PYTHONDONTWRITEBYTECODE": "1"}
GREY = (90, 90, 90)


def scene():
    """Two frames: ground with a mark upon it in a layer, a box in two places, a pane before one of them; then the box is
    another one, and the eye has moved."""
    play = Play(24, 18, near=0.5, far=100)
    layer = play.layer(0)
    play.geode(layer, 1, shapes.flat(-20, 0, 20, 60, -1, GREY), node=10)
    play.geode(layer, 2, shapes.flat(-1, 4, 1, 12, -1, GREY), node=11)
    box = play.geode(play.dcs(0, -3, 12, 0), 3, shapes.box(0, 0, -1, 2, 2, 3, GREY), node=12)
    play.add(play.scs(0, 3, 9, 0, heading=30), box)
    play.glass(0, 100, [shapes.triangle((1.5, 6, -1), (4, 6, -1), (3, 6, 3), GREY)], node=13)
    play.view(0, 0, 0.5, pitch=-3)
    play.frame()
    play.set_triangles(box, shapes.box(0, 0, -1, 1, 1, 5, GREY))
    play.view(0.7, 1, 1, heading=5, roll=10)
    play.frame()
    return play.text().encode()


def tool(name, *words, given=b"", perfly=PLAIN):
    """Runs a tool, with a program in perfly's place."""
    return subprocess.run([sys.executable, "-B", TOOLS / name, *map(str, words)], input=given, capture_output=True, check=False,
                          env={**os.environ, **NO_CACHE, "PERFLY": perfly})


class Seeing(unittest.TestCase):
    def setUp(self):
        patch = mock.patch.dict(os.environ, NO_CACHE, PERFLY=PLAIN)
        patch.start()
        self.addCleanup(patch.stop)

    def test_numbered(self):
        """Only colours, the background and glass are others; the colour is the number of the line."""
        lines = seeing.numbered(scene()).split(b"\n")
        glass = next(k for k, line in enumerate(scene().split(b"\n")) if line.startswith(b"glass"))
        self.assertEqual((lines[3], lines[glass]), (b"back 0 0 0", b"geode 13 7 1"))
        self.assertEqual([lines[glass + 1].split()[k:k + 3] for k in (4, 10, 16)], [[b"0", b"0", b"%d" % (glass + 2)]] * 3)
        self.assertIn(b"\nglass 13 7 0 1\n", seeing.numbered(scene(), True))

    def test_each_pixel(self):
        """Every pixel's ray meets the triangle that was drawn there, also where it stands in two places or upon another."""
        for through_glass, nodes in ((False, {10, 11, 12, 13}), (True, {10, 11, 12})):
            for frame in seeing.frames(scene(), through_glass=through_glass):
                hits = [frame.hit(x, y) for y in range(18) for x in range(24)]
                self.assertEqual({hit.node for hit in hits if hit}, nodes)
                self.assertEqual([hit.depth if hit else -1 for hit in hits], frame.depths())

    def test_place(self):
        """A pixel low in the picture shows the mark, on the ground; the pane has its own depth."""
        frame = next(seeing.frames(scene(), 1))
        mark, pane = frame.hit(12, 15), frame.hit(22, 6)
        self.assertEqual((mark.node, round(mark.place[2])), (11, -4096))
        self.assertEqual((pane.node, round(pane.place[1] / 4096)), (13, 6))

    def test_errors(self):
        text = scene()
        free = text + b"dbase\nbuffer\nmerge\n"
        for given, wanted, channel, told in ((text, 3, 0, "no frame 3; the play has 2"), (text, 1, 1, "no channel 1"),
                                             (free, 1, 0, "merge 1 of DBASE may come before or after line 6")):
            with self.subTest(told), self.assertRaisesRegex(seeing.SeeingError, told):
                list(seeing.frames(given, wanted, channel))
        with mock.patch.dict(os.environ, PERFLY=" "), self.assertRaisesRegex(rendering.RenderError, "set, but empty"):
            list(seeing.frames(text))
        with mock.patch.dict(os.environ, PERFLY="false"), self.assertRaisesRegex(rendering.RenderError, "ended with status 1"):
            list(seeing.frames(text))


class Commands(unittest.TestCase):
    def setUp(self):
        folder = tempfile.TemporaryDirectory()
        self.addCleanup(folder.cleanup)
        self.folder = pathlib.Path(folder.name)

    def test_pick(self):
        done = tool("pick", "--frame", 1, "-", 12, 15, 0, 0, given=scene())
        mark, sky = done.stdout.decode().splitlines()
        self.assertRegex(mark, r"^12 15 geode 11 triangle \d line \d+ depth \d+\.\d{3} at -?\d+\.\d{3} \d+\.\d{3} -1\.000$")
        self.assertEqual(sky, "0 0 none")
        self.assertIn(b"no pixel 24 0", tool("pick", "-", 24, 0, given=scene()).stderr)
        self.assertEqual(tool("pick", "-", 24, given=scene()).returncode, 2)
        (self.folder / "points").write_text("0 0\n\n1 x\n")
        self.assertIn(b"points: line 3: 1 x", tool("pick", "--points", self.folder / "points", "-", given=scene()).stderr)

    def test_depth(self):
        """Values rise with the depths; 0 is nothing, and the comment says the scale."""
        done = tool("depth", "--frame", 1, "--picture", self.folder / "d.png", "-", given=scene())
        head, told, size, most, body = done.stdout.split(b"\n", 4)
        self.assertEqual((head, size, most, len(body)), (b"P5", b"24 18", b"65535", 2 * 24 * 18))
        values = struct.unpack(f">{24 * 18}H", body)
        self.assertEqual((values[0], min(v for v in values if v), max(values)), (0, 1, 65535))
        near, step = (float(told.split()[k]) for k in (4, 6))
        with mock.patch.dict(os.environ, PERFLY=PLAIN):
            depths = next(seeing.frames(scene(), 1)).depths()
        for value, depth in zip(values, depths):
            self.assertTrue(value == 0 and depth < 0 or abs(near + step * (value - 1) - depth / 4096) <= step)
        self.assertTrue((self.folder / "d.png").read_bytes().startswith(b"\x89PNG"))
        cut = tool("depth", "--frame", 1, "--between", 5, 6, "-", given=scene()).stdout.split(b"\n", 4)
        self.assertEqual(cut[1], b"# depth in units: 5 + 1.525925474e-05 * (value - 1); 0 is nothing")

    def test_ids(self):
        done = tool("ids", "--table", self.folder / "t", "--picture", self.folder / "i.png", "-", given=scene())
        images = list(pictures.read_images(io.BytesIO(done.stdout)))
        self.assertEqual(len(images), 2)
        lines = {int.from_bytes(row[k:k + 3], "big") for row in images[1].rows for k in range(0, len(row), 3)} - {0}
        rows = [row.split() for row in (self.folder / "t").read_text().splitlines()]
        self.assertEqual({int(row[1]) for row in rows}, lines)
        self.assertTrue(all(scene().split(b"\n")[line - 1].startswith(b"t ") for line in lines))

    def test_perfly(self):
        """The pixels of docs/PLAY.md, by the built program."""
        given = os.environ.get("PERFLY", str(rendering.built("perfly")))
        perfly = next((path for path in (pathlib.Path(given), TOP / given) if path.is_file()), None)
        if perfly is None:
            self.skipTest("perfly is not built")
        text = (TOP / "docs" / "PLAY.md").read_text(encoding="utf-8")
        words, told = re.search(r"^    tools/pick (.*)\n\n```\n(.*?)```", text, re.DOTALL | re.MULTILINE).groups()
        play, *pixels = words.split()
        self.assertEqual(tool("pick", TOP / play, *pixels, perfly=str(perfly)).stdout.decode(), told)
