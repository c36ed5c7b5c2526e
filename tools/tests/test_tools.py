"""The commands, as a user calls them."""
import pathlib
import struct
import subprocess
import sys
import tempfile
import unittest
import zlib

from perfly_play.reading import read_play

from .rows import TOP

TOOLS = TOP / "tools"
LANTERN = TOOLS / "tests" / "data" / "lantern.obj"


def run(name, *words, given=b""):
    """Runs a tool."""
    return subprocess.run([sys.executable, "-B", TOOLS / name, *map(str, words)], input=given, capture_output=True, check=False)


def pixels_of(path):
    """The width, the height and the rows of a PNG file, as this project writes it."""
    data, at, packed = path.read_bytes(), 8, b""
    while at < len(data):
        size, kind = struct.unpack_from(">I4s", data, at)
        body = data[at + 8:at + 8 + size]
        if struct.unpack_from(">I", data, at + 8 + size)[0] != zlib.crc32(kind + body):
            raise ValueError(kind)
        if kind == b"IHDR":
            width, height = struct.unpack_from(">II", body)
        packed += body if kind == b"IDAT" else b""
        at += 12 + size
    lines = zlib.decompress(packed)
    rows, above = [], bytes(3 * width)
    for y in range(height):
        kind, row = lines[y * (3 * width + 1)], bytearray(lines[y * (3 * width + 1) + 1:(y + 1) * (3 * width + 1)])
        for k in range(3 * width):
            before = {0: 0, 1: row[k - 3] if k > 2 else 0, 2: above[k]}[kind]
            row[k] = (row[k] + before) % 256
        rows.append(bytes(row))
        above = rows[-1]
    return width, height, rows


def ppm(width, height, pixel):
    """An image whose pixels are a function of x and y."""
    return b"P6\n%d %d\n255\n" % (width, height) + b"".join(bytes(pixel(x, y)) for y in range(height) for x in range(width))


class Help(unittest.TestCase):
    def test_each(self):
        for name in ("obj2play", "live2play", "frames2png", "look", "enlarge", "render", "show", "quick", "ids", "depth", "pick", "compare"):
            with self.subTest(name):
                done = run(name, "--help")
                self.assertEqual((done.returncode, done.stderr), (0, b""))
                self.assertIn(b"usage:", done.stdout)


class Frames2png(unittest.TestCase):
    def setUp(self):
        folder = tempfile.TemporaryDirectory()
        self.addCleanup(folder.cleanup)
        self.folder = pathlib.Path(folder.name)

    def test_each_frame(self):
        stream = b"".join(ppm(5, 4, lambda x, y, k=k: (40 * x + k, 250 - 60 * y, (7 * x * y) % 256)) for k in range(3))
        self.assertEqual(run("frames2png", "--into", self.folder / "new", given=stream).returncode, 0)
        files = sorted((self.folder / "new").iterdir())
        self.assertEqual([file.name for file in files], ["frame0001.png", "frame0002.png", "frame0003.png"])
        for file, image in zip(files, stream.split(b"P6\n5 4\n255\n")[1:]):
            self.assertEqual(pixels_of(file), (5, 4, [image[15 * y:15 * (y + 1)] for y in range(4)]))

    def test_shrink_beside_sheet(self):
        stream = b"".join(ppm(4, 2, lambda x, y, k=k: (10 * k + 4 * (x % 2), 0, 255)) for k in range(6))
        sheet = self.folder / "sheet.png"
        done = run("frames2png", "--shrink", 2, "--beside", 2, "--every", 2, "--across", 1, "--sheet", sheet, given=stream)
        self.assertEqual((done.returncode, done.stderr), (0, b""))
        row = [bytes((10 * k + 2, 0, 255)) * 2 for k in range(6)]
        self.assertEqual(pixels_of(sheet), (4, 2, [row[0] + row[1], row[4] + row[5]]))

    def test_errors(self):
        cut = ppm(4, 4, lambda x, y: (0, 0, 0))[:-1]
        for stream, told in ((b"", b"no pictures"), (b"perfly", b"PPM"), (cut, b"inside")):
            done = run("frames2png", "--into", self.folder, given=stream)
            self.assertEqual(done.returncode, 1)
            self.assertIn(told, done.stderr)


class Obj2play(unittest.TestCase):
    def test_turn(self):
        done = run("obj2play", "--frames", 5, "--picture", 64, 48, LANTERN)
        self.assertEqual(done.returncode, 0)
        self.assertIn(done.stderr.decode(), (TOP / "docs" / "PLAY.md").read_text(encoding="utf-8"))
        play = read_play(done.stdout)
        self.assertEqual((play.head.version, play.triangles), (2, 257))
        self.assertEqual(sum(step.edit.command == "frame" for step in play.application), 5)

    def test_cameras(self):
        with tempfile.NamedTemporaryFile("w", suffix=".txt") as cameras:
            cameras.write("# from the front\n0 -40 5 0 -5\n\n40 0 5 90 -5 10\n")
            cameras.flush()
            play = read_play(run("obj2play", "--cameras", cameras.name, LANTERN).stdout)
        views = [step.edit.fields for step in play.application if step.edit.command == "view"]
        self.assertEqual(views[1], (40 * 4096, 0, 5 * 4096, 900, -50, 100))

    def test_words(self):
        """Words as people write them; words out of their ranges are refused."""
        for words, told in ((("--picture", "64x48", "--up", "-y", "--light", "eye", "--frames", 3), (b"size 64 48\n", b"\nsw 1 2\n")),
                            (("--coarse", "auto", "--opaque", "--smooth", "--color", 9, 9, 9), (b"perfly 1\n",))):
            done = run("obj2play", *words, LANTERN)
            self.assertEqual(done.returncode, 0)
            for line in told:
                self.assertIn(line, done.stdout)
        for words in (("--units", -5), ("--tilt", 95), ("--light", 0, 0, 0), ("--up", "w"), ("--coarse", "fine"), ("--most", 0),
                      ("--units", "nan"), ("--smooth", "--facets")):
            with self.subTest(words):
                done = run("obj2play", *words, LANTERN)
                self.assertEqual((done.returncode, done.stdout), (2, b""))
                self.assertIn(b"obj2play: error: argument ", done.stderr)

    def test_errors(self):
        done = run("obj2play", "nothing.obj")
        self.assertEqual((done.returncode, done.stdout), (1, b""))
        self.assertIn(b"nothing.obj", done.stderr)
        self.assertNotIn(b"Traceback", done.stderr)


class Look(unittest.TestCase):
    def test_play(self):
        text = run("look", TOP / "examples" / "glass.play").stdout.decode()
        self.assertIn("  4 dcs at 0 34 0\n    5 geode: 18 triangles, state 2\n    6 glass: 2 triangles", text)
        self.assertIn("frames 1 to 48 shown 9 states 4 visited 12: 1..3 5..9 11\n", text)
        self.assertRegex(text, r"triangles +336 +65,536\n")

    def test_mistake(self):
        done = run("look", given=b"perfly 1\nsize 3 3\n# lens\n")
        self.assertEqual(done.returncode, 1)
        self.assertEqual(done.stderr.decode().split("\n")[0], "3: # lens")
        self.assertIn(b"look: line 3: Command: it looks like a comment", done.stderr)

    def test_refused_edits(self):
        head = b"perfly 1\nsize 3 3\nlens 3 1 9\nback 0 0 0\napp\n"
        done = run("look", given=head + b"add 0 7\nframe\n")
        self.assertIn("line 6: add 0 7: there is no node 7\n", done.stdout.decode())
        self.assertEqual(done.returncode, 1)
        done = run("look", "--check", given=head + b"group 1\nscs 2 1 0 0 0 1 0 0 0 1 0 0 0\ntrans 2 0 0 0\nframe\n")
        self.assertEqual((done.returncode, done.stdout.decode()),
                         (1, "line 8: trans 2 0 0 0: node 2 is of the kind scs, and trans is for a node of the kind dcs\n"))
        done = run("look", "--check", TOP / "examples" / "glass.play")
        self.assertEqual((done.returncode, done.stdout, done.stderr), (0, b"", b""))
        done = run("look", given=head + b"wait 1\n")
        self.assertEqual(done.returncode, 1)
        self.assertIn(b"line 6 waits for a merge that never comes, since there is no section dbase\n", done.stderr)

    def test_nothing_to_see(self):
        head = b"perfly 1\nsize 3 3\nlens 3 1 9\nback 0 0 0\napp\n"
        text = run("look", given=head + b"group 1\nframe\n").stdout.decode()
        self.assertIn("below no node, so never seen: 1; a line add", text)
        self.assertIn("Nothing is ever in sight.", text)
        self.assertIn("A line frame draws one.", run("look", given=head).stdout.decode())


class Profile(unittest.TestCase):
    REPORT = (b"app geode 1 7 2 : ok\napp view 0 0 409600 0 0 0 : ok\napp frame 1 : ok\napp view 0 0 491520 0 0 0 : ok\n"
              b"app frame 2 : ok\nframe 1 shown 1 states 1 visited 2\nframe 2 shown 1 states 1 visited 2\n"
              b"probe 1 none\nprobe 2 17920 0 1 1\n")

    def test_columns(self):
        """The first frame's eye is 100 high over nothing, the second's 120 high and 70 above geometry of state 7."""
        done = run("../examples/draw-height", given=self.REPORT)
        self.assertEqual((done.returncode, done.stderr), (0, b""))
        with tempfile.TemporaryDirectory() as scratch:
            path = pathlib.Path(scratch) / "profile.png"
            path.write_bytes(done.stdout)
            width, height, rows = pixels_of(path)
        self.assertEqual((width, height), (12, 170))
        first, second = ({150 - y: row[at:at + 3] for y, row in enumerate(rows)} for at in (0, 18))
        sky, eye, water = first[140], first[100], second[45]
        self.assertEqual({first[height] for height in (120, 60, 45, 0)}, {sky})
        self.assertEqual((second[120], second[100], second[60]), (eye, sky, sky))
        self.assertEqual(len({sky, eye, water, second[0]}), 4)

    def test_no_probe(self):
        done = run("../examples/draw-height", given=self.REPORT.partition(b"probe")[0])
        self.assertEqual((done.returncode, done.stderr), (1, b"draw-height: the report has no line of a probe\n"))
