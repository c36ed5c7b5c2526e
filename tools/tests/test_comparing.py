"""Streams of pictures are compared as a user does it."""
import gzip
import hashlib
import pathlib
import tempfile
import unittest

from .test_tools import pixels_of, ppm, run

BLUE = ppm(4, 3, lambda x, y: (0, 0, 200))
SPOT = ppm(4, 3, lambda x, y: (0, 3 * (x > 1 and y == 1), 200))


class Compare(unittest.TestCase):
    def setUp(self):
        folder = tempfile.TemporaryDirectory()
        self.addCleanup(folder.cleanup)
        self.folder = pathlib.Path(folder.name)

    def kept(self, name, data):
        """A file with these bytes."""
        (self.folder / name).write_bytes(data)
        return self.folder / name

    def test_same(self):
        old = self.kept("old.ppm", BLUE + SPOT)
        for other in (old, self.kept("old.gz", gzip.compress(BLUE + SPOT)), self.kept("sums", run("compare", "--sums", old).stdout)):
            done = run("compare", "-", other, given=BLUE + SPOT)
            self.assertEqual((done.returncode, done.stdout, done.stderr), (0, b"the same: 2 pictures\n", b""))

    def test_different(self):
        old, new = self.kept("old.ppm", BLUE * 3), self.kept("new.ppm", BLUE + SPOT + ppm(2, 3, lambda x, y: (0, 0, 0)) + BLUE)
        done = run("compare", "--picture", self.folder / "d.png", old, new)
        self.assertEqual((done.returncode, done.stdout.decode().splitlines()), (1, [
            "picture 2: 2 of 12 pixels, by up to 3 of 255, in x 2..3, y 1..1",
            "picture 3: 4 by 3 pixels, and 2 by 3",
            "picture 4: only the second has it",
            "3 of 4 pictures differ, the first is 2"]))
        width, height, rows = pixels_of(self.folder / "d.png")
        self.assertEqual((width, height, rows[1][-6:], rows[0][-6:]), (12, 3, bytes((0, 12, 0)) * 2, bytes(6)))

    def test_sums_and_words(self):
        old, new = self.kept("old.ppm", BLUE), self.kept("new.ppm", SPOT)
        line = f"1 4x3 {hashlib.sha256(BLUE).hexdigest()}\n".encode()
        self.assertEqual(run("compare", "--sums", old).stdout, line)
        done = run("compare", self.kept("sums", line), new)
        self.assertEqual((done.returncode, done.stdout.splitlines()[0]), (1, b"picture 1: its sum is another one"))
        self.assertEqual(run("compare", "--within", 3, old, new).returncode, 0)
        done = run("compare", "--within", 2, "--quiet", old, new)
        self.assertEqual((done.returncode, done.stdout), (1, b""))

    def test_errors(self):
        old = self.kept("old.ppm", BLUE)
        for words, given, told in (((old, "-"), BLUE[:-1], b"-: the stream ends inside a picture"),
                                   ((old, "-"), b"1 4x3 abc\n", b"-: line 1: neither PPM"), (("-", "-"), b"", b"only one"),
                                   ((old, self.folder / "none"), b"", b"No such file"), ((old,), b"", b"say what to compare with"),
                                   (("-", self.kept("empty", b"")), b"", b"neither has a picture")):
            done = run("compare", *words, given=given)
            self.assertEqual((done.returncode, done.stdout), (2, b""))
            self.assertIn(told, done.stderr)
