"""The recipes of docs/PLAY.md run as they stand there, with a stand-in for perfly."""
import os
import pathlib
import re
import shutil
import subprocess
import sys
import tempfile
import unittest

from perfly_play.reading import read_play

from .rows import TOP

DRAWS = TOP / "tools" / "tests" / "data" / "draws"
TEXT = (TOP / "docs" / "PLAY.md").read_text(encoding="utf-8")
GRID = "ncols 3\nnrows 3\nxllcorner 0\nyllcorner 0\ncellsize 30\n1 2 3\n4 5 6\n7 8 9\n"
SMALL = "perfly 1\nsize 4 2\nlens 4 1 9\nback 0 0 0\napp\n" + "frame\n" * 40
FLY = """#!/bin/sh
[ "$1" = render ] || exec "$PERFLY" "$@"
shift
exec tools/render "$@"
"""


class Recipes(unittest.TestCase):
    def setUp(self):
        folder = tempfile.TemporaryDirectory()
        self.addCleanup(folder.cleanup)
        self.top = pathlib.Path(folder.name)
        (self.top / "tools").symlink_to(TOP / "tools")

    def run_here(self, *call):
        """Runs a command at the top."""
        subprocess.run(call, cwd=self.top, check=True, capture_output=True,
                       env={**os.environ, "PERFLY": str(DRAWS), "PYTHONDONTWRITEBYTECODE": "1"})

    def test_python(self):
        code = "\n".join(re.findall(r"^```python\n(.*?)^```$", TEXT, re.MULTILINE | re.DOTALL))
        self.assertIn("terrain.Ground", code)
        code = code.replace("range(48)", "range(2)")
        (self.top / "dem.asc").write_text(GRID)
        self.run_here(sys.executable, "-c", code)
        self.assertEqual(len(list(self.top.glob("balloon*.png"))), 2)
        self.assertEqual(read_play((self.top / "flight.play").read_bytes()).triangles, 8)

    def test_film_picture_page(self):
        section = TEXT.partition("### A film, a picture, a page\n")[2].partition("\n### ")[0]
        lines = re.findall(r"^    (.*)$", section, re.MULTILINE)
        self.assertEqual(len(lines), 4)
        (self.top / "fly").write_text(FLY)
        (self.top / "fly").chmod(0o755)
        (self.top / "examples").mkdir()
        for name in ("flight", "glass"):
            (self.top / "examples" / f"{name}.play").write_text(SMALL)
        for line in lines:
            if ".mp4" not in line or shutil.which("ffmpeg"):
                self.run_here("sh", "-c", line)
        self.assertEqual(len(list((self.top / "flight").iterdir())), 40)
        for name in ("flight.png", "glass.html"):
            self.assertTrue((self.top / name).stat().st_size)

    def test_check(self):
        (line,) = re.findall(r"^    (tools/look --check .*)$", TEXT, re.MULTILINE)
        (self.top / "fly").write_text(FLY)
        (self.top / "fly").chmod(0o755)
        (self.top / "my.play").write_text(SMALL)
        self.run_here("sh", "-c", line)
        self.assertTrue((self.top / "frames.ppm").stat().st_size)
        (self.top / "my.play").write_text(SMALL + "add 0 7\n")
        with self.assertRaises(subprocess.CalledProcessError):
            self.run_here("sh", "-c", line + " 2> /dev/null")


if __name__ == "__main__":
    unittest.main()
