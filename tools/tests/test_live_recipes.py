"""The recipes of docs/LIVE.md run as they stand there, over the built perfly_live, or the one that PERFLY_LIVE
names."""
import os
import pathlib
import re
import shutil
import subprocess
import sys
import tempfile
import unittest

from perfly_play.live_text import LiveReader, play_of
from perfly_play.pictures import read_images
from perfly_play.playing import Playing
from perfly_play.reading import read_play

from .programs import PERFLY, OverPerflyLive
from .rows import TOP

TEXT = (TOP / "docs" / "LIVE.md").read_text(encoding="utf-8")
BLOCKS = re.findall(r"^```(\w*)\n(.*?)^```$", TEXT, re.MULTILINE | re.DOTALL)
SAMPLE, REPORT = (block for kind, block in BLOCKS if not kind)
FLY = '#!/bin/sh\n[ "$1" = live ] || exit 125\nshift\nexec "$PERFLY_LIVE" "$@"\n'


class Sample(unittest.TestCase):
    def test_is_live_text(self):
        playing = Playing(read_play(play_of(LiveReader(SAMPLE.encode()))))
        self.assertEqual((playing.to_end(), playing.begun, playing.merged), ([], 2, 1))


class Recipes(OverPerflyLive):
    def setUp(self):
        super().setUp()
        folder = tempfile.TemporaryDirectory()
        self.addCleanup(folder.cleanup)
        self.top = pathlib.Path(folder.name)
        (self.top / "tools").symlink_to(TOP / "tools")
        (self.top / "fly").write_text(FLY)
        (self.top / "fly").chmod(0o755)
        self.environment = {**os.environ, "PYTHONDONTWRITEBYTECODE": "1", "PYTHONPATH": "tools"}

    def run_here(self, *call, given=""):
        """Runs a command at the top."""
        return subprocess.run(call, cwd=self.top, check=True, capture_output=True, input=given.encode(), timeout=100,
                              env=self.environment)

    def test_options(self):
        (self.top / "commands").write_text(SAMPLE)
        self.run_here("sh", "-c", re.findall(r"^    (\./fly live .*)$", TEXT, re.MULTILINE)[0])
        with open(self.top / "pictures.ppm", "rb") as stream:
            self.assertEqual(len(list(read_images(stream))), 2)

    def test_report(self):
        report = self.run_here("./fly", "live", given=SAMPLE).stderr.decode()
        for kinds in [("app ", "dbase ")] + [("frame ",)] * bool(PERFLY):
            due, told = ([line for line in text.splitlines() if line.startswith(kinds)] for text in (REPORT, report))
            self.assertEqual(told[:len(due)], due)
        self.assertLess(report.index("app frame 1 : ok\n"), report.index("frame 1 shown "))

    @unittest.skipUnless(shutil.which("bash") and shutil.which("mkfifo"), "no bash here")
    def test_shell(self):
        self.run_here("bash", "-ec", dict(BLOCKS)["sh"])
        for turn in (100, 200, 300):
            with open(self.top / f"turn{turn}.ppm", "rb") as stream:
                image, = read_images(stream)
            self.assertEqual((image.width, image.height), (320, 240))
        self.assertIn("app rot 1 300 0 0 : ok\n", (self.top / "report").read_text())

    def test_python(self):
        told = self.run_here(sys.executable, "-c", dict(BLOCKS)["python"].replace("range(48)", "range(3)")).stdout
        self.assertRegex(told, rb"^\d+\n$")
        self.assertEqual(len(list(self.top.glob("balloon*.png"))), 3)


if __name__ == "__main__":
    unittest.main()
