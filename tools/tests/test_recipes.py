"""The recipes of docs/GOLDENS.md, run as they stand there, with a stand-in for perfly that draws each play in a grey of its own."""
import os
import pathlib
import re
import shutil
import subprocess
import tempfile
import unittest

from .rows import TOP

PLAY = "perfly 1\nsize 4 2\nlens 4 1 9\nback 9 9 9\napp\nframe\nview 0 0 0 0 0 0\nframe\n"
STAND_IN = """#!/usr/bin/env python3
import sys, zlib
text = sys.stdin.buffer.read()
for _ in range(text.count(b"frame\\n")):
    sys.stdout.buffer.write(b"P6\\n4 2\\n255\\n" + bytes([zlib.crc32(text) % 256]) * 24)
"""


@unittest.skipUnless(shutil.which("git"), "no git here")
class Goldens(unittest.TestCase):
    def setUp(self):
        folder = tempfile.TemporaryDirectory()
        self.addCleanup(folder.cleanup)
        self.top = pathlib.Path(folder.name)
        (self.top / "scenes").mkdir()
        for name in ("yard", "street"):
            (self.top / "scenes" / f"{name}.play").write_text(PLAY.replace("back 9", f"back {len(name)}"))
        (self.top / "tools").symlink_to(TOP / "tools")
        (self.top / "fly").write_text(STAND_IN)
        (self.top / "fly").chmod(0o755)
        text = (TOP / "docs" / "GOLDENS.md").read_text(encoding="utf-8")
        self.keep, self.compare, self.see = re.findall(r"```sh\n(.*?)```", text, re.DOTALL)

    def run_recipe(self, recipe):
        """Runs a recipe at the top."""
        return subprocess.run(["sh", "-c", recipe], cwd=self.top, capture_output=True, text=True, check=False,
                              env={**os.environ, "PYTHONDONTWRITEBYTECODE": "1"})

    def test_kept_and_changed(self):
        git = "git -c user.name=a -c user.email=a -c init.defaultBranch=main"
        self.assertEqual(self.run_recipe(f"{git} init -q && git add scenes && {git} commit -qm scenes").returncode, 0)
        self.assertEqual(self.run_recipe(self.keep).stderr, "")
        same = self.run_recipe(self.compare)
        self.assertEqual((same.returncode, same.stdout), (0, "the same: 2 pictures\n" * 2))
        (self.top / "scenes" / "yard.play").write_text(PLAY.replace("back 9", "back 7"))
        changed = self.run_recipe(self.compare)
        self.assertEqual(changed.returncode, 1)
        self.assertIn("picture 2: its sum is another one\n2 of 2 pictures differ, the first is 1\n", changed.stdout)
        seen = self.run_recipe(self.see)
        self.assertRegex(seen.stdout, r"^picture 1: 8 of 8 pixels, by up to \d+ of 255, in x 0..3, y 0..1\n")
        self.assertTrue((self.top / "difference.png").read_bytes().startswith(b"\x89PNG"))

    def test_refused(self):
        """An edit that is refused makes the comparison fail, though the pictures are the same."""
        (self.top / "scenes" / "yard.play").write_text(PLAY.replace("app\n", "app\nadd 0 7\n"))
        self.assertIn("add 0 7", self.run_recipe(self.keep.replace("&&", ";")).stdout)
        self.assertEqual(self.run_recipe(self.compare).returncode, 1)
