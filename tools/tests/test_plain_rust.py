"""The renderer in plain Rust: that it builds where Cargo can build it, and draws what a play shows."""
import re
import shutil
import subprocess
import tempfile
import unittest

from .test_tools import run

PLAY = b"""perfly 1
size 4 3
lens 4 1 1000000
back 1 2 3
app
geode 1 0 1
t -40960 4096 -40960 9 9 9 40960 4096 -40960 9 9 9 0 4096 40960 9 9 9
add 0 1
frame
"""
FIRST = (1, 85)  # the Cargo that knows the mirror's edition


def cargo():
    """The version of Cargo, or one below all if there is none."""
    if not shutil.which("cargo"):
        return (0, 0)
    done = subprocess.run(["cargo", "--version"], capture_output=True, text=True, check=False)
    found = re.match(r"cargo (\d+)\.(\d+)", done.stdout)
    return (int(found[1]), int(found[2])) if found else (0, 0)


class PlainRust(unittest.TestCase):
    def test_lists(self):
        lines = run("plain-rust", "lists", given=PLAY).stdout.decode().splitlines()
        self.assertEqual(lines[0], "lens 4 3 4 1 1000000 1 2 3")
        self.assertTrue(lines[1].startswith("geode 1 1 -40960 4096 "))
        self.assertEqual(lines[2:], ["frame 0 0 0 0 0 0 0 1", "item 1 0 0 0 0 -1"])

    def test_mirror(self):
        with tempfile.TemporaryDirectory() as folder:
            self.assertEqual(run("plain-rust", "mirror", folder).returncode, 0)
            if cargo() < FIRST:
                self.skipTest("no Cargo here that builds it")
            lists = f"{folder}/lists"
            with open(lists, "wb") as file:
                file.write(run("plain-rust", "lists", given=PLAY).stdout)
            drawn = subprocess.run(["cargo", "run", "--quiet", "--offline", "--", lists, "0"], cwd=folder, capture_output=True,
                                   check=False)
            self.assertEqual(drawn.stdout, b"P6\n4 3\n255\n" + bytes([9]) * 36, drawn.stderr.decode())


if __name__ == "__main__":
    unittest.main()
