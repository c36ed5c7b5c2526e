"""examples/drive.c is compiled, and drives the built perfly_live, or the one that PERFLY_LIVE names."""
import pathlib
import shutil
import subprocess
import tempfile
import unittest

from perfly_play.pictures import read_images

from .programs import PERFLY_LIVE
from .rows import TOP

COMPILER = shutil.which("gcc") or shutil.which("cc")


@unittest.skipUnless(COMPILER, "no C compiler here")
class Drive(unittest.TestCase):
    def setUp(self):
        folder = tempfile.TemporaryDirectory()
        self.addCleanup(folder.cleanup)
        self.folder = pathlib.Path(folder.name)
        source, words = TOP / "examples" / "drive.c", ["-Wall", "-Wextra", "-Werror", "-O2"]
        subprocess.run([COMPILER, *words, "-o", self.folder / "drive", source], check=True)

    def drive(self, program, frames=4):
        """Drives a program for so many frames."""
        call = [self.folder / "drive", program, str(frames), self.folder / "gem"]
        return subprocess.run(call, capture_output=True, check=False, timeout=100)

    @unittest.skipUnless(PERFLY_LIVE, "perfly_live is not built")
    def test_pictures(self):
        done = self.drive(PERFLY_LIVE)
        self.assertEqual((done.returncode, done.stderr), (0, b""))
        files = sorted(self.folder.glob("*.ppm"))
        self.assertEqual([file.name for file in files], [f"gem00{k}.ppm" for k in range(1, 5)])
        for file in files:
            with open(file, "rb") as stream:
                image, = read_images(stream)
            self.assertEqual((image.width, image.height), (320, 240))
        self.assertEqual(len({file.read_bytes() for file in files}), 4)

    def test_errors(self):
        done = self.drive("/nowhere")
        self.assertEqual((done.returncode, done.stderr), (127, b"perfly: /nowhere cannot be run\n"))
        program = self.folder / "program"
        program.write_text("#!/bin/sh\nhead -n 9 > /dev/null\necho perfly: no memory >&2\nexit 7\n")
        program.chmod(0o755)
        done = self.drive(program)
        self.assertEqual((done.returncode, done.stderr), (7, b"perfly: no memory\n"))


if __name__ == "__main__":
    unittest.main()
