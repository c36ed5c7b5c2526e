"""Films, pictures and pages, with a stand-in for perfly whose images have the number of their frame."""
import html
import json
import os
import pathlib
import re
import shutil
import subprocess
import sys
import tempfile
import unittest

from perfly_play import rendering
from perfly_play.pictures import read_images

from .rows import TOP
from .test_tools import TOOLS, pixels_of

DRAWS = TOOLS / "tests" / "data" / "draws"
HEAD = b"perfly 1\nsize 4 2\nlens 4 1 9\nback 0 0 0\napp\n"
THREE = HEAD + b"add 0 7\nframe\nview 0 0 0 0 0 0\nframe\nframe\n"


class InFolder(unittest.TestCase):
    def setUp(self):
        folder = tempfile.TemporaryDirectory()
        self.addCleanup(folder.cleanup)
        self.folder = pathlib.Path(folder.name)

    def run_tool(self, name, *words, given=THREE, **environment):
        """Runs a tool in the folder."""
        return subprocess.run([sys.executable, "-B", TOOLS / name, *map(str, words)], input=given, capture_output=True, check=False,
                              cwd=self.folder, env={**os.environ, "PERFLY": str(DRAWS), **environment})


class Render(InFolder):
    def test_folder(self):
        done = self.run_tool("render", "-", "-o", "new", "--smooth", 2, "--report", "report", "--", "--ahead", 2)
        self.assertEqual(done.returncode, 0, done.stderr)
        self.assertEqual(done.stderr, b"render: 1 edit was refused; tools/look --check - tells which\n")
        files = sorted((self.folder / "new").iterdir())
        self.assertEqual([file.name for file in files], ["frame0001.png", "frame0002.png", "frame0003.png"])
        self.assertEqual(pixels_of(files[2]), (4, 2, [bytes((3, 0, 0)) * 4] * 2))
        self.assertTrue((self.folder / "report").read_text().startswith("words --ahead 2\napp add 0 7 : fault"))

    def test_picture(self):
        self.assertEqual(self.run_tool("render", "-", "-o", "one.png", "--frame", 2).returncode, 0)
        self.assertEqual(pixels_of(self.folder / "one.png")[2][0][:3], bytes((2, 0, 0)))

    @unittest.skipUnless(shutil.which("ffmpeg"), "no ffmpeg here")
    def test_film(self):
        done = self.run_tool("render", "-", "-o", "film.mkv", "--smooth", 2)
        self.assertEqual(done.returncode, 0, done.stderr)
        call = ["ffmpeg", "-v", "error", "-i", self.folder / "film.mkv", "-f", "image2pipe", "-c:v", "ppm", "-"]
        with subprocess.Popen(call, stdout=subprocess.PIPE) as ffmpeg:
            images = list(read_images(ffmpeg.stdout))
        self.assertEqual([(image.width, image.height) for image in images], [(4, 2)] * 3)

    def test_errors(self):
        nowhere = {"PATH": "/nowhere"}
        for words, told, environment in (
                (("-o", "a.jpg"), b"a film ends with .mp4", {}), (("-o", "a.png", "--frame", 4), b"the play has 3 frames", {}),
                (("-o", "a", "--frame", 1), b"is for a picture", {}), (("-o", "a.mp4"), b"needs ffmpeg", nowhere),
                (("-o", "a", "--smooth", 16), b"", {}), (("-o", "a"), b"PERFLY is set, but empty", {"PERFLY": ""}),
                (("-o", "a"), b"there is no program nothing", {"PERFLY": "nothing"})):
            with self.subTest(words):
                done = self.run_tool("render", "-", *words, **environment)
                self.assertIn(told, done.stderr)
                self.assertEqual(done.returncode, 1 if told else 0)
                self.assertNotIn(b"Traceback", done.stderr)

    def test_statuses(self):
        for status, text, told in ((7, THREE, "perfly: no memory"), (2, HEAD + b"frame\nmove 1\n", "trans is near to it"),
                                   (3, HEAD + b"frame\nwait 1\n", "there is no section dbase")):
            done = self.run_tool("render", "-", "-o", "a", given=text, STAND_IN_STATUS=str(status))
            self.assertEqual(done.returncode, status)
            self.assertIn(told, done.stderr.decode())


class Entries(unittest.TestCase):
    def test_by_frame(self):
        report = ("app geode 1 0 1 : ok\napp sync 0 : freed 0\napp frame 1 : ok\ndbase merge 1 0 : ok\napp frame 2 : ok\n"
                  "app sync 2 : freed 0\nframe 1 shown 1 states 1 visited 2\nframe 2 shown 0 states 0 visited 2\nprobe 2 none\n")
        first, second = rendering.entries(report, 2)
        self.assertEqual(first, ["app geode 1 0 1 : ok", "app sync 0 : freed 0", "app frame 1 : ok",
                                 "frame 1 shown 1 states 1 visited 2"])
        self.assertEqual(second, ["dbase merge 1 0 : ok", "app frame 2 : ok", "app sync 2 : freed 0",
                                  "frame 2 shown 0 states 0 visited 2", "probe 2 none"])


TRIED = """<script>
  const log = [document.title, picture.getAttribute("src").slice(0, 15)];
  slider.value = 1;
  slider.dispatchEvent(new Event("input"));
  log.push(where.textContent, list.textContent, list.querySelector(".refused").textContent);
  button.click();
  log.push(button.textContent);
  setTimeout(() => {
    log.push(where.textContent, button.textContent, picture.naturalWidth);
    document.body.dataset.log = JSON.stringify(log);
  }, 1500);
</script>"""


class Show(InFolder):
    def test_page(self):
        (self.folder / "three<.play").write_bytes(THREE)
        done = self.run_tool("show", "three<.play")
        self.assertEqual((done.returncode, done.stderr), (0, b""))
        text = done.stdout.decode()
        self.assertIn("<title>three&lt;.play</title>", text)
        self.assertNotIn("http", text)
        data = json.loads(re.search(r'type="application/json">(.*?)</script>', text)[1])
        self.assertEqual((len(data["frames"]), data["entries"][1][0]), (3, "app view 0 0 0 0 0 0 : ok"))

    def test_in_browser(self):
        browser = next(filter(None, map(shutil.which, ("chromium", "chromium-browser", "google-chrome"))), None)
        if not browser:
            self.skipTest("no Chromium here")
        page = self.folder / "page.html"
        page.write_bytes(self.run_tool("show", "--rate", 10).stdout + TRIED.encode())
        call = [browser, "--headless", "--no-sandbox", "--disable-gpu", f"--user-data-dir={self.folder}/profile",
                "--virtual-time-budget=4000", "--dump-dom", f"{page.as_uri()}#2"]
        dom = subprocess.run(call, capture_output=True, text=True, check=True, timeout=120).stdout
        log = json.loads(html.unescape(re.search(r'data-log="([^"]*)"', dom)[1]))
        self.assertEqual(log[:2], ["play: frame 2 of 3", "data:image/png;"])
        self.assertEqual(log[2], "frame 1 of 3")
        self.assertIn("app add 0 7 : fault Absent 7", log[3])
        self.assertIn("app add 0 7 : fault Absent 7", log[4])
        self.assertEqual(log[5:], ["Pause", "frame 3 of 3", "Play", 4])


class Pictures(unittest.TestCase):
    def test_examples_have_frames(self):
        self.assertEqual(rendering.count_frames((TOP / "examples" / "glass.play").read_bytes()), 48)


if __name__ == "__main__":
    unittest.main()
