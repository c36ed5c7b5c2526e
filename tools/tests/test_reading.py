"""A play is read, played and looked at as perfly does it: by the worked rows."""
import re
import unittest

from perfly_play.playing import Playing
from perfly_play.reading import Mistake, enlarged, read_head, read_play
from perfly_play.sight import Sight

from .rows import EDIT_ROWS, read_rows

HEAD = b"perfly 1\nsize 3 3\nlens 3 1 9\nback 0 0 0\napp\n"


def mistake_of(text):
    """The first mistake of a text."""
    try:
        read_play(text)
    except Mistake as mistake:
        return mistake
    return None


def report_of(play):
    """The lines that perfly's report has for the frames, and the faults in their order."""
    playing = Playing(play)
    sight = Sight(playing.graph, play.head)
    lines = []
    for number in playing.frames():
        looks = [sight.look(view) for view in playing.views]
        lines.append(f"frame {number} shown {sum(len(look.geodes) for look in looks)} "
                     f"states {sum(look.states for look in looks)} visited {sum(look.visited for look in looks)}")
    return lines, [refusal.fault for refusal in playing.refusals if not refusal.is_dropped]


def faults_of(lines):
    """The faults that the lines of a report have."""
    found = (re.search(r"at \d+ fault .*|(?<=: fault ).*", line) for line in lines)
    return [match[0] for match in found if match]


class Rows(unittest.TestCase):
    def test_mistakes(self):
        seen = 0
        for row in read_rows():
            if row.told and row.told[0].startswith("perfly: line ") and len(row.text) < 1000000:
                with self.subTest(row.name):
                    mistake = mistake_of(row.text)
                    self.assertEqual(row.told, [f"perfly: line {mistake.line}: {mistake.cause}"])
                    seen += 1
        self.assertGreater(seen, 30)

    def test_frames_and_faults(self):
        seen = 0
        for row in read_rows():
            frames = [line for line in row.told if re.match(r"frame \d+ shown", line)]
            if frames and len(row.text) < 100000:
                with self.subTest(row.name):
                    lines, faults = report_of(read_play(row.text))
                    self.assertEqual(lines, frames)
                    if any(" : " in line for line in row.told):
                        self.assertEqual(faults, faults_of(row.told))
                    seen += 1
        self.assertGreater(seen, 20)

    def test_faults_of_edits(self):
        for play in sorted(EDIT_ROWS.glob("*.play")):
            with self.subTest(play.name):
                told = faults_of(play.with_suffix(".report").read_text().split("\n"))
                self.assertEqual(report_of(read_play(play.read_bytes()))[1], told)


class Hints(unittest.TestCase):
    def hint(self, lines):
        return mistake_of(HEAD + lines).hint

    def test_what_is_written_for_other_formats(self):
        self.assertIn("LF alone", mistake_of(HEAD.replace(b"\n", b"\r\n")).hint)
        self.assertIn("line feed", self.hint(b"frame"))
        self.assertIn("comment", self.hint(b"# a scene\nframe\n"))
        self.assertIn("comment", self.hint(b"group 1 # a group\n"))
        self.assertIn("blank", self.hint(b"\nframe\n"))
        self.assertIn("single spaces", self.hint(b"group  1\n"))
        self.assertIn("tab", self.hint(b"group\t1\n"))

    def test_numbers_and_commands(self):
        self.assertIn("4096", self.hint(b"trans 1 0 1.5 0\n"))
        self.assertIn("zeros: 7", self.hint(b"group 007\n"))
        self.assertIn("group is near", self.hint(b"grup 1\n"))
        self.assertIn("perfly 2", self.hint(b"glass 1 0 9 0\n"))
        self.assertIn("more triangle lines", self.hint(b"geode 1 0 0\nt 1\n"))
        self.assertIn("in the head, before app", self.hint(b"channels 2\n"))
        self.assertIn("small letters: add", self.hint(b"ADD 0 1\n"))
        self.assertIn("trans is near", self.hint(b"move 1 0 0 0\n"))

    def test_marks(self):
        self.assertIn("byte order mark", mistake_of(b"\xef\xbb\xbf" + HEAD).hint)
        self.assertIn("UTF-16", mistake_of(HEAD.decode().encode("utf-16")).hint)


class Enlarged(unittest.TestCase):
    def test_head(self):
        text = enlarged(HEAD + b"frame\n", 3)
        head = read_head(text)
        self.assertEqual((head.width, head.height, head.focal, head.near, head.far), (9, 9, 9, 1, 9))
        self.assertTrue(text.endswith(b"app\nframe\n"))
        with self.assertRaisesRegex(ValueError, "341 times"):
            enlarged(HEAD, 342)
