"""A live text is read as perfly_live does it, and made a play."""
import unittest
from unittest import mock

from perfly_play import limits
from perfly_play.fences import is_fenced
from perfly_play.live_text import LiveReader, TooLarge, live_of, play_of
from perfly_play.playing import Playing
from perfly_play.reading import Mistake, read_play

from .rows import TOP, read_rows
from .test_tools import run

HEAD = b"perfly live 1\nsize 3 3\nlens 3 1 9\nback 0 0 0\napp\n"
TRIANGLE = b"t 0 4 0 9 9 9 4 4 0 9 9 9 0 4 4 9 9 9\n"
BLOCK = b"buffer\ngeode 7 0 1\n" + TRIANGLE + b"badd 1 7\nmerge\n"


def refusal_of(text):
    """The line and the cause that a live text is refused for."""
    try:
        play_of(LiveReader(text))
    except Mistake as mistake:
        return mistake.line, mistake.cause
    return None


def hint_of(lines):
    """The hint that these lines behind the head get."""
    try:
        play_of(LiveReader(HEAD + lines))
    except Mistake as mistake:
        return mistake.hint
    return None


class Plays(unittest.TestCase):
    def test_sections(self):
        """Behind the k-th block stands wait k, and the blocks are DBASE's."""
        commands = b"group 1\nadd 0 1\n", BLOCK, b"frame\n", b"buffer\nmerge\n", b"sync\n"
        play = play_of(LiveReader(HEAD + b"".join(commands)))
        head, application = play.split(b"group 1\n")
        self.assertEqual(head, HEAD.replace(b"perfly live 1", b"perfly 2"))
        self.assertEqual(application, b"add 0 1\nwait 1\nframe\nwait 2\nsync\ndbase\n" + BLOCK + b"buffer\nmerge\n")
        self.assertEqual(Playing(read_play(play)).to_end(), [])

    def test_no_blocks(self):
        text = HEAD.replace(b"app", b"channels 2\napp") + b"cview 1 0 0 0 1 2 3\nframe\n"
        self.assertEqual(play_of(LiveReader(text)), text.replace(b"live 1", b"2"))

    def test_inline(self):
        """A block that is merged has its edits among the application's, one that is refused has none."""
        refused = b"buffer\ngroup 8\nbadd 99 8\nmerge\n"
        dropped = b"buffer\ngroup 9\nadd 9 9\nbadd 1 9\nbremove 1 7\nmerge\n"
        text = HEAD + b"group 1\nadd 0 1\n" + refused + BLOCK + b"frame\n" + dropped + b"frame\n"
        play = play_of(LiveReader(text), is_inline=True)
        due = b"group 1\nadd 0 1\ngeode 7 0 1\n" + TRIANGLE + b"add 1 7\nframe\ngroup 9\nadd 1 9\nremove 1 7\nframe\n"
        self.assertEqual(play.partition(b"app\n")[2], due)
        self.assertTrue(is_fenced(read_play(play)))
        self.assertEqual(Playing(read_play(play)).to_end(), [])


class OfPlays(unittest.TestCase):
    def test_blocks(self):
        """A block stands where the application waits for it, or at the end."""
        start, empty = b"group 1\nadd 0 1\nframe\n", b"buffer\nmerge\n"
        play = HEAD.replace(b"live 1", b"1") + start + b"wait 2\nframe\nwait 1\nsync\ndbase\nawait 1\n" + BLOCK + empty * 2
        self.assertEqual(live_of(play), HEAD + start + BLOCK + empty + b"frame\nsync\n" + empty)
        with self.assertRaisesRegex(ValueError, "line 6 waits for merge 1, and the play has 0"):
            live_of(HEAD.replace(b"live 1", b"1") + b"wait 1\n")

    def test_examples(self):
        """The examples come back from live texts with the same edits."""
        for name in ("paging", "shaded"):
            play = (TOP / "examples" / f"{name}.play").read_bytes()
            back = read_play(play_of(LiveReader(live_of(play))))
            self.assertEqual([step.edit for step in back.application], [step.edit for step in read_play(play).application])
            given = [step.edit for step in read_play(play).dbase if step.edit.command != "await"]
            self.assertEqual([step.edit for step in back.dbase], given)


class Refused(unittest.TestCase):
    def test_as_plays(self):
        """Without waits and DBASE a live text is refused as the play of the same lines, but for the number of
        triangles."""
        seen = set()
        for row in read_rows():
            first, _, rest = row.text.partition(b"\n")
            barred = any(word in rest for word in (b"wait", b"dbase", b"buffer", b"merge"))
            if first not in (b"perfly 1", b"perfly 2") or barred or len(rest) > 100000:
                continue
            try:
                due = read_play(b"perfly 2\n" + rest) and None
            except Mistake as mistake:
                due = mistake.line, mistake.cause
            with self.subTest(row.name):
                self.assertEqual(refusal_of(b"perfly live 1\n" + rest), due)
                seen.add(due)
        self.assertGreater(len(seen), 10)

    def test_lines(self):
        after = HEAD.count(b"\n") + 1
        for lines, line, cause in (
                (b"wait 1\n", after, "Command"), (b"dbase\n", after, "Command"),
                (b"buffer\nawait 1\n", after + 1, "Command"),
                (b"buffer\nbuffer\n", after + 1, "Command"), (b"buffer\nframe\n", after + 1, "Command"),
                (b"badd 0 1\n", after, "Command"), (b"buffer\nmerge\nmerge\n", after + 2, "Command"),
                (b"geode 1 0 1\nframe\n", after + 1, "Command"), (b"geode 1 0 1\n", after + 1, "Count"),
                (b"buffer\ngroup 1\n", after + 2, "Count"), (b"buffer \n", after, "Fields"),
                (b"group 0\n", after, "Range"), (b"group 07\n", after, "Number"),
                (b"cview 1 0 0 0 0 0 0\n", after, "Range"), (b"frame", after, "Length"),
                (b"frame" * 300 + b"\n", after, "Length"), (b"geode 1 0 4097\n", after, "Range")):
            with self.subTest(lines):
                self.assertEqual(refusal_of(HEAD + lines), (line, cause))

    def test_head(self):
        for text, line, cause in ((b"", 1, "Count"), (b"perfly live 1", 1, "Length"),
                                  (b"perfly live 2\n", 1, "Version"), (b"perfly 2\n", 1, "Version"),
                                  (b"perfly live 1\n", 2, "Count"), (HEAD[:-4], 5, "Count"),
                                  (HEAD.replace(b"lens 3 1 9", b"lens 3 9 1"), 3, "Range")):
            with self.subTest(text):
                self.assertEqual(refusal_of(text), (line, cause))

    def test_count(self):
        with mock.patch.object(LiveReader, "most_lines", 6):
            self.assertIsNone(refusal_of(HEAD + b"frame\n"))
            self.assertEqual(refusal_of(HEAD + b"frame\n\n"), (7, "Count"))
            self.assertEqual(refusal_of(HEAD + b"frame\nfra"), (7, "Count"))

    def test_hints(self):
        self.assertIn("a merge is made where its block stands", hint_of(b"wait 1\n"))
        self.assertIn("open one with buffer", hint_of(b"badd 0 1\n"))
        self.assertIn("group is near", hint_of(b"grup 1\n"))
        with self.assertRaisesRegex(Mistake, "this is a play, which perfly plays"):
            play_of(LiveReader(b"perfly 2\n"))
        with self.assertRaisesRegex(Mistake, "tools/live2play makes a play of it"):
            read_play(HEAD)


class Limits(unittest.TestCase):
    def told(self, lines, **patched):
        """What is told of a text that is too large for a play with these limits."""
        with mock.patch.multiple(limits, **patched), self.assertRaises(TooLarge) as raised:
            play_of(LiveReader(HEAD + lines))
        return str(raised.exception)

    def test_each(self):
        self.assertEqual(self.told(b"frame\nframe\n", LINES=6), "line 7: the play would have more than 6 lines")
        self.assertEqual(self.told(b"frame\n" + BLOCK, LINES=12), "line 7: the play would have more than 12 lines")
        self.assertEqual(self.told(BLOCK + b"verts 7 1\n" + TRIANGLE, TRIANGLES=1),
                         "line 11: the play would have more than 1 triangles")
        size = len(play_of(LiveReader(HEAD + BLOCK)))
        self.assertEqual(self.told(BLOCK + b"frame\n", BYTES=size),
                         f"line 11: the play would have more than {size} bytes")

    def test_many_triangles(self):
        """A live text may bring more triangles than a play."""
        many = b"geode 1 0 4096\n" + TRIANGLE * 4096
        with self.assertRaisesRegex(TooLarge, "more than 65,536 triangles"):
            play_of(LiveReader(HEAD + many * 17))

    def test_beginning(self):
        """Of a text that goes on, a beginning in which a line more is due is too large, and no mistake."""
        with self.assertRaisesRegex(TooLarge, "line 8: .* bytes"):
            play_of(LiveReader(HEAD + b"buffer\ngroup 1\ngro", goes_on=True))


class Command(unittest.TestCase):
    def test_play(self):
        done = run("live2play", given=HEAD + BLOCK + b"frame\n")
        self.assertEqual((done.returncode, done.stderr), (0, b""))
        self.assertIn(b"\nwait 1\nframe\ndbase\nbuffer\n", done.stdout)
        done = run("live2play", "--inline", given=HEAD + b"group 1\n" + BLOCK + b"frame\n")
        self.assertTrue(done.stdout.endswith(b"badd 1 7\nframe\n".replace(b"badd", b"add")))

    def test_refused(self):
        done = run("live2play", given=HEAD + b"grup 1\n")
        self.assertEqual((done.returncode, done.stdout), (1, b""))
        self.assertEqual(done.stderr, b"live2play: line 6: Command: there is no command grup; group is near to it\n")
        self.assertEqual(run("live2play", "--check", given=HEAD + b"grup 1\n").stderr, done.stderr)

    def test_check(self):
        done = run("live2play", "--check", given=HEAD + b"frame\n" * 300000)
        self.assertEqual((done.returncode, done.stdout, done.stderr), (0, b"", b""))


if __name__ == "__main__":
    unittest.main()
