"""Drives perfly_live, a frame at a time: a program makes edits while it runs, and gets the picture of each frame.

    from perfly_play import Live, shapes

    with Live(320, 240) as world:
        house = world.geode(0, 2, shapes.house(0, 40, 0, 10, 8, 6, (225, 215, 190), (170, 75, 55)))
        for k in range(24):
            world.look_at((k - 12, -10, 8), (0, 40, 3))
            world.frame().write(f"house{k:02}.png")

Edits are made in the order in which they are given, and told in the program's report. Each of them is judged by its
numbers at its call (PlayError), and by the scene when it is made: that one was refused is raised at the next frame
(EditRefused).
"""
import collections
import contextlib
import functools
import os
import select
import subprocess
import threading
from typing import IO, Any, Callable, Iterator, Literal, NamedTuple, Sequence, overload

from . import forms, limits
from .forms import Edit
from .pictures import Image, PictureError, beside, read_pixels, rows_of
from .rendering import RenderError, find_program
from .shapes import Triangle
from .writing import Application, Buffer, Colour, Node, PlayError, head_lines, spelled

PIECE = 1 << 16  # bytes of the live text that are held at most, and that are read of a report at once
ENDING = 10  # seconds in which the streams of a program that was ended come to their ends
KEPT = 1 << 16  # refused edits and freed serials that are kept until they are taken; older ones are dropped


class LiveError(RenderError):
    """Why the program goes on no more; the status is the program's, or 1 where it has none."""


class Reply:
    """What became of an edit: its line (of a block, of a frame and of a view how the report tells them), and the fault
    that it was refused for, as the report tells it, or None where it was made."""

    def __init__(self, line: str, caller: str = "app", edits: Sequence[Edit] = ()):
        self.line, self.caller, self.edits = line, caller, edits
        self.fault: str | None = None
        self.is_told = False

    @property
    def is_ok(self) -> bool:
        """Whether the edit was made."""
        return self.is_told and self.fault is None

    def __str__(self) -> str:
        return f"{self.line}: {self.fault or ('ok' if self.is_told else 'not told yet')}"

    def __repr__(self) -> str:
        return f"<Reply {self}>"


class EditRefused(LiveError):
    """Edits that the scene refused; all others were made, and the program goes on."""

    def __init__(self, replies: Sequence[Reply]):
        shown = "; ".join(map(str, replies[:3])) + ("; .." if len(replies) > 3 else "")
        super().__init__(f"refused: {shown}")
        self.replies = list(replies)


class Hit(NamedTuple):
    """What the probe's segment met first: how far along it, from 0 to 1, the place in the scene, the triangle, the
    geode's id."""

    share: float
    place: int
    triangle: int
    node: int


class Numbers(NamedTuple):
    """What the report tells of a frame: its number, what was shown, the states of it, the nodes visited, what the probe
    met."""

    number: int
    shown: int
    states: int
    visited: int
    hit: Hit | None


class Frame(Image):
    """The picture of a frame, and what the report tells of the frame.

    `data` has three bytes a pixel, row by row; `numpy.asarray(frame)` is an array of height by width by 3, without a
    copy. The pictures of several channels stand side by side, and each by itself in `channels`.
    """

    def __init__(self, channels: Sequence[tuple[int, int, bytes]], numbers: Numbers):
        self.width, self.height, self.data = channels[0]
        self._pieces = []
        if len(channels) > 1:
            self._pieces = [Image(width, height, rows_of(width, height, data)) for width, height, data in channels]
            whole = beside(self._pieces)
            self.width, self.data = whole.width, b"".join(whole.rows)
        self.number, self.shown, self.states, self.visited, self.hit = numbers

    @property
    def channels(self) -> list[Image]:
        """The picture of each channel."""
        return self._pieces or [self]

    @functools.cached_property
    def rows(self) -> list[bytes]:
        """The rows of the picture, from the top."""
        return rows_of(self.width, self.height, self.data)

    @property
    def __array_interface__(self) -> dict[str, Any]:
        return {"version": 3, "typestr": "|u1", "shape": (self.height, self.width, 3), "data": self.data}


class Ids:
    """The ids of nodes. One is given out again when its node was deleted; the serials of the nodes are counted as
    perfly does."""

    def __init__(self) -> None:
        self._lock = threading.Lock()
        self._used: set[int] = set()
        self._spare: dict[int, None] = {}  # in the order in which they came back
        self._next, self._serial = 1, 1
        self.serials = {0: 0}

    def take(self, chosen: Node) -> int | None:
        """The chosen id, or one that no node has; None where there is none left."""
        with self._lock:
            while chosen is None and self._next <= limits.IDENTIFIER and len(self._spare) < limits.NODES:
                chosen = self._next if self._next not in self._used else None
                self._next += 1
            if chosen is None:
                chosen = next((spare for spare in self._spare if spare not in self.serials), None)
            if chosen is not None:
                self._spare.pop(chosen, None)
                self._used.add(chosen)
            return chosen

    def note(self, reply: Reply) -> None:
        """Takes note of what became of an edit or a block."""
        with self._lock:
            for edit in reply.edits:
                if edit.command in forms.MAKERS and reply.fault is None:
                    self.serials[edit.fields[0]] = self._serial
                    self._serial += 1
                elif edit.command in forms.MAKERS and edit.fields[0] not in self.serials \
                        or edit.command == "delete" and reply.fault is None:
                    self._put_back(edit.fields[0])

    def put_back(self, edits: Sequence[Edit]) -> None:
        """Lets the ids of the nodes that these edits would have made be given out again."""
        with self._lock:
            for edit in edits:
                if edit.command in forms.MAKERS and edit.fields[0] not in self.serials:
                    self._put_back(edit.fields[0])

    def _put_back(self, node: int) -> None:
        """Lets an id be given out again."""
        self.serials.pop(node, None)
        if node in self._used:
            self._used.remove(node)
            self._spare[node] = None


class Live(Application):
    """A scene that perfly_live draws while it is edited. It has the calls of Play, and a frame gives its picture.

    Its calls may come from several threads; each edit, frame and block is given whole. A block is built in a `with`, by
    its own thread alone, and given where the `with` ends.
    """

    def __init__(self, width: int, height: int, focal: int | None = None, back: Colour = (150, 190, 225),
                 near: float = 1, far: float = 1000, channels: int | None = None, *, words: Sequence[str] = (),
                 strict: bool = True, timeout: float | None = 60, record: str | os.PathLike | None = None,
                 program: str | os.PathLike | None = None):
        """The size, the lens and the channels as those of Play; the program is started at once.

        `words` are perfly_live's, as ("--mode", "app_cull_draw"). With `strict` a refused edit is raised at the next
        frame; without it `take_refused` has it. A call that waits, while nothing comes for `timeout` seconds, raises a
        LiveError; None waits for ever. `record` is a file that gets the live text. The program is that of PERFLY_LIVE,
        the built one of this repository, or perfly_live on the PATH.
        """
        super().__init__(self, channels)
        head = ["perfly live 1", *head_lines(width, height, focal, back, near, far, channels), "app"]
        self._strict, self._timeout = strict, timeout
        self._ids, self._mine = Ids(), threading.local()
        self._order = threading.RLock()  # guards what is given, in its order; held while the program is written to
        self._out: list[str] = []
        self._held = self._begun = 0
        self._is_closed = self._is_news = False
        self._changed = threading.Condition()  # guards what came; never held while a stream is written to or read
        self._due: collections.deque[Reply] = collections.deque()
        self._refused: collections.deque[Reply] = collections.deque(maxlen=KEPT)
        self._freed: collections.deque[int] = collections.deque(maxlen=KEPT)
        self._images: collections.deque[tuple[int, int, bytes]] = collections.deque()
        self._numbers: collections.deque[Numbers] = collections.deque()
        self._frames: dict[int, Frame] = {}
        self._ahead: collections.deque[int] = collections.deque()
        self._came = 0
        self._message = self._wrong = ""
        self._status: int | None = None
        self._start([_program(program), *words], record)
        self._write(head)

    def _start(self, call: Sequence[str], record: str | os.PathLike | None) -> None:
        """Starts the program, and the threads that read what it writes."""
        self._record: IO[bytes] | None = open(record, "wb") if record is not None else None
        self._process = subprocess.Popen(call, stdin=subprocess.PIPE, stdout=subprocess.PIPE, stderr=subprocess.PIPE)
        assert self._process.stdin and self._process.stdout and self._process.stderr
        self._commands: IO[bytes] = self._process.stdin
        os.set_blocking(self._commands.fileno(), False)
        self._shown: IO[bytes] = self._process.stdout
        self._told: IO[bytes] = self._process.stderr
        self._readers = [threading.Thread(target=read, daemon=True)
                         for read in (self._read_pictures, self._read_report)]
        self._reading = len(self._readers)
        for reader in self._readers:
            reader.start()

    def __enter__(self) -> "Live":
        return self

    def __exit__(self, kind: Any, error: Any, trace: Any) -> None:
        if error is None:
            self.close()
        else:
            self._end()

    # What is given

    @overload
    def frame(self, wait: Literal[True] = True) -> Frame: ...

    @overload
    def frame(self, wait: Literal[False]) -> None: ...

    def frame(self, wait: bool = True) -> Frame | None:
        """Draws the scene as it now stands; returns the picture. With wait=False it returns at once, and `pictures` has
        the picture: so several frames are under way. Pictures that are not taken stay in memory."""
        with self._order:
            self._begun += 1
            number = self._begun
            if not wait:
                self._ahead.append(number)
            self._give(Reply(f"frame {number}"), ["frame"])
            self._flush()
        if not wait:
            self._raise_refused()
            return None
        picture = self._take(number)
        self._raise_refused()
        return picture

    def pictures(self, wait: bool = True) -> Iterator[Frame]:
        """The pictures of the frames that were not waited for, in their order, each once; with wait=False those that
        have come."""
        while True:
            with self._changed:
                if not self._ahead or not wait and self._ahead[0] not in self._frames:
                    return
                number = self._ahead.popleft()
            yield self._take(number)
            self._raise_refused()

    @contextlib.contextmanager
    def buffer(self) -> Iterator[Buffer]:
        """A block: what is made in it comes into the scene in one step where the `with` ends, all of it or, at a fault,
        nothing. Where an exception ends the `with`, nothing of it is given."""
        block = Buffer(self, [])
        try:
            yield block
        except BaseException:
            self._ids.put_back(block.edits)
            raise
        self._give(Reply(f"merge {len(block.edits)} 0", "dbase", block.edits), ["buffer", *block.lines, "merge"])

    def reply(self) -> Reply:
        """What became of the last edit, block, view or frame that this thread gave. It waits for it, and where the edit
        was refused it is not raised any more."""
        reply: Reply | None = getattr(self._mine, "reply", None)
        if reply is None:
            raise LiveError("this thread has given nothing yet")
        self._flush()
        self._await(lambda: reply.is_told, f"the reply to {reply.line}")
        with self._changed:
            if reply in self._refused:
                self._refused.remove(reply)
        return reply

    def settle(self) -> None:
        """Waits until all that was given is made and told, and each picture has come."""
        with self._order, self._changed:
            last, frames = (self._due[-1] if self._due else None), self._begun
        self._flush()
        self._await(lambda: (last is None or last.is_told) and self._came >= frames, "what was given")
        self._raise_refused()

    def serial(self, node: int) -> int:
        """The serial of a node, which no other node ever has; it waits until the node is made."""
        if node not in self._ids.serials:
            self._flush()
            self._await(lambda: node in self._ids.serials or not self._due, f"node {node}")
        if node not in self._ids.serials:
            raise PlayError(f"there is no node {node}")
        return self._ids.serials[node]

    def take_freed(self) -> list[int]:
        """The serials of the nodes that were freed since the last call: deleted ones that no frame under way shows."""
        return self._take_all(self._freed)

    def take_refused(self) -> list[Reply]:
        """The edits that were refused since the last call, and not raised."""
        return self._take_all(self._refused)

    def close(self) -> None:
        """Ends the program when it has done all that was given; `pictures` still has what came."""
        if self._is_closed:
            return
        try:
            with self._order:
                self._flush()
                self._is_closed = True
                self._commands.close()
            self._await(lambda: self._status is not None, "the end of perfly_live")
            if self._status:
                raise self._why()
        finally:
            self._end()
        self._raise_refused()

    # What the sections call

    def take_id(self, chosen: Node = None) -> int:
        """An id that no node has, or the chosen one."""
        if chosen is not None:
            spelled("group", (chosen,))
        node = self._ids.take(chosen)
        if node is None:  # some may come back by what was not told yet
            self._flush()
            self._await(lambda: not self._due, "what was given")
            node = self._ids.take(chosen)
        if node is None:
            raise PlayError(f"there is no id left; a scene has at most {limits.NODES:,} nodes at once")
        return node

    def check_count(self, command: str, triangles: int) -> None:
        """Any number of triangles may come, while each geode is within its limit."""

    def note(self, command: str, triangles: int) -> None:
        """Nothing has to be noted."""

    def _say(self, command: str, *values: Any, triangles: Sequence[Triangle] = ()) -> Edit:
        edit, lines = spelled(command, values, triangles)
        self._give(Reply(forms.line(edit), edits=[edit]), lines)
        return edit

    def _act(self, line: str) -> None:
        if line == "sync":  # how many syncs the report tells is the program's choice
            self._write([line])
        else:
            self._give(Reply(line), [line])

    # Writing

    def _give(self, reply: Reply, lines: list[str]) -> None:
        """Gives a command, whose reply is then due."""
        with self._order:
            self._write(lines, reply)
        self._mine.reply = reply

    def _write(self, lines: list[str], reply: Reply | None = None) -> None:
        """Writes lines, which may be held for a while."""
        with self._order:
            if self._is_closed:
                raise LiveError("perfly_live was closed")
            if reply is not None:
                with self._changed:
                    self._due.append(reply)
            text = "\n".join(lines)
            self._out.append(text)
            self._held += len(text) + 1
            if self._held > PIECE:
                self._flush()

    def _flush(self) -> None:
        """Gives the program what is held."""
        with self._order:
            if not self._out or self._is_closed:
                return
            text = ("\n".join(self._out) + "\n").encode("ascii")
            self._out, self._held = [], 0
            if self._record:
                self._record.write(text)
            left = memoryview(text)
            while left:
                try:
                    left = left[os.write(self._commands.fileno(), left):]
                except BlockingIOError:
                    self._await_room()
                except BrokenPipeError:
                    self._await(lambda: False, "the end of perfly_live")

    def _await_room(self) -> None:
        """Waits until the program takes more of what is given, or has ended."""
        room = select.poll()
        room.register(self._commands, select.POLLOUT)
        while not room.poll(None if self._timeout is None else 1000 * self._timeout):
            with self._changed:
                is_news, self._is_news = self._is_news, False
            if not is_news:
                raise LiveError(f"what was given is not taken: for {self._timeout:g} seconds nothing was")

    # Reading; each in a thread of its own

    def _read_pictures(self) -> None:
        try:
            for image in read_pixels(self._shown):
                with self._changed:
                    self._images.append(image)
                    self._put_frames()
        except (PictureError, OSError, ValueError) as error:
            self._complain(f"the pictures: {error}")
        self._finish()

    def _read_report(self) -> None:
        rest = b""
        try:
            while piece := os.read(self._told.fileno(), PIECE):
                *lines, rest = (rest + piece).split(b"\n")
                with self._changed:
                    for line in lines:
                        self._read_line(line.decode("ascii", "replace"))
                    self._put_frames()
        except (OSError, ValueError) as error:
            self._complain(f"the report: {error}")
        self._finish()

    def _read_line(self, line: str) -> None:
        """Takes a line of the report."""
        words = line.split(" ")
        if words[0] in ("app", "dbase") and words[1:2] == ["sync"]:
            self._freed.extend(map(int, words[6:]))
        elif words[0] in ("app", "dbase"):
            self._take_reply(line)
        elif words[0] == "frame":
            numbers = Numbers(int(words[1]), int(words[3]), int(words[5]), int(words[7]), None)
            self._numbers.append(numbers)
        else:
            self._message = line

    def _take_reply(self, line: str) -> None:
        """Takes the line of an entry, which is that of the command whose reply is due first."""
        entry, _, told = line.partition(" : ")
        reply = self._due.popleft() if self._due else None
        if reply is None or entry != f"{reply.caller} {reply.line}":
            raise ValueError(f"{line!r} is told, where {reply.line if reply else 'nothing'!r} is due")
        reply.fault = None if told == "ok" else told.removeprefix("fault ")
        reply.is_told = True
        self._ids.note(reply)
        if reply.fault:
            self._refused.append(reply)

    def _put_frames(self) -> None:
        """Puts together the frames whose pictures and numbers have all come, and tells who waits."""
        while self._numbers and len(self._images) >= self._channels:
            numbers = self._numbers.popleft()
            self._frames[numbers.number] = Frame([self._images.popleft() for _ in range(self._channels)], numbers)
            self._came = numbers.number
        self._is_news = True
        self._changed.notify_all()

    def _complain(self, what: str) -> None:
        """Keeps what is wrong with the streams of the program, and ends it."""
        with self._changed:
            self._wrong = what
        self._process.kill()

    def _finish(self) -> None:
        """A stream has ended; behind the last one stands the status."""
        with self._changed:
            self._reading -= 1
            is_last = not self._reading
        if is_last:
            status = self._process.wait()
            with self._changed:
                self._status = status
                self._changed.notify_all()

    # Waiting

    def _await(self, is_there: Callable[[], bool], what: str) -> None:
        """Waits until something is there; raises why it does not come."""
        with self._changed:
            while not is_there():
                if self._status is not None:
                    raise self._why()
                if not self._changed.wait(self._timeout):
                    raise LiveError(f"{what} does not come: for {self._timeout:g} seconds nothing did")

    def _take(self, number: int) -> Frame:
        """The picture of a frame, which is taken out of those that came."""
        self._await(lambda: number in self._frames, f"the picture of frame {number}")
        with self._changed:
            return self._frames.pop(number)

    def _take_all(self, things: collections.deque) -> list:
        """All of these, which are taken out."""
        with self._changed:
            taken = list(things)
            things.clear()
            return taken

    def _raise_refused(self) -> None:
        if self._strict and (refused := self.take_refused()):
            raise EditRefused(refused)

    def _why(self) -> LiveError:
        """Why the program has ended."""
        if self._wrong:
            return LiveError(f"perfly_live writes what it should not: {self._wrong}")
        said = self._message or "it said nothing"
        return LiveError(f"perfly_live ended with status {self._status}: {said}", self._status or 1)

    def _end(self) -> None:
        """Ends the program, where it has not ended, and lets go its streams."""
        self._is_closed = True
        if self._status is None:
            self._process.kill()
        self._commands.close()
        if self._record:
            self._record.close()
        for reader, stream in zip(self._readers, (self._shown, self._told)):
            reader.join(ENDING)
            if not reader.is_alive():
                stream.close()


def _program(given: str | os.PathLike | None) -> str:
    """The program, or why there is none."""
    try:
        return find_program(given, "perfly_live")
    except RenderError as error:
        raise LiveError(str(error)) from None
