"""Parts of a play: plays that draw some of the frames of a whole, from its text alone."""
from typing import Iterable, Iterator

AWAY = "0 -1073741823 0 1800 0 0"  # an eye behind all things that looks away from them


class Lines:
    """The lines of a play, by section, each with its number; how many frames it has, and how many bytes one of them."""

    head: list[str]
    app: list[tuple[int, str]]
    base: list[tuple[int, str]]

    def __init__(self, text: str):
        """Of a text that is no play, as far as is looked at, a ValueError says what it lacks."""
        lines = text.splitlines()
        if not lines or lines[0] not in ("perfly 1", "perfly 2") or "app" not in lines:
            raise ValueError("it is no play")
        app = lines.index("app")
        base = lines.index("dbase") if "dbase" in lines else len(lines)
        self.head = lines[:app + 1]
        self.app = list(enumerate(lines[app + 1:base], app + 2))
        self.base = list(enumerate(lines[base:], base + 1))
        words = {line.split()[0]: line.split()[1:] for line in self.head if line.split()}
        try:
            width, height = map(int, words["size"])
            self.channels = int(words.get("channels", ["1"])[0])
        except (KeyError, ValueError, IndexError):
            raise ValueError("it is no play: it has no size") from None
        self.frame_bytes = self.channels * (len(f"P6\n{width} {height}\n255\n") + 3 * width * height)
        self.frames = sum(line == "frame" for _, line in self.app)

    def has_history(self) -> bool:
        """Whether what a frame shows may depend on the frames before it: by a sequence that runs, or by DBASE."""
        return bool(self.base) or any(line.startswith("run ") for _, line in self.app)


def number_of(line: str) -> int:
    """The first number of a line, or 0."""
    word = line.split()[1:2]
    return int(word[0]) if word and word[0].isdigit() else 0


def view_line(channel: int, view: str) -> str:
    """The line that sets the view of a channel."""
    return f"view {view}" if channel == 0 else f"cview {channel} {view}"


def part(play: Lines, first: int, last: int) -> list[str]:
    """The lines of a play that draws frames first to last as the whole does, behind cheap ones."""
    views = ["0 0 0 0 0 0"] * play.channels
    lines = list(play.head)
    if first > 1:
        lines += [view_line(channel, AWAY) for channel in range(play.channels)]
    begun = 0
    for _, line in play.app:
        if begun == last:
            break
        word, _, rest = line.partition(" ")
        if first > 1 and begun < first:
            if word in ("view", "cview"):
                channel, view = (0, rest) if word == "view" else (number_of(line), rest.partition(" ")[2])
                if channel < play.channels:
                    views[channel] = view
                continue
            if word == "frame" and begun == first - 1:
                lines += [view_line(channel, view) for channel, view in enumerate(views)]
        begun += word == "frame"
        lines.append(line)
    return lines + list(_base_part(play.base, last))


def part_alone(play: Lines, first: int, last: int) -> list[str]:
    """The lines of a play that draws frames first to last and no others, of a play without history."""
    lines, begun = list(play.head), 0
    for _, line in play.app:
        if begun == last:
            break
        begun += line == "frame"
        if line != "frame" or begun >= first:
            lines.append(line)
    return lines


def _base_part(base: Iterable[tuple[int, str]], last: int) -> Iterator[str]:
    """Of DBASE, what it does before it awaits a frame that the part has not; whole buffers."""
    held: list[str] = []
    for _, line in base:
        if line.startswith("await ") and number_of(line) > last:
            return
        held.append(line)
        if line in ("dbase", "merge"):
            yield from held
            held = []
