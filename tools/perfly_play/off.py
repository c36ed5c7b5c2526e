"""Reads OFF, the object file format: its corners with their normals and colours, and its faces with theirs."""
import pathlib
import re

from .models import MeshError, Model, colour_of
from .texts import decoded, lines_of, number_of

HEAD = re.compile(r"(ST)?(C)?(N)?(4)?OFF\b")


def read_off(path: pathlib.Path) -> Model:
    """The model in an OFF file, also COFF, NOFF and CNOFF; raises MeshError with the line."""
    lines = [(number, words) for number, line in enumerate(lines_of(decoded(path.read_bytes())), 1)
             if (words := line.split("#")[0].split())]
    kind = HEAD.match(lines[0][1][0]) if lines else None
    if not kind or "BINARY" in lines[0][1] or kind[4]:
        raise MeshError(f"{path}: " + ("a binary OFF or one of four dimensions is not read; convert it" if kind else
                                       "it does not begin with OFF"))
    del lines[0][1][0]
    return _Reader(path, lines, bool(kind[2]), bool(kind[3])).model()


class _Reader:
    """The lines of an OFF file behind its first word."""

    def __init__(self, path, lines, has_colours, has_normals):
        self.path, self.lines = path, iter(lines)
        self.has_colours, self.has_normals = has_colours, has_normals
        self.number = 0

    def words(self):
        """The words of the next line that has some."""
        for self.number, words in self.lines:
            if words:
                return words
        raise MeshError(f"{self.path}: the file ends behind line {self.number}, before all that its counts say")

    def wrong(self, what):
        return MeshError(f"{self.path}: line {self.number}: {what}")

    def model(self):
        model = Model()
        words = self.words()
        try:
            corners, faces = int(words[0]), int(words[1])
            corner_rows = [self.corner(self.words()) for _ in range(corners)]
            for _ in range(faces):
                self.face(model, corner_rows, self.words())
        except (ValueError, IndexError) as error:
            raise error if isinstance(error, MeshError) else self.wrong("a number is missing, or is none") from None
        return model

    def corner(self, words):
        """A corner's place, normal and colour; the last two are None where it has none."""
        numbers = [number_of(word) for word in words]
        if len(numbers) < 3:
            raise self.wrong("a corner with fewer than three numbers")
        normal = tuple(numbers[3:6]) if self.has_normals and len(numbers) >= 6 else None
        colour = words[6:] if normal else words[3:]
        return tuple(numbers[:3]), normal, _colour(colour) if self.has_colours or len(colour) in (3, 4) else None

    def face(self, model, rows, words):
        count = int(words[0])
        numbers = [int(word) for word in words[1:count + 1]]
        if len(numbers) < count or any(not 0 <= n < len(rows) for n in numbers):
            raise self.wrong("the face names a corner that is not there")
        if count < 3:
            model.left_out["faces with fewer than three corners"] += 1
            return
        points, normals, colours = zip(*(rows[n] for n in numbers))
        own = _colour(words[count + 1:])
        model.add_polygon(points, None if None in normals else normals,
                          [own] * count if own else None if None in colours else colours)


def _colour(words):
    """The colour of three or four words: parts from 0 to 1 if one has a point, else from 0 to 255; None of fewer."""
    if len(words) < 3:
        return None
    numbers = [number_of(word) for word in words[:3]]
    scale = 1 if any("." in word or "e" in word for word in words[:4]) and max(numbers) <= 1 else 255
    return colour_of([n / scale for n in numbers])
