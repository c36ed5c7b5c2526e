"""Reads Wavefront OBJ, with the colours, the opacity and the textures of its material files."""
import math
import pathlib
from typing import NamedTuple

from .models import MeshError, Model, Paint, colour_of
from .texts import joined_lines, number_of
from .textures import Textures

LEFT_OUT = {"l": "lines", "p": "single points", "curv": "curves and curved surfaces", "curv2": "curves and curved surfaces",
            "surf": "curves and curved surfaces"}


def read_obj(path: pathlib.Path) -> Model:
    """The model in a Wavefront OBJ file, its colours from the material files that it names (Kd, d, Tr, map_Kd)."""
    reader = _Reader(path)
    for number, line in joined_lines(path):
        words = line.split()
        try:
            if words and not words[0].startswith("#"):
                reader.take(words, line, number)
        except (ValueError, IndexError) as error:
            raise MeshError(f"{path}: line {number}: {error if isinstance(error, MeshError) else line.strip()[:60]}"
                            ) from None
    return reader.finished()


class _Face(NamedTuple):
    """A face as its line has it: the places of its corners, of their places in a texture and of their normals (None where
    it names none), its material, and its line. What it names may stand behind it."""

    line: int
    points: list
    places: list | None
    normals: list | None
    material: "_Material"


class _Material:
    """A material: its number in the model, its colour (None where it has none), and its texture (None likewise)."""

    def __init__(self, number, colour=None, texture=None):
        self.number, self.colour, self.texture = number, colour, texture


class _Reader:
    """What an OBJ file has said so far."""

    def __init__(self, path):
        self.path, self.folder = path, path.parent
        self.model = Model()
        self.textures = Textures(self.model)
        self.points, self.point_colours, self.places, self.normals, self.faces = [], [], [], [], []
        self.materials = {}  # by name
        self.material = _Material(0)

    def take(self, words, line, number):
        command, rest = words[0], line.split(None, 1)[1].strip() if len(words) > 1 else ""
        if command == "v":
            self.corner(words)
        elif command == "vt":
            self.places.append((self.number(words[1]), self.number(words[2]) if len(words) > 2 else 0.0))
        elif command == "vn":
            self.normals.append(tuple(self.number(word) for word in words[1:4]))
        elif command == "f":
            self.face(words[1:], number)
        elif command == "usemtl":
            self.use(rest)
        elif command == "mtllib":
            self.read_materials(rest)
        elif command in LEFT_OUT:
            self.model.left_out[LEFT_OUT[command]] += 1

    def number(self, word):
        value = number_of(word)
        if not math.isfinite(value):
            self.model.left_out["numbers that are none"] += 1
        return value

    def corner(self, words):
        self.points.append(tuple(self.number(word) for word in words[1:4]))
        self.point_colours.append(colour_of([number_of(word) for word in words[4:7]]) if len(words) >= 7 else None)
        if len(self.points[-1]) < 3:
            raise MeshError("a corner with fewer than three numbers")

    def face(self, words, number):
        if len(words) < 3:
            raise MeshError("a face with fewer than three corners")
        corners = [word.split("/") for word in words]

        def named(k, things):
            """The places that the corners name in their part k; None where one of them names none."""
            return [_place(c[k], things) for c in corners] if all(len(c) > k and c[k] for c in corners) else None
        self.faces.append(_Face(number, [_place(c[0], self.points) for c in corners], named(1, self.places),
                                named(2, self.normals), self.material))

    def use(self, name):
        if name not in self.materials:
            self.model.left_out[f"the colour of {name or 'a material without a name'}, which no file has"] += 1
            self.materials[name] = _Material(self.model.new_material(1.0))
        self.material = self.materials[name]

    def read_materials(self, names):
        """Reads a material file, or where no file has this name several, parted by spaces."""
        whole = self.folder / names.replace("\\", "/")
        for file in [whole] if names and whole.is_file() else [self.folder / n for n in names.split()]:
            if not file.is_file():
                self.model.left_out[f"{file.name}, a file that is not there"] += 1
                continue
            for name, colour, opacity, picture in _materials(file):
                texture = self.textures.of_file(file.parent, picture) if picture else None
                self.materials[name] = _Material(self.model.new_material(opacity), colour, texture)

    def finished(self):
        """The model: the faces, with what they name."""
        for face in self.faces:
            try:
                self.add(face)
            except MeshError as error:
                raise MeshError(f"{self.path}: line {face.line}: {error}") from None
        return self.model

    def add(self, face):
        material = face.material
        points = [_at(place, self.points) for place in face.points]
        colours = [self.point_colours[place] or material.colour for place in face.points]
        places = self.found(face.places, self.places, "faces whose places in a texture are not there")
        self.model.add_polygon(points, self.found(face.normals, self.normals, "faces whose normals are not there"),
                               colours if None not in colours else None, material.number,
                               Paint(material.texture, places) if material.texture and places else None)

    def found(self, numbers, things, what):
        """What the numbers name; None where there are none, or one of them names nothing, which is told."""
        if numbers and max(numbers) >= len(things):
            self.model.left_out[what] += 1
            return None
        return numbers and [things[number] for number in numbers]


def _place(word, things):
    """The place that a number names: counted from 1, or if it is negative from the end of what has come so far."""
    number = int(word)
    place = number - 1 if number > 0 else len(things) + number
    if number == 0 or place < 0:
        raise MeshError(f"there is no {number} among the {len(things)} so far")
    return place


def _at(place, things):
    """The corner at a place, of all that the file has."""
    if place >= len(things):
        raise MeshError(f"there is no {place + 1} among the {len(things)} of the file")
    return things[place]


def _materials(path):
    """The materials of a file: name, colour or None, opacity, and the file of its texture or None."""
    found = []
    for number, line in joined_lines(path):
        words = line.split()
        try:
            if words[:1] == ["newmtl"]:
                found.append([line.strip()[len("newmtl"):].strip(), None, 1.0, None])
            elif words and found:
                _take_material(found[-1], words, line)
        except (ValueError, IndexError):
            raise MeshError(f"{path}: line {number}: {line.strip()[:60]}") from None
    return found


def _take_material(material, words, line):
    if words[0] == "Kd" and words[1] not in ("spectral", "xyz"):
        parts = [number_of(w) for w in words[1:4]]
        material[1] = colour_of((parts * 3)[:3])
    elif words[0] == "d":
        material[2] = _opacity(words[-1])
    elif words[0] == "Tr":
        material[2] = 1 - _opacity(words[-1])
    elif words[0].lower() == "map_kd" and len(words) > 1:
        material[3] = _without_options(line.split(None, 1)[1].strip())


def _opacity(word):
    value = number_of(word)
    return max(0.0, min(1.0, value)) if math.isfinite(value) else 1.0


OPTIONS = {"-colorspace": 1, "-blendu": 1, "-blendv": 1, "-cc": 1, "-clamp": 1, "-imfchan": 1, "-texres": 1, "-bm": 1, "-boost": 1,
           "-type": 1, "-mm": 2, "-o": 3, "-s": 3, "-t": 3}


def _without_options(text):
    """The file's name behind the options of a texture."""
    words = text.split()
    while words[0] in OPTIONS and len(words) > 1:
        most, words = OPTIONS[words[0]], words[1:]
        while most and len(words) > 1 and (most == 1 or _is_number(words[0])):
            most, words = most - 1, words[1:]
    return " ".join(words)


def _is_number(word):
    try:
        float(word)
    except ValueError:
        return False
    return True
