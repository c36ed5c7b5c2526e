"""Reads STL, the text and the binary form. A play has no place for its normals, which are those of its triangles."""
import pathlib
import struct

from .models import MeshError, Model
from .texts import decoded, lines_of, number_of

RECORD = struct.Struct("<12fH")  # of the binary form: a normal, three corners, and a word that may be a colour


def read_stl(path: pathlib.Path) -> Model:
    """The model in an STL file; colours of the binary form are kept, those of VisCAM and those of Magics."""
    data = path.read_bytes()
    count = struct.unpack_from("<I", data, 80)[0] if len(data) >= 84 else 0
    if len(data) >= 84 and len(data) == 84 + RECORD.size * count:
        return _binary(data, count)
    if data.lstrip()[:5].lower() == b"solid":
        return _text(path, data)
    if len(data) >= 84 and len(data) > 84 + RECORD.size * count:
        return _binary(data, count)
    raise MeshError(f"{path}: it is neither a text that begins with solid, nor has it the "
                    f"{84 + RECORD.size * count:,} bytes that its number of triangles, {count:,}, says")


def _binary(data, count):
    model = Model()
    is_magics = b"COLOR=" in data[:80]
    for *numbers, word in RECORD.iter_unpack(data[84:84 + RECORD.size * count]):
        colour = None
        if bool(word & 32768) != is_magics:
            parts = [(word >> shift & 31) * 255 // 31 for shift in (10, 5, 0)]
            colour = tuple(parts[::-1] if is_magics else parts)
        model.add_polygon([tuple(numbers[k:k + 3]) for k in (3, 6, 9)], None, colour and [colour] * 3)
    return model


def _text(path, data):
    model, points = Model(), []
    for number, line in enumerate(lines_of(decoded(data)), 1):
        words = line.split()
        try:
            if words[:1] and words[0].lower() == "vertex":
                points.append(tuple(number_of(word) for word in words[1:4]))
                if len(points[-1]) < 3:
                    raise ValueError
            elif words[:1] and words[0].lower() == "endloop":
                if len(points) < 3:
                    raise ValueError
                model.add_polygon(points, None, None)
                points = []
        except ValueError:
            raise MeshError(f"{path}: line {number}: {line.strip()[:60]}") from None
    return model
