"""Reads PLY, the text and both binary forms: faces with the colours of corners or faces, or of their texture."""
import pathlib
import re
import struct
from typing import NamedTuple

from .models import MeshError, Model, Paint
from .texts import number_of
from .textures import Textures

TYPES = {"char": "b", "int8": "b", "uchar": "B", "uint8": "B", "short": "h", "int16": "h", "ushort": "H",
             "uint16": "H", "int": "i", "int32": "i", "uint": "I", "uint32": "I", "float": "f", "float32": "f",
             "double": "d", "float64": "d"}
ORDERS = {"binary_little_endian": "<", "binary_big_endian": ">", "ascii": None}


class _Property(NamedTuple):
    """A property of a PLY element: its name, the kind of its values, and of their number where it is a list."""

    name: str
    kind: str
    count_kind: str = None


def read_ply(path: pathlib.Path) -> Model:
    """The model in a PLY file: faces with the colours of their corners, or colours of their own."""
    data = path.read_bytes()
    order, elements, picture, at = _header(path, data)
    try:
        if any(not 0 <= count <= len(data) for _, count, _ in elements):
            raise ValueError
        table = _text(elements, data[at:]) if order is None else _binary(elements, data, at, order)
    except (ValueError, IndexError, OverflowError, struct.error):
        raise MeshError(f"{path}: the file ends too early, or has other values than its header says") from None
    return _model(path, {name: properties for name, _, properties in elements}, table, picture)


END_OF_HEADER = re.compile(rb"(?:\r\n|\r|\n)end_header[ \t]*(\r\n|\r|\n)")


def _header(path, data):
    """The order of bytes, the elements (name, number, properties), the texture's file or None, and where the values begin.

    Its lines may end with CR alone; then the values begin behind one byte, whatever it is followed by."""
    end = END_OF_HEADER.search(data)
    if not data.startswith(b"ply") or end is None:
        raise MeshError(f"{path}: it does not begin as a PLY file")
    order, elements, picture = None, [], None
    for number, line in enumerate(data[:end.start()].decode("ascii", "replace").splitlines(), 1):
        words = line.split()
        try:
            if words[:1] == ["format"]:
                order = ORDERS[words[1]]
            elif words[:1] == ["element"]:
                elements.append((words[1], int(words[2]), []))
            elif words[:2] == ["property", "list"]:
                elements[-1][2].append(_Property(words[4], TYPES[words[3]], TYPES[words[2]]))
            elif words[:1] == ["property"]:
                elements[-1][2].append(_Property(words[2], TYPES[words[1]]))
            elif words[:2] == ["comment", "TextureFile"]:
                picture = line.split(None, 2)[2].strip()
        except (KeyError, IndexError, ValueError):
            raise MeshError(f"{path}: line {number}, in its header: {line.strip()[:60]}") from None
    has_cr_alone = data[3:4] == b"\r" and data[4:5] != b"\n"
    return order, elements, picture, end.start(1) + 1 if has_cr_alone else end.end()


def _text(elements, data):
    """The values of each element: a list of rows, a value for each property."""
    lines = (line.split() for line in data.decode("ascii", "replace").splitlines() if line.strip())
    table = {}
    for name, count, properties in elements:
        rows = []
        for _ in range(count):
            words = iter(next(lines, []))
            rows.append([_value(words, p) for p in properties])
        table[name] = rows
    return table


def _value(words, prop):
    """The next value of a line, or the next list."""
    try:
        number = number_of if prop.kind in "fd" else int
        if prop.count_kind is None:
            return number(next(words))
        return [number(next(words)) for _ in range(int(next(words)))]
    except StopIteration:
        raise ValueError from None


def _binary(elements, data, at, order):
    """The values of each element, likewise."""
    table = {}
    for name, count, properties in elements:
        if all(p.count_kind is None for p in properties):
            form = struct.Struct(order + "".join(p.kind for p in properties))
            table[name] = [form.unpack_from(data, at + k * form.size) for k in range(count)]
            at += count * form.size
            continue
        table[name] = rows = []
        for _ in range(count):
            row = []
            for prop in properties:
                size = 1
                if prop.count_kind:
                    size, = struct.unpack_from(order + prop.count_kind, data, at)
                    at += struct.calcsize(prop.count_kind)
                form = f"{order}{size}{prop.kind}"
                values = struct.unpack_from(form, data, at)
                at += struct.calcsize(form)
                row.append(values if prop.count_kind else values[0])
            rows.append(row)
    return table


def _model(path, elements, table, picture):
    """The model that the vertices and the faces make."""
    model = Model()
    points = _columns(elements, table, "vertex", ("x", "y", "z"))
    faces = _columns(elements, table, "face", ("vertex_indices",)) or \
        _columns(elements, table, "face", ("vertex_index",))
    if points is None or faces is None:
        raise MeshError(f"{path}: it has no faces, of which a play is made")
    normals = _columns(elements, table, "vertex", ("nx", "ny", "nz"))
    colours = _colours(elements, table, "vertex")
    own = _colours(elements, table, "face")
    paint_of = _paints(path, model, elements, table, picture)
    for number, (face,) in enumerate(faces):
        if any(not 0 <= n < len(points) for n in face):
            raise MeshError(f"{path}: face {number} names a corner that is not there")
        if len(face) < 3:
            model.left_out["faces with fewer than three corners"] += 1
            continue
        of_face = [own[number]] * len(face) if own else colours and [colours[n] for n in face]
        model.add_polygon([points[n] for n in face], normals and [normals[n] for n in face], of_face,
                          paint=paint_of(number, face))
    for name in sorted(table.keys() - {"vertex", "face"}):
        model.left_out[f"the element {name}"] += len(table[name])
    return model


def _paints(path, model, elements, table, picture):
    """The paint of each face, as a function of its number and its corners; it gives None where there is no texture."""
    texture = picture and Textures(model).of_file(path.parent, picture)
    if not texture:
        return lambda number, face: None
    of_corners = [_columns(elements, table, "vertex", names) for names in (("s", "t"), ("u", "v"),
                                                                               ("texture_u", "texture_v"))]
    places = next(filter(None, of_corners), None)
    lists = _columns(elements, table, "face", ("texcoord",))

    def paint(number, face):
        if lists and len(lists[number][0]) == 2 * len(face):
            return Paint(texture, list(zip(lists[number][0][::2], lists[number][0][1::2])))
        return Paint(texture, [places[n] for n in face]) if places else None
    return paint


def _columns(elements, table, element, names):
    """These properties of each row of an element; None where it has not all of them."""
    properties = [p.name for p in elements.get(element, ())]
    if not all(name in properties for name in names):
        return None
    places = [properties.index(name) for name in names]
    return [tuple(row[k] for k in places) for row in table[element]]


def _colours(elements, table, element):
    """The colours of an element's rows, from 0 to 255; None where it has none."""
    kinds = {p.name: p.kind for p in elements.get(element, ())}
    for names in (("red", "green", "blue"), ("r", "g", "b"), ("diffuse_red", "diffuse_green", "diffuse_blue")):
        columns = _columns(elements, table, element, names)
        if columns is not None:
            scale = {"f": 255, "d": 255, "H": 255 / 65535}.get(kinds[names[0]], 1)
            return [tuple(max(0, min(255, round(scale * c))) for c in row) for row in columns]
    return None
