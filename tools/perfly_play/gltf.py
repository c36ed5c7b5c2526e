"""Reads glTF 2.0, as a text with its buffers in it or beside it (.gltf) or in one file (.glb).

Node transforms, triangles of every order, normals, colours of corners and materials, opacity and textures are read.
Lines, points, skins, morphs and animations are left out and told.
"""
import base64
import binascii
import json
import math
import pathlib
import struct
import urllib.parse

from .models import MeshError, Model, Paint, colour_of
from .textures import Textures

KINDS = {5120: "b", 5121: "B", 5122: "h", 5123: "H", 5125: "I", 5126: "f"}
WIDTHS = {"SCALAR": 1, "VEC2": 2, "VEC3": 3, "VEC4": 4, "MAT2": 4, "MAT3": 9, "MAT4": 16}
FULL = {"b": 127, "B": 255, "h": 32767, "H": 65535}  # what stands for 1 where an accessor is normalized
TRIANGLES, STRIP, FAN = 4, 5, 6
DEEPEST = 200  # of nodes below nodes
MOST = 1 << 24  # rows of an accessor without a buffer, and nodes that are gone through
SAME = (1, 0, 0, 0, 0, 1, 0, 0, 0, 0, 1, 0, 0, 0, 0, 1)
READ = {"KHR_texture_transform", "KHR_materials_pbrSpecularGlossiness", "KHR_mesh_quantization", "KHR_materials_unlit"}


def read_gltf(path: pathlib.Path) -> Model:
    """The model that the scene of a glTF file shows; raises MeshError with the part of the file that is wrong."""
    document, binary = _parts(path, path.read_bytes())
    if not str(document.get("asset", {}).get("version", "")).startswith("2"):
        raise MeshError(f"{path}: it is not glTF 2.0, but of version {document.get('asset', {}).get('version', 'unknown')}")
    reader = _Reader(path, document, binary)
    try:
        reader.read()
    except MeshError as error:
        raise MeshError(f"{path}: {reader.at}{error}") from None
    except (KeyError, IndexError, TypeError, ValueError, AttributeError, struct.error) as error:
        raise MeshError(f"{path}: {reader.at}something is missing or is not as glTF has it "
                        f"({type(error).__name__}: {str(error)[:60]})") from None
    return reader.model


def _parts(path, data):
    """The document, and the binary part of a .glb (empty where there is none)."""
    binary = b""
    if data.startswith(b"glTF"):
        if data[4:8] != struct.pack("<I", 2):
            raise MeshError(f"{path}: it is not glTF 2.0, but of version {int.from_bytes(data[4:8], 'little')}")
        at, parts = 12, {}
        while at + 8 <= len(data):
            size, kind = struct.unpack_from("<I4s", data, at)
            parts.setdefault(kind, data[at + 8:at + 8 + size])
            at += 8 + size
        data, binary = parts.get(b"JSON", b""), parts.get(b"BIN\0", b"")
    try:
        document = json.loads(data.decode("utf-8-sig"))
    except ValueError as error:
        raise MeshError(f"{path}: its text is no JSON: {error}") from None
    if not isinstance(document, dict):
        raise MeshError(f"{path}: its text is not that of a glTF file")
    return document, binary


class _Reader:
    """Goes through the nodes of a document, and adds what they show to the model."""

    def __init__(self, path, document, binary):
        self.path, self.document, self.binary = path, document, binary
        self.model = Model()
        self.textures = Textures(self.model)
        self.buffers, self.materials = {}, {}
        self.visits = 0  # how often a node was gone through
        self.at = ""  # where in the document, for errors

    def things(self, name):
        return self.document.get(name, [])

    def read(self):
        unread = set(self.document.get("extensionsRequired", [])) - READ
        if unread:
            packs = any("draco" in name or "meshopt" in name for name in unread)
            raise MeshError(f"it needs {', '.join(sorted(unread))}, which is not read here"
                            + ("; write it without compression" if packs else ""))
        for name in ("animations", "skins"):
            self.model.left_out[name] += len(self.things(name))
        scenes = self.things("scenes")
        nodes = scenes[self.document.get("scene", 0)].get("nodes", []) if scenes else range(len(self.things("nodes")))
        for node in nodes:
            self.node(node, SAME, 0)

    def node(self, number, above, depth):
        self.at = f"node {number}: "
        self.visits += 1
        if depth > DEEPEST or self.visits > MOST:
            raise MeshError("nodes below nodes without an end")
        node = self.things("nodes")[number]
        matrix = _times(above, _matrix_of(node))
        if "mesh" in node:
            for place, primitive in enumerate(self.things("meshes")[node["mesh"]]["primitives"]):
                self.at = f"mesh {node['mesh']}, primitive {place}: "
                self.primitive(primitive, matrix)
        for child in node.get("children", []):
            self.node(child, matrix, depth + 1)

    def primitive(self, primitive, matrix):
        mode = primitive.get("mode", TRIANGLES)
        if mode not in (TRIANGLES, STRIP, FAN):
            self.model.left_out["primitives of lines or points"] += 1
            return
        self.model.left_out["morphs"] += len(primitive.get("targets", []))
        attributes = primitive["attributes"]
        points = [_carried(matrix, p, 1) for p in self.accessor(attributes["POSITION"])]
        normals = None
        if "NORMAL" in attributes:
            turn = _cofactors(matrix)
            normals = [_carried(turn, n, 0) for n in self.accessor(attributes["NORMAL"])]
        number, factor, texture, coordinates = self.material(primitive.get("material"))
        colours = None
        if "COLOR_0" in attributes:
            colours = [_srgb([c * f for c, f in zip(row, factor or (1, 1, 1))]) for row in
                       self.accessor(attributes["COLOR_0"], True)]
        places = self.accessor(attributes[coordinates], True) if texture and coordinates in attributes else None
        order = [row[0] for row in self.accessor(primitive["indices"])] if "indices" in primitive else range(len(points))
        if order and max(order) >= min(len(things) for things in (points, normals, colours, places) if things is not None):
            raise MeshError("a face names a corner that is not there")
        is_mirrored = _mirrors(matrix)
        for corners in _triangles(order, mode):
            corners = corners[::-1] if is_mirrored else corners
            own = [colours[k] for k in corners] if colours else factor and [_srgb(factor)] * 3
            self.model.add_polygon([points[k] for k in corners], normals and [normals[k] for k in corners], own, number,
                                   Paint(texture, [places[k] for k in corners]) if places else None)

    def material(self, number):
        """The number of a material in the model, its colour (linear, from 0 to 1; None where it says none), its texture (or
        None), and the name of the coordinates in it."""
        if number is None:
            return 0, None, None, ""
        if number not in self.materials:
            self.materials[number] = self.new_material(self.things("materials")[number])
        return self.materials[number]

    def new_material(self, material):
        base = material.get("pbrMetallicRoughness", {})
        factor, texture = base.get("baseColorFactor"), base.get("baseColorTexture")
        other = material.get("extensions", {}).get("KHR_materials_pbrSpecularGlossiness")
        if other and not base:
            factor, texture = other.get("diffuseFactor"), other.get("diffuseTexture")
        opacity = (factor or (1, 1, 1, 1))[3] if material.get("alphaMode") == "BLEND" else 1.0
        picture = texture and self.picture(texture["index"])
        return (self.model.new_material(float(opacity)), factor and factor[:3], picture,
                f"TEXCOORD_{texture.get('texCoord', 0)}" if texture else "")

    def picture(self, number):
        """The texture of this number; None where it cannot be read."""
        source = self.things("textures")[number].get("source")
        if source is None:
            self.model.left_out[f"texture {number}, which is in another form than PNG or JPEG"] += 1
            return None
        image = self.things("images")[source]
        uri = image.get("uri", "")
        if uri and not uri.startswith("data:"):
            return self.textures.of_file(self.path.parent, urllib.parse.unquote(uri), from_top=True)
        name = image.get("name") or f"of image {source}"
        return self.textures.of_bytes(f"{source}/{name.replace('/', ' ')}",
                                      lambda: _embedded(uri) if uri else self.view(image["bufferView"])[0], from_top=True)

    # Buffers

    def buffer(self, number):
        if number not in self.buffers:
            uri = self.things("buffers")[number].get("uri")
            if uri is None:
                self.buffers[number] = self.binary
            elif uri.startswith("data:"):
                self.buffers[number] = _embedded(uri)
            else:
                file = self.path.parent / urllib.parse.unquote(uri)
                if not file.is_file():
                    raise MeshError(f"its buffer {file.name} is not there")
                self.buffers[number] = file.read_bytes()
        return self.buffers[number]

    def view(self, number):
        """The bytes of a view of a buffer, and the bytes from one of its things to the next (None where they touch)."""
        view = self.things("bufferViews")[number]
        start = view.get("byteOffset", 0)
        return self.buffer(view["buffer"])[start:start + view["byteLength"]], view.get("byteStride")

    def accessor(self, number, as_parts=False):
        """The rows of an accessor; as parts of 1 where it is normalized, or where `as_parts` is asked of whole numbers."""
        accessor = self.things("accessors")[number]
        kind, width, count = KINDS[accessor["componentType"]], WIDTHS[accessor["type"]], accessor["count"]
        if "bufferView" in accessor:
            rows = self.rows(accessor["bufferView"], accessor.get("byteOffset", 0), kind, width, count)
        elif 0 <= count <= MOST:
            rows = [(0,) * width] * count
        else:
            raise MeshError(f"an accessor of {count} rows")
        if "sparse" in accessor:
            self.set_sparse(rows, accessor["sparse"], kind, width)
        if kind in FULL and (accessor.get("normalized") or as_parts):
            rows = [tuple(max(-1.0, c / FULL[kind]) for c in row) for row in rows]
        return rows

    def rows(self, view, offset, kind, width, count):
        data, stride = self.view(view)
        form = struct.Struct(f"<{width}{kind}")
        stride = stride or form.size
        if count and offset + stride * (count - 1) + form.size > len(data):
            raise MeshError("an accessor reaches behind the end of its buffer")
        return [form.unpack_from(data, offset + stride * k) for k in range(count)]

    def set_sparse(self, rows, sparse, kind, width):
        """Sets the rows that a sparse accessor names."""
        at, by = sparse["indices"], sparse["values"]
        places = self.rows(at["bufferView"], at.get("byteOffset", 0), KINDS[at["componentType"]], 1, sparse["count"])
        values = self.rows(by["bufferView"], by.get("byteOffset", 0), kind, width, sparse["count"])
        for (place,), value in zip(places, values):
            rows[place] = value


def _embedded(uri):
    """The bytes of a data URI."""
    head, _, body = uri.partition(",")
    try:
        return base64.b64decode(body) if head.endswith(";base64") else urllib.parse.unquote_to_bytes(body)
    except binascii.Error:
        raise MeshError("a data URI that is no base64") from None


def _triangles(order, mode):
    """The corners of the triangles of a primitive."""
    if mode == TRIANGLES:
        return [tuple(order[k:k + 3]) for k in range(0, len(order) - 2, 3)]
    if mode == FAN:
        return [(order[0], order[k], order[k + 1]) for k in range(1, len(order) - 1)]
    return [(order[k], order[k + 1 + k % 2], order[k + 2 - k % 2]) for k in range(len(order) - 2)]


def _srgb(parts):
    """The colour of three linear parts from 0 to 1, as screens have it."""
    return colour_of([12.92 * c if c <= 0.0031308 else 1.055 * c ** (1 / 2.4) - 0.055 for c in parts[:3]])


# Matrices of four columns, one behind the other, as glTF has them


def _matrix_of(node):
    if "matrix" in node:
        return tuple(node["matrix"])
    (x, y, z, w), scale, place = node.get("rotation", (0, 0, 0, 1)), node.get("scale", (1, 1, 1)), node.get("translation",
                                                                                                       (0, 0, 0))
    columns = ((1 - 2 * (y * y + z * z), 2 * (x * y + z * w), 2 * (x * z - y * w)),
               (2 * (x * y - z * w), 1 - 2 * (x * x + z * z), 2 * (y * z + x * w)),
               (2 * (x * z + y * w), 2 * (y * z - x * w), 1 - 2 * (x * x + y * y)))
    return tuple(c * s for column, s in zip(columns, scale) for c in (*column, 0)) + (*place, 1)


def _times(a, b):
    return tuple(sum(a[4 * k + row] * b[4 * column + k] for k in range(4)) for column in range(4) for row in range(4))


def _carried(matrix, vector, last):
    """A point (last 1) or a direction (last 0) taken through a matrix."""
    x, y, z = vector[:3]
    return tuple(matrix[row] * x + matrix[4 + row] * y + matrix[8 + row] * z + last * matrix[12 + row] for row in range(3))


def _cofactors(matrix):
    """The matrix that takes normals where the other takes points."""
    a, b, c = (matrix[4 * k:4 * k + 3] for k in range(3))
    sign = -1 if _mirrors(matrix) else 1

    def cross(u, v):
        return tuple(sign * (u[(i + 1) % 3] * v[(i + 2) % 3] - u[(i + 2) % 3] * v[(i + 1) % 3]) for i in range(3))
    return (*cross(b, c), 0, *cross(c, a), 0, *cross(a, b), 0, 0, 0, 0, 1)


def _mirrors(matrix):
    a, b, c = (matrix[4 * k:4 * k + 3] for k in range(3))
    return math.fsum(a[i] * (b[(i + 1) % 3] * c[(i + 2) % 3] - b[(i + 2) % 3] * c[(i + 1) % 3]) for i in range(3)) < 0
