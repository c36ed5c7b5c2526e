"""Models are read as exporters write them."""
import base64
import json
import pathlib
import struct
import tempfile
import unittest

from perfly_play.meshes import MeshError, read_model, triangles_of

DATA = pathlib.Path(__file__).resolve().parent / "data"


def model_of(text, name="model.obj"):
    """The model of a file with this text."""
    with tempfile.TemporaryDirectory() as folder:
        path = pathlib.Path(folder) / name
        path.write_bytes(text if isinstance(text, bytes) else text.encode())
        return read_model(path)


class Obj(unittest.TestCase):
    def test_lantern(self):
        model = read_model(DATA / "lantern.obj")
        self.assertEqual(len(model.facets), 257)
        self.assertEqual(model.opacities, [1.0, 1.0, 0.35, 1.0, 1.0, 1.0])
        self.assertEqual(dict(model.left_out), {"the texture wax.png, which is not there": 1})
        self.assertEqual({facet.colours[0] for facet in model.facets if facet.material == 2}, {(191, 230, 242)})

    def test_forms_of_a_face(self):
        corners = "v 0 0 0\nv 1 0 0\nv 1 1 0\nv 0 1 0\nvt 0 0\nvn 0 0 1\n"
        for face, has_normals in (("f 1 2 3 4", False), ("f -4 -3 -2 -1", False), ("f 1/1 2/1 3/1 4/1", False),
                                  ("f 1//1 2//1 3//1 4//1", True), ("f 1/1/1 2/1/1 \\\n 3/1/1 4/1/1", True)):
            with self.subTest(face):
                model = model_of(f"{corners}{face}\r\n")
                self.assertEqual(len(model.facets), 2)
                self.assertEqual(bool(model.facets[0].normals), has_normals)

    def test_colours_of_corners(self):
        model = model_of("v 0 0 0 1 0 0\nv 1 0 0 0 1 0\nv 0 1 0 0 0 1\nf 1 2 3\n")
        self.assertEqual(model.facets[0].colours, ((255, 0, 0), (0, 255, 0), (0, 0, 255)))

    def test_left_out(self):
        model = model_of("mtllib none.mtl\nusemtl red\nv 0 0 0\nv 1 0 0\nv 0 1 0\nf 1 2 3\nl 1 2\np 1\n")
        self.assertEqual(sum(model.left_out.values()), 4)
        with self.assertRaisesRegex(MeshError, r"faces with corners that are nowhere \(1\)"):
            model_of("v 0 0 nan\nv 1 0 0\nv 0 1 0\nf 1 2 3\n")

    def test_as_programs_write_them(self):
        """What stands behind the faces, CR and UTF-16, numbers that are none, and normals that are nowhere."""
        text = "f 1//1 2//1 3//1\nv 0 0 0\nv 1 0 0\nv 0 1 0\nvn 0 0 1\n"
        for name, data in (("behind", text.encode()), ("CR", text.replace("\n", "\r").encode()),
                           ("a mark", text.encode("utf-8-sig")), ("UTF-16", text.encode("utf-16")),
                           ("UTF-16 BE without a mark", text.encode("utf-16-be"))):
            with self.subTest(name):
                facet, = model_of(data).facets
                self.assertEqual((facet.points[1], facet.normals), ((1, 0, 0), ((0, 0, 1),) * 3))
        model = model_of("v 0 0 1.#IND\nv 1 0 0\nv 0 1 0\nv 0 0 0\nf 1 2 3\nf 4//9 2//9 3//9\n")
        self.assertEqual(len(model.facets), 1)
        self.assertEqual(dict(model.left_out), {"numbers that are none": 1, "faces with corners that are nowhere": 1,
                                                "faces whose normals are not there": 1})

    def test_materials(self):
        """A material without a name, an opacity that is none, and a texture: white, then red, in its lower left corner."""
        with tempfile.TemporaryDirectory() as folder:
            path = pathlib.Path(folder)
            (path / "m.mtl").write_text("newmtl\nKd 0 0 1\nd 0.5\nnewmtl red\nKd 0.5 0.5 0.5\nmap_Kd -s 1 1 1 C:\\a\\t.ppm\n")
            (path / "t.ppm").write_bytes(b"P6 2 2 255\n" + bytes((255, 255, 255) * 2 + (255, 0, 0) + (255, 255, 255)))
            (path / "model.obj").write_text("mtllib m.mtl\nv 0 0 0\nv 1 0 0\nv 0 1 0\nvt 0.1 0.1\nvt 0.2 0.1\nvt 0.1 0.2\n"
                                            "usemtl\nf 1 2 3\nusemtl red\nf 1/1 2/2 3/3\n")
            model = read_model(path / "model.obj")
        self.assertEqual([facet.colours[0] for facet in model.facets], [(0, 0, 255), (128, 0, 0)])
        self.assertEqual(model.opacities, [1.0, 0.5, 1.0])

    def test_errors(self):
        with self.assertRaisesRegex(MeshError, "line 2: there is no 4 among the 1 of the file"):
            model_of("v 0 0 0\nf 1 1 4\n")
        with self.assertRaisesRegex(MeshError, "line 2: there is no -2 among the 1 so far"):
            model_of("v 0 0 0\nf 1 1 -2\n")
        with self.assertRaisesRegex(MeshError, "line 1: v 0 x 0"):
            model_of("v 0 x 0\n")
        with self.assertRaisesRegex(MeshError, "no faces"):
            model_of("v 0 0 0\n")
        with self.assertRaisesRegex(MeshError, r"ends with none of .obj .ply .stl .off .gltf .glb"):
            model_of("solid", "model.lwo")


class Ply(unittest.TestCase):
    def test_text_and_binary(self):
        text, binary = read_model(DATA / "ring.ply"), read_model(DATA / "ring_binary.ply")
        self.assertEqual(len(text.facets), 72)
        for one, other in zip(text.facets, binary.facets, strict=True):
            self.assertEqual(one.colours, other.colours)
            for a, b in zip(one.points + one.normals, other.points + other.normals):
                for x, y in zip(a, b):
                    self.assertAlmostEqual(x, y, 3)

    def test_errors(self):
        data = (DATA / "ring_binary.ply").read_bytes()
        with self.assertRaisesRegex(MeshError, "ends too early"):
            model_of(data[:-1], "model.ply")
        with self.assertRaisesRegex(MeshError, "no faces"):
            model_of(data.replace(b"element face", b"element side"), "model.ply")
        with self.assertRaisesRegex(MeshError, "as a PLY"):
            model_of(b"", "model.ply")

    def test_cr(self):
        """A header whose lines end with CR alone; the values begin behind one byte."""
        data = (DATA / "ring_binary.ply").read_bytes()
        head, _, body = data.partition(b"end_header\n")
        read = model_of(head.replace(b"\n", b"\r") + b"end_header\r" + body, "model.ply")
        self.assertEqual(read.facets, read_model(DATA / "ring_binary.ply").facets)


class Stl(unittest.TestCase):
    CORNERS = (0, 0, 0), (1, 0, 0), (0, 1, 0)
    TEXT = ("solid a\n facet normal 0 0 1\n  outer loop\n" + "".join("   vertex %d %d %de0\r\n" % p for p in CORNERS)
            + "  endloop\n endfacet\nendsolid a\n")

    @staticmethod
    def binary(*words, head=b"solid in a binary file"):
        """A file with a triangle for each of these words."""
        numbers = [c for p in Stl.CORNERS for c in p]
        return (head.ljust(80, b"\0") + struct.pack("<I", len(words))
                + b"".join(struct.pack("<12fH", 0, 0, 1, *numbers, word) for word in words))

    def test_both_forms(self):
        for data in (self.TEXT, self.binary(0), self.binary(0, head=b"exported")):
            facet, = model_of(data, "model.stl").facets
            self.assertEqual(facet[:3], (self.CORNERS, None, None))

    def test_colours(self):
        facets = model_of(self.binary(32768 | 31 << 10, 0), "model.stl").facets
        self.assertEqual([facet.colours and facet.colours[2] for facet in facets], [(255, 0, 0), None])
        facet, = model_of(self.binary(31, head=b"COLOR=...."), "model.stl").facets
        self.assertEqual(facet.colours[0], (255, 0, 0))

    def test_errors(self):
        with self.assertRaisesRegex(MeshError, "line 5: vertex 1 0 x"):
            model_of(self.TEXT.replace("1 0 0e0", "1 0 x"), "model.stl")
        with self.assertRaisesRegex(MeshError, "nor has it the 134 bytes that its number of triangles, 1, says"):
            model_of(self.binary(0, head=b"cut")[:-1], "model.stl")


class Off(unittest.TestCase):
    def test_kinds(self):
        corners = ("0 0 0", "1 0 0", "0 1 0")
        for head, of_corner, of_face, normals, colours in (
                ("OFF\n# a comment\n3 1 0", "", "", None, None), ("OFF 3 1 0", "", " 255 0 0", None, (255, 0, 0)),
                ("COFF\n3 1 0", " 0.0 1.0 0.0 1.0", "", None, (0, 255, 0)), ("NOFF\n3 1 0", " 0 0 1", "", (0, 0, 1), None),
                ("CNOFF\n\n3 1 0", " 0 0 1 0 0 255 255", "", (0, 0, 1), (0, 0, 255))):
            with self.subTest(head):
                text = "\n".join([head, *(corner + of_corner for corner in corners), "3 0 1 2" + of_face]) + "\n"
                facet, = model_of(text, "model.off").facets
                self.assertEqual(facet[:3], (((0, 0, 0), (1, 0, 0), (0, 1, 0)), normals and (normals,) * 3,
                                             colours and (colours,) * 3))

    def test_errors(self):
        for text, told in (("OFF\n3 1 0\n0 0 0\n", "ends behind line 3"), ("OFF\n1 1 0\n0 0 0\n3 0 0 1\n", "line 4: the face"),
                           ("OFF\n1 0 0\n0 x 0\n", "line 3: a number"), ("", "begin with OFF")):
            with self.assertRaisesRegex(MeshError, told):
                model_of(text, "model.off")


class Gltf(unittest.TestCase):
    """A strip of two triangles, moved and turned by its node, with a material of half red."""

    POINTS, ORDER = ((0, 0, 0), (1, 0, 0), (0, 1, 0), (1, 1, 0)), (0, 1, 2, 3)
    BUFFER = struct.pack("<12f4H", *(c for p in POINTS for c in p), *ORDER)

    def document(self, **changes):
        return {
            "asset": {"version": "2.0"}, "scene": 0, "scenes": [{"nodes": [0]}],
            "nodes": [{"translation": [10, 0, 0], "scale": [2, 2, 2], "children": [1]},
                      {"rotation": [0, 0, 0.5 ** 0.5, 0.5 ** 0.5], "mesh": 0}],
            "meshes": [{"primitives": [{"mode": 5, "attributes": {"POSITION": 0}, "indices": 1, "material": 0}]}],
            "materials": [{"alphaMode": "BLEND", "pbrMetallicRoughness": {"baseColorFactor": [0.216, 0, 0, 0.25]}}],
            "accessors": [{"bufferView": 0, "componentType": 5126, "type": "VEC3", "count": 4},
                          {"bufferView": 1, "componentType": 5123, "type": "SCALAR", "count": 4}],
            "bufferViews": [{"buffer": 0, "byteLength": 48}, {"buffer": 0, "byteOffset": 48, "byteLength": 8}],
            "buffers": [{"byteLength": len(self.BUFFER)}], **changes}

    def glb(self, **changes):
        text = json.dumps(self.document(**changes)).encode()
        text += b" " * (-len(text) % 4)
        parts = [struct.pack("<I4s", len(data), kind) + data for kind, data in ((b"JSON", text), (b"BIN\0", self.BUFFER))]
        return struct.pack("<4sII", b"glTF", 2, 12 + sum(map(len, parts))) + b"".join(parts)

    def test_forms(self):
        uri = "data:application/octet-stream;base64," + base64.b64encode(self.BUFFER).decode()
        embedded = json.dumps(self.document(buffers=[{"uri": uri, "byteLength": len(self.BUFFER)}]))
        for data, name in ((self.glb(), "model.glb"), (embedded, "model.gltf")):
            model = model_of(data, name)
            self.assertEqual([[tuple(round(c, 9) for c in p) for p in facet.points] for facet in model.facets],
                             [[(10, 0, 0), (10, 2, 0), (8, 0, 0)], [(10, 2, 0), (8, 2, 0), (8, 0, 0)]])
            self.assertEqual((model.facets[0].colours[0], model.opacities), ((128, 0, 0), [1.0, 0.25]))

    def test_errors(self):
        for changes, told in (({"asset": {"version": "1.0"}}, "not glTF 2.0, but of version 1.0"),
                              ({"extensionsRequired": ["KHR_draco_mesh_compression"]}, "write it without compression"),
                              ({"nodes": [{"children": [0]}]}, "nodes below nodes without an end"),
                              ({"buffers": [{"uri": "a.bin"}]}, "primitive 0: its buffer a.bin is not there"),
                              ({"bufferViews": [{"buffer": 0, "byteLength": 40}] * 2}, "behind the end of its buffer"),
                              ({"materials": []}, "mesh 0, primitive 0: something is missing")):
            with self.subTest(told), self.assertRaisesRegex(MeshError, told):
                model_of(self.glb(**changes), "model.glb")


class Polygons(unittest.TestCase):
    def test_concave(self):
        arrow = [(0, 0, 0), (2, 0, 0), (2, 2, 0), (1, 0.5, 0)]
        self.assertEqual(len(triangles_of(arrow)), 2)
        areas = [abs((b[0] - a[0]) * (c[1] - a[1]) - (b[1] - a[1]) * (c[0] - a[0])) / 2
                 for a, b, c in ([arrow[k] for k in corners] for corners in triangles_of(arrow))]
        self.assertAlmostEqual(sum(areas), 1.5)
