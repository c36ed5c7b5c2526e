"""Paths, and ground from height fields."""
import pathlib
import tempfile
import unittest

from perfly_play import Play, PlayError, limits, paths, terrain
from perfly_play.reading import read_play

HEIGHTS = [[1, 2, 300], [4, 5, 6]]
GRID = "ncols 3\nnrows 2\nxllcorner 0\nyllcorner 0\ncellsize 30\nNODATA_value -1\n1 2 300\n4 -1 6\n"


class Paths(unittest.TestCase):
    def test_path(self):
        path = paths.Path([(1, (0, 0)), (11, (10, 20)), (21, (10, 20))])
        self.assertEqual([path.at(frame) for frame in (0, 1, 6, 11, 16, 99)],
                         [(0, 0), (0, 0), (5, 10), (10, 20), (10, 20), (10, 20)])
        self.assertEqual(list(path.frames()), list(range(1, 22)))
        for ease, part in ((paths.steady, 0.25), (paths.gentle, 0.15625), (paths.starting, 0.0625), (paths.stopping, 0.4375)):
            self.assertEqual(paths.Path([(0, (0,)), (4, (1,))], ease).at(1), (part,))
            self.assertEqual((ease(0), ease(1)), (0, 1))

    def test_curve(self):
        curve = paths.Curve([(0, (0, 0)), (10, (10, 10)), (20, (20, 0))])
        self.assertEqual([curve.at(frame) for frame in (0, 10, 20)], [(0, 0), (10, 10), (20, 0)])
        self.assertAlmostEqual(curve.at(9.99)[1], curve.at(10.01)[1])
        straight = paths.Curve([(0, (0,)), (4, (8,)), (6, (12,))])
        self.assertAlmostEqual(straight.at(5)[0], 10)

    def test_errors(self):
        for stops, told in (([], "no stop"), ([(2, (0,)), (2, (1,))], "must rise"), ([(1, (0,)), (2, (1, 2))], "as many numbers")):
            with self.assertRaisesRegex(PlayError, told):
                paths.Path(stops)


class Terrain(unittest.TestCase):
    def read(self, data):
        """The field of a file with these bytes."""
        with tempfile.NamedTemporaryFile() as file:
            pathlib.Path(file.name).write_bytes(data)
            return terrain.read(file.name)

    def test_formats(self):
        plain = b"P2\n# of a map\n3 2\n300\n1 2 300\n4 5 6\n"
        raw = b"P5 3 2 300\n" + b"".join(n.to_bytes(2, "big") for row in HEIGHTS for n in row)
        for data in (plain, raw):
            self.assertEqual(self.read(data).rows, HEIGHTS)
        self.assertEqual(self.read(b"P5 2 2 255\n\1\2\3\4").rows, [[1, 2], [3, 4]])
        self.assertEqual(self.read(GRID.encode()).rows, [[1, 2, 300], [4, None, 6]])

    def test_wrong_files(self):
        for data, told in ((b"P5 3 2 255\n\1", "ends too early"), (b"P6\n", "neither a PGM"), (b"\xff\xfe", "neither a PGM"),
                           (GRID[:-3].encode(), "6 heights|3 by 2 heights are due"), (b"P5 1 2 255\n\1\2", "at least two"),
                           (b"P2 2", "neither a PGM")):
            with self.subTest(data), self.assertRaisesRegex(PlayError, told):
                self.read(data)

    def test_ground(self):
        rows = [[x * x + 3 * y for x in range(40)] for y in range(30)]
        ground = terrain.Ground(terrain.Field(rows), width=390, relief=100, x=5, y=7, z=2)
        tiles = list(ground.tiles())
        self.assertEqual(sum(map(len, tiles)), 2 * 39 * 29)
        self.assertLessEqual(max(map(len, tiles)), limits.GEODE_TRIANGLES)
        for triangle in tiles[3]:
            for x, y, z in triangle.corners:
                self.assertAlmostEqual(ground.height(x, y), z)
        self.assertAlmostEqual(ground.height(5 - 195, 7 + 145), 2)
        self.assertAlmostEqual(ground.height(5 + 195, 7 - 145), 102)
        with self.assertRaisesRegex(PlayError, "no ground at 300, 0"):
            ground.height(300, 0)
        play = Play(8, 8)
        ground.add_to(play, 0)
        self.assertEqual(read_play(play.text().encode()).triangles, 2 * 39 * 29)

    def test_large_and_holes(self):
        field = terrain.Field([[x ^ y for x in range(90)] for y in range(70)])
        ground = terrain.Ground(field, 100, 10, most=3000)
        self.assertEqual(sum(map(len, ground.tiles())), 2 * (89 // 2) * (69 // 2))
        hole = terrain.Ground(self.read(GRID.encode()), 2, 1)
        self.assertEqual(sum(map(len, hole.tiles())), 1)
        with self.assertRaisesRegex(PlayError, "no data at 0"):
            hole.height(0, 0)


if __name__ == "__main__":
    unittest.main()
