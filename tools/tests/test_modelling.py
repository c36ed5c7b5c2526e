"""Models are put in their places, shaded and cut into geodes."""
import pathlib
import unittest

from perfly_play import Play, modelling, placing
from perfly_play.meshes import Facet, Model, read_model
from perfly_play.reading import read_play

DATA = pathlib.Path(__file__).resolve().parent / "data"


def grid(n, height):
    """The facets of a square of n by n fields, its height a function of its corner."""
    def at(i, j):
        return (i, j, height(i, j))
    return [Facet(corners, None, None) for i in range(n) for j in range(n)
            for corners in ((at(i, j), at(i + 1, j), at(i + 1, j + 1)), (at(i, j), at(i + 1, j + 1), at(i, j + 1)))]


class Placing(unittest.TestCase):
    def test_centred(self):
        facets = placing.centred(read_model(DATA / "ring.ply").facets, 20)
        low, high = placing.box_of(facets)
        self.assertAlmostEqual(placing.extent(facets), 20)
        for a, b in zip(low, high):
            self.assertAlmostEqual(a, -b)

    def test_axes(self):
        """Each turn takes its axis to the upright, and keeps what is left and right."""
        for axis, turn in placing.TURNS.items():
            sign = -1 if axis.startswith("-") else 1
            self.assertEqual(turn(*(sign * (axis[-1] == name) for name in "xyz")), (0, 0, 1))
            (a, b, c), (d, e, f), (g, h, i) = turn(1, 0, 0), turn(0, 1, 0), turn(0, 0, 1)
            self.assertEqual(a * (e * i - f * h) - b * (d * i - f * g) + c * (d * h - e * g), 1)

    def test_guess(self):
        """A pyramid stands on its ground, whichever way it was written; a cube is left as is usual."""
        ground, top = ((0, 0, 0), (8, 0, 0), (8, 8, 0), (0, 8, 0)), (4, 4, 9)
        pyramid = [Facet((ground[k - 1], ground[k], top), None, None) for k in range(4)]
        for axis in placing.TURNS:
            back = next(t for t in placing.TURNS.values() for u in [placing.TURNS[axis]] if u(*t(1, 2, 3)) == (1, 2, 3))
            laid = [facet._replace(points=tuple(back(*p) for p in facet.points)) for facet in pyramid]
            self.assertEqual({placing.guessed_up(laid, usual) for usual in "yz"}, {axis})
        cube = [Facet((a, b, c), None, None) for a, b, c in [((0, 0, 0), (8, 8, 0), (8, 0, 8)), ((0, 8, 8), (0, 0, 8), (8, 8, 8))]]
        self.assertEqual(placing.guessed_up(cube + [Facet(((8, 0, 0), (0, 8, 0), (0, 0, 0)), None, None)], "y"), "y")

    def test_coarsened(self):
        facets = read_model(DATA / "ring.ply").facets
        self.assertLess(len(placing.coarsened(facets, 4)), len(facets))
        self.assertEqual(len(placing.coarsened(facets, placing.FINEST)), len(facets))

    def test_finest(self):
        facets = grid(40, lambda i, j: 0)
        cells = placing.finest(facets, 1000)
        self.assertLessEqual(len(placing.coarsened(facets, cells)), 1000)
        self.assertGreater(len(placing.coarsened(facets, cells + 1)), 1000)

    def test_smoothed(self):
        """On a gentle ridge the normal is upright; over a sharp edge it is that of each side."""
        for height, is_smooth in ((0.1, True), (10, False)):
            facet = placing.smoothed(grid(2, lambda i, j, h=height: h * (i == 1)))[0]
            x, _, z = facet.normals[facet.points.index((1, 1, height))]
            self.assertEqual(abs(x) < 0.1 * z, is_smooth)


class Modelling(unittest.TestCase):
    def test_pieces(self):
        facets = read_model(DATA / "lantern.obj").facets
        parts = modelling.pieces(facets, 50)
        self.assertLessEqual(max(map(len, parts)), 50)
        self.assertCountEqual([facet for part in parts for facet in part], facets)

    def test_glass(self):
        """Glass is cut into small pieces by itself, what is opaque as is asked for."""
        model = Model()
        model.facets = grid(3, lambda i, j: 0)
        for opacity, geodes, command in ((1.0, 1, "geode"), (0.5, 18, "glass")):
            model.opacities = [opacity]
            play = Play(8, 8)
            self.assertEqual(modelling.add_model(play, 0, model, modelling.Light((0, 0, 1)), (9, 9, 9), 500), geodes)
            steps = read_play(play.text().encode()).application
            self.assertEqual(sum(step.edit.command == command for step in steps), geodes)

    def test_light_of_the_eye(self):
        """What faces the eye is as bright on all sides; a copy of the model is shown for each place of the eye."""
        for side in (1, -1):
            self.assertEqual(modelling.brightness((0, side, 0), modelling.Light((0, 5, 0), True)), 1)
        model = Model()
        model.facets = grid(1, lambda i, j: 0)
        play = Play(8, 8)
        places = modelling.turntable(10, 100, 8, 6, 20)
        self.assertEqual(modelling.play_lit_views(play, 0, model, places, (200, 200, 200), 500), (1, 6))
        steps = [step.edit for step in read_play(play.text().encode()).application]
        self.assertEqual([edit.fields[1] for edit in steps if edit.command == "sw"], [0, 1, 2, 3, 4, 5])
