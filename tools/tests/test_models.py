"""The models that examples/models/make writes, of every form, are read as they were made."""
import pathlib
import subprocess
import sys
import tempfile
import unittest

from perfly_play import placing
from perfly_play.meshes import READERS, read_model

from .rows import TOP

# of each file its triangles, those with colours, its materials, and the axis that is up
MADE = {
    "gear.stl": (220, 0, 1, "z"), "vase.stl": (1800, 0, 1, "z"), "knot.off": (2880, 2880, 1, "y"), "gem.off": (100, 100, 1, "y"),
    "island.ply": (3200, 3200, 1, "z"), "globe.obj": (3600, 3600, 2, "y"), "pawns.obj": (1056, 1056, 4, "z"),
    "aquarium.obj": (220, 220, 5, "y"), "windmill.gltf": (120, 120, 3, "y"), "lamp.glb": (312, 312, 4, "y"),
}


class Made(unittest.TestCase):
    def test_each(self):
        self.assertEqual({pathlib.Path(name).suffix for name in MADE}, set(READERS))
        with tempfile.TemporaryDirectory() as folder:
            subprocess.run([sys.executable, "-B", TOP / "examples" / "models" / "make", folder], check=True)
            for name, expected in MADE.items():
                with self.subTest(name):
                    model = read_model(pathlib.Path(folder) / name)
                    up = placing.guessed_up(model.facets, placing.USUAL[pathlib.Path(name).suffix])
                    found = (len(model.facets), sum(bool(facet.colours) for facet in model.facets), len(model.opacities), up)
                    self.assertEqual(found, expected)
                    self.assertEqual(sum(model.left_out.values()), 0)
