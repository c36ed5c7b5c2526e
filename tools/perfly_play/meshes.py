"""Reads models of triangles, by the ending of their names: OBJ, PLY, STL, OFF, and glTF 2.0 (.gltf and .glb).

What a play has no place for (lines, curves, single points, animation) is left out and counted in Model.left_out.
"""
import pathlib

from .gltf import read_gltf
from .models import Facet, MeshError, Model
from .off import read_off
from .ply import read_ply
from .polygons import triangles_of
from .stl import read_stl
from .wavefront import read_obj

__all__ = ["READERS", "Facet", "MeshError", "Model", "read_model", "triangles_of"]

READERS = {".obj": read_obj, ".ply": read_ply, ".stl": read_stl, ".off": read_off, ".gltf": read_gltf, ".glb": read_gltf}


def read_model(path: pathlib.Path | str) -> Model:
    """The model in a file, by its name's ending; raises MeshError, with the place in the file where it can be told."""
    path = pathlib.Path(path)
    reader = READERS.get(path.suffix.lower())
    if reader is None:
        raise MeshError(f"{path}: its name ends with none of {' '.join(READERS)}; other formats can be made one of these by "
                        "a converter, as assimp export IN OUT.glb")
    model = reader(path)
    if not model.facets:
        raise MeshError(f"{path}: there are no faces in it; left out: {model.left_out_line()}")
    return model
