"""A flight simulator in a browser page, drawn by perfly_live; `start` beside this file is its command.

    aeroplane   the flight model, in whole numbers
    land        the ground as its triangles are, and what stands on it, by tiles
    paging      tiles that are built ahead of the aeroplane, and deleted behind it
    scene       what is drawn at each tick, and from where
    flight      a flight, tick by tick
    keys        flights that are recorded, by their keys
    serving     the page, the keys and the pictures on the loopback
"""
import pathlib
import sys

HERE = pathlib.Path(__file__).resolve().parent
EXAMPLES = HERE.parent
sys.path.insert(0, str(EXAMPLES.parent / "tools"))
