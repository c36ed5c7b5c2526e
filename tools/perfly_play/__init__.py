"""Writes and reads perfly's plays in Python, with the standard library alone.

    shapes      triangles, boxes, lathed bodies, ground, and things made of them
    writing     Play: writes a play, and refuses at once what perfly would refuse; has perfly draw it
    paths       where an eye or a thing is at each frame, from a few stops
    terrain     ground from a height field: PGM, ESRI ASCII
    meshes      reads models, by the readers of each form: wavefront (OBJ), ply, stl, off, gltf
    textures    reads textures, and gives the corners of a triangle their colours
    placing     puts a model in its place: its upright, its size, fewer triangles, smooth normals
    modelling   makes the geodes of a play out of a model, and moves the eye about it
    reading     reads a play as perfly does, and gives its first mistake a hint
    live_text   reads a live text as perfly_live does, and makes a play of it, or one of a play
    graph       the scene graph of a play, with the faults of its edits
    sight       what of a graph a view shows
    playing     plays a play without drawing it
    fences      which merges of a play have more than one place
    seeing      which triangle is seen at each pixel, how far away, and where
    parts       plays that draw some of the frames of a whole
    driving     Live: drives perfly_live, a frame at a time
    rendering   has perfly draw a play: its frames, and its report
    pictures    PPM in; side by side, scaled down; PNG out
    comparing   which pictures of two streams differ, and their sums
    limits      the limits of a play

A first play:

    from perfly_play import Play, shapes

    play = Play(320, 240)
    ground = play.geode(0, 1, shapes.flat(-90, 0, 90, 300, 0, (92, 132, 62)))
    house = play.geode(0, 2, shapes.house(0, 40, 0, 10, 8, 6, (225, 215, 190), (170, 75, 55)))
    for k in range(24):
        play.look_at((k - 12, -10, 8), (0, 40, 3))
        play.frame()
    play.write("house.play")
    for number, image in enumerate(play.pictures(), 1):
        image.write(f"house{number:02}.png")
"""
from .driving import EditRefused, Live, LiveError
from .rendering import RenderError
from .writing import Play, PlayError

__all__ = ["EditRefused", "Live", "LiveError", "Play", "PlayError", "RenderError"]
