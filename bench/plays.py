#!/usr/bin/env python3
"""The plays that bench/run measures: each function gives the lines of one play.

    bench/plays.py NAME [NUMBER..]    writes one of them to standard output
"""
import sys

UNIT = 4096  # a play counts 4096 to a unit of length
FARTHEST = 1073741823  # a coordinate's, to either side
MOST_LINES = 262144  # of a play


class Random:
    """A small generator of numbers, so that a play is the same every time."""

    def __init__(self, seed):
        self.state = seed

    def __call__(self, below):
        self.state = (self.state * 1103515245 + 12345) % 2147483648
        return self.state // 65536 % below


def triangle(*corners):
    """A triangle line of three corners (x, y, z, red, green, blue)."""
    return "t " + " ".join(" ".join(map(str, corner)) for corner in corners)


def square(half, z, colour):
    a, b, c, d = ((x, y, z) + colour for x, y in ((-half, -half), (half, -half), (half, half), (-half, half)))
    return [triangle(a, b, c), triangle(a, c, d)]


def geode(lines, node, state, triangles):
    lines.append(f"geode {node} {state} {len(triangles)}")
    lines.extend(triangles)


def flight(frames=24):
    """Small pictures of a scene of 36 nodes, in which blocks are merged while it flies."""
    lines = ["perfly 1", "size 160 120", "lens 160 4096 4096000", "back 96 144 208", "app"]
    lines += ["group 1", "add 0 1", "layer 2", "add 1 2"]
    for i, (h, c) in enumerate([(163840, (96,) * 3), (40960, (255,) * 3), (8192, (255, 224, 0))]):
        geode(lines, 3 + i, 1, square(h, 0, c))
        lines.append(f"add 2 {3 + i}")
    lines += ["lod 10", "add 1 10", "centre 10 0 409600 0", "range 10 0 0", "range 10 1 614400", "range 10 2 4096000"]
    geode(lines, 11, 2, square(20480, 20480, (160, 80, 40)))
    lines.append("add 10 11")
    geode(lines, 12, 2, square(16384, 16384, (128, 96, 64)))
    lines.append("add 10 12")
    geode(lines, 20, 3, square(6144, 8192, (200, 40, 40)))
    for i in range(16):
        lines += [f"dcs {100 + i}", f"add 1 {100 + i}", f"add {100 + i} 20", f"trans {100 + i} {(i - 8) * 32768} 204800 0"]
    lines += ["seq 30", "add 1 30"]
    geode(lines, 31, 4, square(2048, 12288, (255, 0, 0)))
    lines.append("add 30 31")
    geode(lines, 32, 4, square(2048, 12288, (64, 0, 0)))
    lines += ["add 30 32", "times 30 0 3", "times 30 1 1", "run 30", "dcs 40", "add 1 40"]
    geode(lines, 41, 5, square(4096, 24576, (240, 240, 255)))
    lines.append("add 40 41")
    for k in range(1, frames + 1):
        lines += [f"trans 40 {k * 4096} 81920 0", f"rot 40 {k * 100 % 3600} 0 0",
                  f"view 0 {k * 4096 - 409600} 81920 0 -100 0", "frame"]
        if k in (6, 12, 18):
            lines.append(f"wait {k // 6}")
    lines.append("dbase")
    for i in (1, 2, 3):
        lines += [f"await {6 * i}", "buffer", f"dcs {200 + 10 * i}"]
        geode(lines, 201 + 10 * i, 6, square(81920, -4096, (32, 128, 48)))
        lines += [f"add {200 + 10 * i} {201 + 10 * i}", f"trans {200 + 10 * i} {(i - 2) * 163840} 327680 0",
              f"badd 1 {200 + 10 * i}", "merge"]
    return lines


def house(random, x0, y0, w, d, h):
    """fifteen triangles: four walls, a flat roof, a spire, a sign; the floor is left out"""
    x1, y1 = x0 + w, y0 + d
    base = tuple(60 + random(160) for _ in range(3))

    def p(x, y, z, k):
        return (x, y, z) + tuple(min(255, c * k // 100) for c in base)
    out = []
    for (ax, ay), (bx, by), k in (((x0, y0), (x1, y0), 100), ((x1, y0), (x1, y1), 75),
                                  ((x1, y1), (x0, y1), 55), ((x0, y1), (x0, y0), 85)):
        lo = k * 7 // 10
        out.append(triangle(p(ax, ay, 0, lo), p(bx, by, 0, lo), p(bx, by, h, k)))
        out.append(triangle(p(ax, ay, 0, lo), p(bx, by, h, k), p(ax, ay, h, k)))
    out.append(triangle(p(x0, y0, h, 110), p(x1, y0, h, 110), p(x1, y1, h, 110)))
    out.append(triangle(p(x0, y0, h, 110), p(x1, y1, h, 110), p(x0, y1, h, 110)))
    xm, ym, s = (x0 + x1) // 2, (y0 + y1) // 2, w // 4
    ring = [(xm - s, ym - s), (xm + s, ym - s), (xm + s, ym + s), (xm - s, ym + s)]
    for i in range(4):
        (ax, ay), (bx, by) = ring[i], ring[(i + 1) % 4]
        out.append(triangle(p(ax, ay, h, 60 + 10 * i), p(bx, by, h, 60 + 10 * i), p(xm, ym, h + 6 * UNIT, 120)))
    out.append(triangle((x0 - 2048, y0, h // 2, 255, 40, 40), (x0 - 2048, y1, h // 2, 255, 220, 40),
                 (x0 - 2048, y0, h // 2 + 3 * UNIT, 255, 40, 40)))
    return out


def city(frames=60):
    """A town of 10 x 8 blocks, each of 100 units with a street of 16 units.
    Nodes: 1 group, 8 districts (groups), 80 blocks (DCS), 3 cars (DCS), 4,000 geodes: 4,092.
    Triangles: 3,997 houses of 15 and 3 cars of 15: 60,000."""
    random = Random(2024)
    lines = ["perfly 1", "size 640 480", f"lens 640 {UNIT} {3000 * UNIT}", "back 120 170 230", "app", "group 1", "add 0 1"]
    for i in range(8):
        lines += [f"group {2 + i}", f"add 1 {2 + i}"]
    left, gid = 3997, 1000
    for b in range(80):
        bx, by = b % 10, b // 10
        # a district is 5 x 2 blocks
        dist = 2 + (bx // 5) + 2 * (by // 2)
        lines += [f"dcs {100 + b}", f"add {dist} {100 + b}",
                  f"trans {100 + b} {(bx - 5) * 100 * UNIT} {(by - 4) * 100 * UNIT} 0"]
        n = (left + 79 - b) // (80 - b)
        left -= n
        for k in range(n):
            # 8 x 7 lots of 10 x 12 units inside of the streets
            cx, cy = k % 8, k // 8
            w, d = (5 + random(4)) * UNIT, (6 + random(5)) * UNIT
            geode(lines, gid, random(16), house(random, (10 + cx * 10) * UNIT, (9 + cy * 12) * UNIT, w, d, (4 + random(26)) * UNIT))
            lines.append(f"add {100 + b} {gid}")
            gid += 1
    for c in range(3):
        lines += [f"dcs {200 + c}", f"add 1 {200 + c}"]
        geode(lines, gid, 20 + c, house(random, -2 * UNIT, -4 * UNIT, 4 * UNIT, 8 * UNIT, 2 * UNIT))
        lines.append(f"add {200 + c} {gid}")
        gid += 1
    for k in range(1, frames + 1):
        for c in range(3):
            lines += [f"trans {200 + c} {(c - 1) * 100 * UNIT} {(k * 3 - 100 + 60 * c) * UNIT} 0", f"rot {200 + c} {(k * 20) % 3600} 0 0"]
        lines += [f"view 0 {(2 * k - 60) * UNIT} {20 * UNIT} {k * 60 % 3600} -60 0", "frame"]
    return lines


def town(frames=60, width=320, faces=15):
    """A flight over a town of 8 x 8 blocks. At each frame the application makes 2,000 edits, which move 1,000 cars; and DBASE
    merges a block of 32 houses at the far end of the town and takes one out at the near end, which the application deletes.
    The application waits for each merge behind the frame that it awaits, so the pictures are the same every time.
    A house has so many triangles, and a car as many, but ten at most.
    Nodes: 2 groups, 8 streets, 8 kinds of cars, 1,000 DCS, 64 blocks (DCS) and 2,048 geodes, and up to two blocks more."""
    random = Random(1991)
    lines = ["perfly 1", f"size {width} {width * 3 // 4}", f"lens {width} {UNIT} {1500 * UNIT}", "back 120 170 230", "app",
             "group 1", "add 0 1", "group 2", "add 0 2"]
    blocks = [block(random, b, faces) for b in range(64 + frames)]
    for b in range(64):
        lines += blocks[b] + [f"add 1 {first_of(b)}"]
    for street in range(8):
        lines += [f"group {10 + street}", f"add 2 {10 + street}"]
        geode(lines, 20 + street, 20 + street, house(random, -UNIT, -2 * UNIT, 2 * UNIT, 4 * UNIT, 2 * UNIT)[:min(10, faces)])
        for car in range(street, 1000, 8):
            lines += [f"dcs {100 + car}", f"add {10 + street} {100 + car}", f"add {100 + car} {20 + street}"]
    starts = [random(8000) for _ in range(1000)]
    for k in range(frames):
        if k:
            lines += [f"wait {k}"] + [f"delete {first_of(k - 1) + n}" for n in range(33)]
        for car, start in enumerate(starts):
            # lengths in tenths of a unit: half of the cars come towards the eye, all stay within the town
            street, way = car % 8, 1 - car // 8 % 2 * 2
            along = (start + way * k * (8 + car % 5) - 125 * k) % 8000 + 125 * k
            lines += [f"trans {100 + car} {(street - 4) * 100 * UNIT + way * 3 * UNIT} {along * UNIT // 10} 0",
                      f"rot {100 + car} {(1800 if way < 0 else 0) + (car + k) % 7 * 5} 0 0"]
        lines += [f"view {(k % 24 - 12) * UNIT} {(k * 125 // 10 - 60) * UNIT} {45 * UNIT} {k % 12 * 10 - 60} -80 0", "frame"]
    lines.append("dbase")
    for k in range(1, frames):
        lines += [f"await {k}", "buffer"] + blocks[63 + k] + [f"badd 1 {first_of(63 + k)}", f"bremove 1 {first_of(k - 1)}", "merge"]
    return lines


def first_of(b):
    """The id of a block of the town; those of its houses follow."""
    return 2000 + 33 * b


def block(random, b, faces):
    """The lines that make block b of the town: 32 houses of so many triangles below a DCS. The blocks stand in rows of eight."""
    node = first_of(b)
    lines = [f"dcs {node}", f"trans {node} {(b % 8 - 4) * 100 * UNIT} {b // 8 * 100 * UNIT} 0"]
    for k in range(32):
        w, d = (5 + random(4)) * UNIT, (9 + random(8)) * UNIT
        geode(lines, node + 1 + k, random(16),
              house(random, (10 + k % 8 * 10) * UNIT, (9 + k // 8 * 21) * UNIT, w, d, (4 + random(26)) * UNIT)[:faces])
        lines.append(f"add {node} {node + 1 + k}")
    return lines


def traffic(frames=110):
    """The town drawn small, with two triangles a house and a car: the application, the cull and the draw have about as much
    to do."""
    return town(frames, 80, 2)


def signs(frames=480):
    """A flight over a plain of 3,840 signs of one triangle each, in pictures of 80x60: the cull has much to do.
    Nodes: 1 group, 15 fields (groups), 240 rows (DCS) and 3,840 geodes: 4,096."""
    random = Random(31)
    lines = ["perfly 1", "size 80 60", f"lens 80 {UNIT} {2000 * UNIT}", "back 120 170 230", "app", "group 1", "add 0 1"]
    for field in range(15):
        lines += [f"group {2 + field}", f"add 1 {2 + field}"]
        for row in range(16):
            node = 100 + 16 * field + row
            lines += [f"dcs {node}", f"add {2 + field} {node}",
                      f"trans {node} {(field % 5 * 200 - 500) * UNIT} {(field // 5 * 200 + row * 12) * UNIT} 0"]
            for k in range(16):
                sign, x, h = 1000 + 16 * (16 * field + row) + k, k * 12 * UNIT, (2 + random(5)) * UNIT
                colour = tuple(60 + random(190) for _ in range(3))
                corners = ((x, 0, 0), (x + 4 * UNIT, UNIT, 0), (x + 2 * UNIT, 0, h))
                geode(lines, sign, random(16), [triangle(*(corner + colour for corner in corners))])
                lines.append(f"add {node} {sign}")
    for k in range(frames):
        x, y, heading = (k % 96 - 48) * 4 * UNIT, (k % 160 - 80) * UNIT, k % 64 * 10 - 320
        lines += [f"view {x} {y} {30 * UNIT} {heading} -80 0", "frame"]
    return lines


def fill(frames=30):
    """Twenty geodes of ten triangles each, every one about as large as the picture, at mixed depths."""
    random = Random(7)
    lines = ["perfly 1", "size 1024 768", f"lens 1024 {UNIT} {1000 * UNIT}", "back 10 10 40", "app", "group 1", "add 0 1"]
    for g in range(20):
        tris = []
        for _ in range(10):
            y = (20 + random(60)) * UNIT
            c = []
            # corners far out on three sides of the middle, so that the triangle hides most of the picture
            for sx, sz in ((-1, -1), (1, -1), (0, 1)):
                x = sx * (y * 55 // 100) + (random(200) - 100) * y // 400
                z = sz * (y * 50 // 100) + (random(200) - 100) * y // 400
                c.append((x, y + (random(21) - 10) * UNIT, z, random(256), random(256), random(256)))
            tris.append(triangle(*c))
        geode(lines, 10 + g, g, tris)
        lines.append(f"add 1 {10 + g}")
    for k in range(1, frames + 1):
        lines += [f"view {(k - 15) * 2048} {(k % 10) * 1024} {(k % 7 - 3) * 2048} {(k - 15) * 4} {k % 5 - 2} {(k - 15) * 10}", "frame"]
    return lines


def edits(count=200000):
    """4,091 nodes: 16 districts of 15 blocks of 16 DCS and their switches; then many edits, most of them moves, some links
    made and taken away again, a few that are refused; one frame at the end."""
    random = Random(99)
    lines = ["perfly 1", "size 64 48", f"lens 64 {UNIT} {1000 * UNIT}", "back 0 0 0", "app", "group 1", "add 0 1"]
    dcs, blocks = [], []
    for d in range(16):
        lines += [f"group {2 + d}", f"add 1 {2 + d}"]
        for b in range(15):
            block = 100 + 15 * d + b
            blocks.append(block)
            lines += [f"switch {block}", f"add {2 + d} {block}", f"sw {block} on"]
            for _ in range(16):
                i = 1000 + len(dcs)
                dcs.append(i)
                lines += [f"dcs {i}", f"add {block} {i}"]
    geode(lines, 20, 0, square(UNIT, 8 * UNIT, (200, 200, 60)))
    lines.append(f"add {dcs[0]} 20")
    made, linked = 0, []
    while made < count:
        k = random(16)
        if k < 11:
            lines.append(f"trans {dcs[random(len(dcs))]} {random(4096) - 2048} {random(4096)} {random(4096) - 2048}")
        elif k < 13 or not linked:
            a, b = dcs[random(len(dcs))], blocks[random(len(blocks))]
            lines.append(f"add {b} {a}" if random(64) else f"add {a} {b}")
            if lines[-1] == f"add {b} {a}":
                linked.append((b, a))
        elif k < 15:
            b, a = linked.pop()
            lines.append(f"remove {b} {a}")
        else:
            lines.append(f"sw {blocks[random(len(blocks))]} {random(16)}")
        made += 1
    return lines + ["frame"]


def header(width, height, version=1):
    """The lines before the first edit: a lens with a right angle of view, and all depths to see."""
    return [f"perfly {version}", f"size {width} {height}", f"lens {max(width // 2, 1)} 1 1073741823", "back 20 20 40", "app"]


def empty(frames=0):
    """Frames of one pixel with nothing in them."""
    return header(1, 1) + ["frame"] * frames


def parked(frames=0):
    """The town of `city` in pictures of one pixel that see none of it, while a car moves."""
    lines = ["size 1 1" if line.startswith("size") else line for line in city(0)]
    for k in range(frames):
        lines += [f"trans 200 {k % 100 * UNIT} 0 0", f"view 0 0 {-5000 * UNIT} 0 -900 0", "frame"]
    return lines


def merges(count=0):
    """A frame of one pixel, and merges of nothing."""
    return header(1, 1) + ["frame", "dbase"] + ["buffer", "merge"] * count


def children(edits=0):
    """A group of 256 children, of which one is taken out and put back again and again."""
    lines = header(1, 1) + ["group 1", "add 0 1"]
    for k in range(256):
        lines += [f"group {100 + k}", f"add 1 {100 + k}"]
    for k in range(edits // 2):
        child = 100 + 37 * k % 256
        lines += [f"remove 1 {child}", f"add 1 {child}"]
    return lines + ["frame"]


def waiting(edits=250000):
    """Many edits before the only frame, which DBASE awaits."""
    return children(edits) + ["dbase", "await 1", "buffer", "merge"]


def large(exponent, glass, frames):
    """Twenty tilted, shaded triangles that fill a picture of 512 x 512, at depths of about 2 to the exponent."""
    random = Random(11)
    depth = 2 ** exponent
    lines = header(512, 512, 2) + ["group 1", "add 0 1"]
    for k in range(20):
        y = depth + random(1000) * depth // 4000
        corners = []
        for side, up in ((-1, -1), (1, -1), (0, 1)):
            x, z = (side * y * 26 // 10, y * 26 // 10 if up > 0 else -y * 11 // 10)
            corners.append((x + random(100) * depth // 1000, y + (random(200) - 100) * depth // 2000,
                            z + random(100) * depth // 1000, random(256), random(256), random(256)))
        kind = f"glass {10 + k} {k} 128 1" if glass else f"geode {10 + k} {k} 1"
        lines += [kind, triangle(*corners), f"add 1 {10 + k}"]
    return lines + ["frame"] * frames


def instances(size=1024):
    """One triangle that fills the picture, reached by 32,768 ways at one depth: the last of sixteen layers of groups is one
    group, since the scene has 131,072 nodes at most, each as often as it stands there, and this one stands for 98,303."""
    lines = header(size, size) + ["geode 10 0 1"]
    lines.append(triangle((-UNIT * 64, UNIT * 16, -UNIT * 32, 250, 200, 40), (UNIT * 64, UNIT * 16, -UNIT * 32, 200, 60, 40),
                          (0, UNIT * 16, UNIT * 64, 40, 60, 200)))
    below = [10]
    for layer in range(15):
        here = [100 + 2 * layer, 101 + 2 * layer]
        for node in here:
            lines.append(f"group {node}")
            lines += [f"add {node} {child}" for child in below]
        below = here
    return lines + ["group 1"] + [f"add 1 {child}" for child in below] + ["add 0 1", "frame"]


def panes(count=130048, glass=1):
    """256 small panes at one place in a picture of 64 x 64, seen so many times in all: a multiple of 512, at most 130,048, since the
    scene has 131,072 nodes at most, each as often as it stands there. With 0 for glass they are opaque geometry."""
    lines = header(64, 64, 2 if glass else 1)
    pane = triangle((-UNIT * 2, UNIT * 16, -UNIT * 2, 250, 200, 40), (UNIT * 2, UNIT * 16, -UNIT * 2, 200, 60, 40),
                    (0, UNIT * 16, UNIT * 2, 40, 60, 200))
    for node in range(256):
        lines += [f"glass {1000 + node} 0 8 1" if glass else f"geode {1000 + node} 0 1", pane]
    for bundle in (2, 3):
        lines += [f"group {bundle}"] + [f"add {bundle} {1000 + node}" for node in range(256)]
    lines.append("group 1")
    for node in range(count // 512):
        lines += [f"group {100 + node}", f"add {100 + node} 2", f"add {100 + node} 3", f"add 1 {100 + node}"]
    return lines + ["add 0 1", "frame"]

def broad(count=65536, size=1024, focal=1):
    """As many triangles as a play may have, each from side to side of the cube of all coordinates, before a lens that sees
    nearly all of what is in front."""
    random = Random(5)
    lines = header(size, size)
    lines[2] = f"lens {focal} 1 {FARTHEST}"
    for first in range(0, count, 4096):
        triangles = []
        for _ in range(min(4096, count - first)):
            corners = [[random(32768) * 65535 - FARTHEST for _ in range(3)] for _ in range(3)]
            for axis, corner in enumerate(corners):
                corner[axis] = random(2) * 2 * FARTHEST - FARTHEST
            triangles.append(triangle(*((*corner, random(256), random(256), random(256)) for corner in corners)))
        geode(lines, 10 + first // 4096, first // 4096, triangles)
        lines.append(f"add 0 {10 + first // 4096}")
    return lines + ["frame"]


def parents(edits=250000, count=300):
    """A child of so many parents, below which a node is added and taken out again and again."""
    lines = header(1, 1) + ["group 1", "add 0 1", "group 2", "add 0 2", "group 3", "group 4"]
    for k in range(count):
        lines += [f"group {100 + k}", f"add {1 + k % 2} {100 + k}", f"add {100 + k} 3"]
    return lines + ["add 3 4", "remove 3 4"] * (edits // 2) + ["frame"]



def wide(frames=4, channels=1):
    """Frames of nothing in the largest pictures, of so many channels."""
    lines = header(1024, 1024, 1 if channels == 1 else 2)
    return (lines if channels == 1 else several(lines, channels)) + ["frame"] * frames


def several(lines, channels):
    """The lines of a play with so many channels, whose section of the application has just begun."""
    return lines[:-1] + [f"channels {channels}", lines[-1]]


def full(count=MOST_LINES):
    """The edits of `edits`, in as many lines as a play may have."""
    return edits(count - len(edits(0)))


def slivers(count=65536):
    """As many narrow triangles as a play may have, each from far above the picture to far below it."""
    random = Random(13)
    lines = header(1024, 1024)
    for first in range(0, count, 4096):
        triangles = []
        for _ in range(min(4096, count - first)):
            depth = 2 ** 24 + random(32768) * 512
            left = (random(1024) - 512) * (depth // 512)
            ends = ((left, -FARTHEST), (left + depth // 64, FARTHEST), (left + depth // 32, -FARTHEST))
            triangles.append(triangle(*((x, depth, z, random(256), random(256), random(256)) for x, z in ends)))
        geode(lines, 10 + first // 4096, first // 4096, triangles)
        lines.append(f"add 0 {10 + first // 4096}")
    return lines + ["frame"]


def limits(frames=4):
    """All limits at once: 65,536 triangles over all rows of the largest pictures, four channels, 4,096 nodes, which the scene
    has 130,797 times, and edits in as many lines as a play may have."""
    lines = several(header(1024, 1024, 2), 4) + slivers(65536 - 256)[5:-1] + panes(247 * 512, 0)[5:-1]
    names = range(4000, 4000 + 4096 - 16 - 256 - 3 - 247)
    groups, moved = names[::250], [name for name in names if (name - 4000) % 250]
    for group in groups:
        lines += [f"group {group}", f"add 0 {group}"]
    for name in moved:
        lines += [f"dcs {name}", f"add {groups[(name - 4000) // 250]} {name}"]
    each, more = divmod(MOST_LINES - len(lines) - frames, frames)
    for k in range(frames):
        lines += [f"trans {moved[n % len(moved)]} {n} {k} 0" for n in range(each + (more if k == 0 else 0))] + ["frame"]
    return lines


PLAYS = {play.__name__: play for play in (flight, city, town, traffic, signs, fill, edits, empty, parked, merges, children,
                                          waiting, large, instances, panes, broad, parents, wide, full, slivers, limits)}


def main():
    if len(sys.argv) < 2 or sys.argv[1] not in PLAYS:
        sys.exit(f"usage: bench/plays.py {'|'.join(PLAYS)} [NUMBER..]")
    print("\n".join(PLAYS[sys.argv[1]](*map(int, sys.argv[2:]))))


if __name__ == "__main__":
    main()
