"""Textures: reads PNG, TGA, BMP and PPM with the standard library, and gives the corners of a triangle their colours.

Of other pictures (JPEG, GIF, DDS ..) Pillow is asked, if it is installed; else the texture is left out, and told.
"""
import importlib
import io
import math
import pathlib
import struct
import zlib
from collections.abc import Sequence

from .models import Model

SIDE, AREA = 16384, 1 << 26  # pixels of a texture to a side, and in all; what is larger is refused
INWARD = (0.1, 0.25, 0.4)  # how far between a corner and the middle of its triangle the texture is looked at


class TextureError(ValueError):
    """Why a picture cannot be read."""


class Texture:
    """A picture to be laid on triangles: its size in pixels, and its rows from the top, three bytes a pixel.

    `from_top` says whether the place 0, 0 is its upper left corner, as in glTF, or its lower left one."""

    def __init__(self, width: int, height: int, rows: Sequence[bytes], from_top: bool = False):
        self.width, self.height, self.rows, self.from_top = width, height, rows, from_top

    def at(self, u: float, v: float) -> bytes:
        """The colour at a place; the picture is repeated to all sides."""
        x = math.floor(u * self.width) % self.width
        y = math.floor((v if self.from_top else -v) * self.height) % self.height
        return self.rows[y][3 * x:3 * x + 3]

    def __call__(self, places: Sequence, colours: Sequence | None) -> tuple:
        """The colours of a triangle's corners: for each the mean of some places between it and the triangle's middle, times
        the colour that it has besides (black counts as white there: exporters write it where the texture says all)."""
        middle = [sum(c) / 3 for c in zip(*places)]
        out = []
        for place, own in zip(places, colours or (None,) * 3):
            seen = [self.at(*(c + part * (m - c) for c, m in zip(place, middle))) for part in INWARD]
            mean = [sum(c) / len(seen) for c in zip(*seen)]
            out.append(tuple(round(c * o / 255) for c, o in zip(mean, own if own and any(own) else (255,) * 3)))
        return tuple(out)


class Textures:
    """The textures of a model; each picture is read once, and one that cannot be read is left out and told."""

    def __init__(self, model: Model):
        self.model, self.kept = model, {}

    def of_file(self, folder: pathlib.Path, name: str, from_top: bool = False) -> Texture | None:
        """The texture in a file; where it is not in its folder, as on the machine that made it, it may lie beside."""
        name = name.replace("\\", "/")
        places = [folder / name, folder / name.rsplit("/", 1)[-1]]
        path = next((place for place in places if place.is_file()), None)
        if path is None:
            self.model.left_out[f"the texture {name}, which is not there"] += 1
            return None
        return self.of_bytes(str(path), path.read_bytes, from_top)

    def of_bytes(self, name: str, read, from_top: bool = False) -> Texture | None:
        """The texture in what `read()` gives."""
        if name not in self.kept:
            try:
                self.kept[name] = Texture(*picture_of(read()), from_top)
            except TextureError as error:
                self.model.left_out[f"the texture {name.rsplit('/', 1)[-1]}: {error}"] += 1
                self.kept[name] = None
        return self.kept[name]


def picture_of(data: bytes) -> tuple[int, int, list[bytes]]:
    """The width, the height and the rows of a picture, by what it begins with."""
    try:
        if data.startswith(b"\x89PNG"):
            return _png(data)
        if data.startswith(b"BM"):
            return _bmp(data)
        if data[:2] in (b"P3", b"P6"):
            return _ppm(data)
        if not data.startswith((b"\xff\xd8", b"GIF8", b"DDS ", b"RIFF", b"\xabKTX")) and data[1:2] in (b"\0", b"\1"):
            return _tga(data)
        return _by_pillow(data)
    except TextureError:
        raise
    except (LookupError, ValueError, ArithmeticError, struct.error, zlib.error):
        raise TextureError("the picture ends too early or is broken") from None


def _by_pillow(data):
    try:
        image = importlib.import_module("PIL.Image").open(io.BytesIO(data)).convert("RGB")
    except ImportError:
        raise TextureError("it is neither PNG, TGA, BMP nor PPM (with Python's package Pillow it would be read)") from None
    except Exception as error:  # Pillow raises of many kinds
        raise TextureError(f"Pillow cannot read it: {str(error)[:60]}") from None
    width, height = image.size
    pixels = image.tobytes()
    return width, height, [pixels[3 * width * y:3 * width * (y + 1)] for y in range(height)]


def _sized(width, height):
    if not (0 < width <= SIDE and 0 < height <= SIDE and width * height <= AREA):
        raise TextureError(f"a picture of {width} by {height} pixels")
    return width, height


def _three(row, order, step):
    """Three bytes of each pixel of so many, at these places of it."""
    out = bytearray(len(row) // step * 3)
    for k, place in enumerate(order):
        out[k::3] = row[place:len(row) // step * step:step]
    return bytes(out)


def _unpacked(row, bits, width):
    """The numbers of so many bits, from the high end of each byte."""
    if bits == 8:
        return row[:width]
    most = (1 << bits) - 1
    return bytes(byte >> shift & most for byte in row for shift in range(8 - bits, -1, -bits))[:width]


# PNG

PNG_SAMPLES = {0: 1, 2: 3, 3: 1, 4: 2, 6: 4}  # by the kind of its colours
WHOLE = ((0, 0, 1, 1),)  # the first pixel of a pass, and the steps to the next one, across and down
INTERLACED = ((0, 0, 8, 8), (4, 0, 8, 8), (0, 4, 4, 8), (2, 0, 4, 4), (0, 2, 2, 4), (1, 0, 2, 2), (0, 1, 1, 2))


def _png(data):
    at, packed, palette, kind = 8, [], b"", None
    while at + 8 <= len(data):
        size, name = struct.unpack_from(">I4s", data, at)
        body = data[at + 8:at + 8 + size]
        if name == b"IHDR":
            width, height, bits, kind, _, _, interlaced = struct.unpack(">IIBBBBB", body)
            _sized(width, height)
        elif name == b"PLTE":
            palette = body
        elif name == b"IDAT":
            packed.append(body)
        at += 12 + size
    if not packed or kind not in PNG_SAMPLES:
        raise IndexError
    passes = [(x, y, dx, dy, len(range(x, width, dx)), len(range(y, height, dy)))
              for x, y, dx, dy in (INTERLACED if interlaced else WHOLE) if x < width and y < height]
    most = sum(lines * (1 + _png_bytes(wide, bits, kind)) for *_, wide, lines in passes)
    left, rows = zlib.decompressobj().decompress(b"".join(packed), most), [bytearray(3 * width) for _ in range(height)]
    for x, y, dx, dy, wide, lines in passes:
        size = lines * (1 + _png_bytes(wide, bits, kind))
        for k, row in enumerate(_png_pass(left[:size], lines, wide, bits, kind)):
            pixels = _png_row(row, bits, kind, wide, palette)
            for colour in range(3):
                rows[y + k * dy][3 * x + colour::3 * dx] = pixels[colour::3]
        left = left[size:]
    return width, height, [bytes(row) for row in rows]


def _png_bytes(width, bits, kind):
    """The bytes of a line of so many pixels, without its filter."""
    return (PNG_SAMPLES[kind] * bits * width + 7) // 8


def _png_pass(data, lines, width, bits, kind):
    """The lines of a pass, as they were before they were written as differences."""
    wide, step = _png_bytes(width, bits, kind), max(1, PNG_SAMPLES[kind] * bits // 8)
    if len(data) < lines * (wide + 1):
        raise IndexError
    above = bytes(wide)
    for start in range(0, lines * (wide + 1), wide + 1):
        above = _unfiltered(data[start], data[start + 1:start + 1 + wide], above, step)
        yield above


def _unfiltered(kind, line, above, step):
    """A line of a PNG as it was before it was written as differences."""
    if kind == 0:
        return line
    row = bytearray(line)
    if kind == 2:
        return bytes((a + b) & 255 for a, b in zip(row, above))
    if kind == 1:
        for k in range(step, len(row)):
            row[k] = (row[k] + row[k - step]) & 255
    elif kind == 3:
        for k, over in enumerate(above):
            row[k] = (row[k] + ((row[k - step] if k >= step else 0) + over) // 2) & 255
    elif kind == 4:
        for k, b in enumerate(above):
            a, c = (row[k - step], above[k - step]) if k >= step else (0, 0)
            pa, pb, pc = abs(b - c), abs(a - c), abs(a + b - c - c)
            row[k] = (row[k] + (a if pa <= pb and pa <= pc else b if pb <= pc else c)) & 255
    else:
        raise IndexError
    return bytes(row)


def _png_row(row, bits, kind, width, palette):
    """A line of a PNG, three bytes a pixel."""
    if bits == 16:
        row, bits = row[::2], 8
    if kind in (0, 3):
        values = _unpacked(row, bits, width)
        if kind == 3:
            return b"".join(palette[3 * v:3 * v + 3].ljust(3, b"\0") for v in values)
        most = (1 << bits) - 1
        return b"".join(bytes((v * 255 // most,)) * 3 for v in values)
    return _three(row, *{2: ((0, 1, 2), 3), 4: ((0, 0, 0), 2), 6: ((0, 1, 2), 4)}[kind])


# BMP, PPM, TGA


def _bmp(data):
    start, header, width, height, _, bits, packed = struct.unpack_from("<xxxxxxxxxxIIiiHHI", data)
    if packed not in (0, 3) or bits not in (1, 4, 8, 24, 32):
        raise TextureError(f"a BMP of {bits} bits a pixel" + (", compressed" if packed else ""))
    _sized(width, abs(height))
    wide = (bits * width + 31) // 32 * 4
    palette = data[14 + header:start]
    rows = []
    for y in range(abs(height)):
        line = data[start + wide * y:start + wide * (y + 1)]
        if len(line) < wide:
            raise IndexError
        if bits <= 8:
            rows.append(b"".join(palette[4 * v:4 * v + 3][::-1] for v in _unpacked(line, bits, width)))
        else:
            rows.append(_three(line[:bits // 8 * width], (2, 1, 0), bits // 8))
    return width, abs(height), rows if height < 0 else rows[::-1]


def _ppm(data):
    words, at = [], 2
    while len(words) < 3:
        if data[at:at + 1] == b"#":
            at = data.index(b"\n", at)
        elif data[at:at + 1].isspace():
            at += 1
        else:
            end = next(k for k in range(at, len(data) + 1) if not data[k:k + 1].isdigit())
            if end == at:
                raise IndexError
            words.append(int(data[at:end]))
            at = end
    width, height, most = words
    _sized(width, height)
    if data[:2] == b"P3":
        body = bytes(int(word) * 255 // most for word in data[at:].split())
    else:
        body = data[at + 1:at + 1 + 3 * width * height] if most == 255 else b""
    if len(body) < 3 * width * height:
        raise IndexError
    return width, height, [body[3 * width * y:3 * width * (y + 1)] for y in range(height)]


def _tga(data):
    name_size, has_map, kind, _, map_size, map_bits, _, _, width, height, bits, marks = \
        struct.unpack_from("<BBBHHBHHHHBB", data)
    if kind not in (1, 2, 3, 9, 10, 11) or bits not in (8, 15, 16, 24, 32):
        raise TextureError("it is neither PNG, TGA, BMP nor PPM (with Python's package Pillow it would be read)")
    _sized(width, height)
    at, step = 18 + name_size, (bits + 7) // 8
    palette_size = map_size * ((map_bits + 7) // 8) if has_map else 0
    palette = data[at:at + palette_size]
    pixels = data[at + palette_size:]
    if kind > 8:
        pixels = _unrolled(pixels, step, width * height)
    if len(pixels) < step * width * height:
        raise IndexError
    rows = [_tga_row(pixels[step * width * y:step * width * (y + 1)], kind % 8, step, palette, (map_bits + 7) // 8)
            for y in range(height)]
    return width, height, rows if marks & 32 else rows[::-1]


def _tga_row(row, kind, step, palette, entry):
    if kind == 1:
        return b"".join(_tga_row(palette[entry * v:entry * v + entry], 2, entry, b"", 0) for v in row[::step])
    if kind == 3:
        return _three(row, (0, 0, 0), step)
    if step == 2:
        values = struct.unpack(f"<{len(row) // 2}H", row)
        return b"".join(bytes(((v >> shift & 31) * 255 // 31) for shift in (10, 5, 0)) for v in values)
    return _three(row, (2, 1, 0), step)


def _unrolled(data, step, count):
    """The pixels of a TGA that was written in runs."""
    out, at = bytearray(), 0
    while len(out) < step * count:
        head, at = data[at], at + 1
        if head & 128:
            out += data[at:at + step] * ((head & 127) + 1)
            at += step
        else:
            out += data[at:at + step * (head + 1)]
            at += step * (head + 1)
        if at > len(data):
            raise IndexError
    return bytes(out)
