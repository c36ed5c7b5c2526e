"""Pictures of textures are read in each of their forms."""
import struct
import unittest
import zlib

from perfly_play.pictures import Image, png
from perfly_play.textures import Texture, TextureError, picture_of

ROWS = [bytes((255, 0, 0, 0, 255, 0, 0, 0, 255)), bytes((9, 99, 199, 7, 77, 177, 255, 255, 255))]
TURNED = [bytes(c for k in (0, 3, 6) for c in row[k:k + 3][::-1]) for row in ROWS]  # blue first


def png_of(kind, bits, lines, palette=b"", height=None, interlaced=0):
    """A PNG with these lines, each with its filter in front; its height, unless it has a line for each row."""
    def chunk(name, data):
        return struct.pack(">I", len(data)) + name + data + struct.pack(">I", zlib.crc32(name + data))
    head = struct.pack(">IIBBBBB", 3, height or len(lines), bits, kind, 0, 0, interlaced)
    return (b"\x89PNG\r\n\x1a\n" + chunk(b"IHDR", head) + (chunk(b"PLTE", palette) if palette else b"")
            + chunk(b"IDAT", zlib.compress(b"".join(lines))) + chunk(b"IEND", b""))


class Forms(unittest.TestCase):
    def check(self, data, rows=ROWS):
        self.assertEqual(picture_of(data), (3, len(rows), rows))

    def test_png(self):
        self.check(png(Image(3, 2, ROWS)))
        alpha = [b"\0" + b"".join(row[k:k + 3] + b"\x80" for k in (0, 3, 6)) for row in ROWS]
        self.check(png_of(6, 8, alpha))
        self.check(png_of(2, 16, [b"\0" + bytes(c for value in row for c in (value, 1)) for row in ROWS]))
        self.check(png_of(3, 2, [b"\0\x18", b"\0\xe4"], ROWS[0] + ROWS[1][:3]), [ROWS[0], ROWS[1][:3] + ROWS[0][6:] + ROWS[0][3:6]])
        self.check(png_of(0, 1, [b"\0\xa0"]), [bytes((255,) * 3 + (0,) * 3 + (255,) * 3)])

    def test_interlaced(self):
        """Of 3 by 2 pixels four passes have some: the first pixel, the third, the second, and then the second row."""
        first, second = ROWS
        passes = [b"\0" + pixels for pixels in (first[:3], first[6:], first[3:6], second)]
        self.check(png_of(2, 8, passes, height=2, interlaced=1))

    def test_filters_of_png(self):
        """The second line as its difference from each kind of neighbour; the first row stands above it."""
        for kind in range(5):
            line = bytearray()
            for k, value in enumerate(ROWS[1]):
                left, over, corner = (ROWS[1][k - 3], ROWS[0][k], ROWS[0][k - 3]) if k > 2 else (0, ROWS[0][k], 0)
                near = min((left, over, corner), key=lambda c, t=left + over - corner: abs(c - t))
                line.append(value - (0, left, over, (left + over) // 2, near)[kind] & 255)
            self.check(png_of(2, 8, [b"\0" + ROWS[0], bytes([kind]) + line]))

    def test_bmp(self):
        body = b"".join(row.ljust(12, b"\0") for row in TURNED[::-1])
        self.check(struct.pack("<2sIIIIiiHHIIIIII", b"BM", 0, 0, 54, 40, 3, 2, 1, 24, 0, 0, 0, 0, 0, 0) + body)

    def test_ppm(self):
        self.check(b"P6\n# made\n3 2\n255\n" + b"".join(ROWS))
        self.check(b"P3 3 2 255 " + b" ".join(b"%d" % c for c in b"".join(ROWS)))

    def test_tga(self):
        def head(kind, marks):
            return struct.pack("<BBBHHBHHHHBB", 0, 0, kind, 0, 0, 0, 0, 0, 3, 2, 24, marks)
        self.check(head(2, 32) + b"".join(TURNED))
        self.check(head(2, 0) + b"".join(TURNED[::-1]))
        self.check(head(10, 32) + b"\x02" + TURNED[0] + b"\x81" + TURNED[1][:3] + b"\x00" + TURNED[1][6:],
                   [ROWS[0], ROWS[1][:3] * 2 + ROWS[1][6:]])

    def test_errors(self):
        for data, told in ((png(Image(3, 2, ROWS))[:45], "too early or is broken"), (b"P6 3 2 255\n", "too early"),
                           (b"\xff\xd8\xff", "neither PNG|Pillow"), (b"", "neither PNG|Pillow"), (b"P6 0 2 255\n", "0 by 2")):
            with self.assertRaisesRegex(TextureError, told):
                picture_of(data)


class Colours(unittest.TestCase):
    def test_corners(self):
        """Near 0, 0 is the lower left pixel, of glTF the upper left; the colour besides is multiplied, and black is none."""
        places = [(0.05, 0.1)] * 3
        self.assertEqual(Texture(3, 2, ROWS)(places, None)[0], (9, 99, 199))
        self.assertEqual(Texture(3, 2, ROWS, from_top=True)(places, [(51, 51, 51)] * 3)[0], (51, 0, 0))
        self.assertEqual(Texture(3, 2, ROWS)([(1.05, -0.9)] * 3, [(0, 0, 0)] * 3)[0], (9, 99, 199))
