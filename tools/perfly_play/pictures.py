"""Pictures: reads a stream of PPM images, puts them side by side, scales them down, writes PNG."""
import pathlib
import struct
import zlib

COST = bytes(min(b, 256 - b) for b in range(256))  # how far a byte is from 0, either way round


class PictureError(ValueError):
    """What is wrong with a stream of pictures."""


class Image:
    """Width, height, and the rows, three bytes a pixel."""

    def __init__(self, width, height, rows):
        self.width, self.height, self.rows = width, height, rows

    def ppm(self):
        """The bytes of the image as a PPM file (P6)."""
        return b"P6\n%d %d\n255\n" % (self.width, self.height) + b"".join(self.rows)

    def write(self, path):
        """Writes the image as a file: PPM where the name ends so, else PNG."""
        path = pathlib.Path(path)
        path.write_bytes(self.ppm() if path.suffix == ".ppm" else png(self))


def read_images(stream):
    """The images of a stream of PPM images (P6), one after the other; the stream is an open binary file."""
    for width, height, data in read_pixels(stream):
        yield Image(width, height, rows_of(width, height, data))


def rows_of(width, height, data):
    """The rows of an image whose pixels these bytes are."""
    return [data[3 * width * y:3 * width * (y + 1)] for y in range(height)]


def read_pixels(stream):
    """The width, the height and the bytes of the pixels, row by row, of each image of such a stream."""
    while magic := stream.readline(16):
        if magic != b"P6\n":
            raise PictureError(f"no picture begins with {magic[:12]!r}: the stream must be PPM images (P6)")
        width, height = _numbers(stream, 2)
        if _numbers(stream, 1) != [255]:
            raise PictureError("a picture with other than 255 steps of a colour")
        data = stream.read(3 * width * height)
        if len(data) < 3 * width * height:
            raise PictureError("the stream ends inside a picture")
        yield width, height, data


def _numbers(stream, count):
    words = stream.readline(64).split()
    if len(words) != count or not all(w.isdigit() for w in words):
        raise PictureError("a picture without its size")
    return [int(w) for w in words]


def beside(pieces):
    """The images side by side."""
    if len({piece.height for piece in pieces}) != 1:
        raise PictureError("pictures of different heights don't fit side by side")
    rows = [b"".join(row) for row in zip(*(piece.rows for piece in pieces))]
    return Image(sum(piece.width for piece in pieces), pieces[0].height, rows)


def below(pieces):
    """The images one below the other."""
    if len({piece.width for piece in pieces}) != 1:
        raise PictureError("pictures of different widths don't fit one below the other")
    return Image(pieces[0].width, sum(piece.height for piece in pieces), [row for piece in pieces for row in piece.rows])


def sheet(pieces, across):
    """The images in rows of so many; a last row that is not full gets black images."""
    blank = Image(pieces[0].width, pieces[0].height, [bytes(3 * pieces[0].width)] * pieces[0].height)
    full = list(pieces) + [blank] * (-len(pieces) % across)
    return below([beside(full[k:k + across]) for k in range(0, len(full), across)])


def shrink(image, times):
    """The image scaled down: each pixel is the mean of so many by so many."""
    if times == 1:
        return image
    width, height, area = image.width // times, image.height // times, times * times
    if not width or not height:
        raise PictureError(f"a picture of {image.width} by {image.height} is too small to be {times} times smaller")
    used = 3 * times * width
    rows = []
    for y in range(height):
        lines = [line[:used] for line in image.rows[times * y:times * (y + 1)]]
        row = bytearray(3 * width)
        for channel in range(3):
            columns = [line[channel + 3 * k::3 * times] for line in lines for k in range(times)]
            row[channel::3] = bytes((sum(pixels) + area // 2) // area for pixels in zip(*columns))
        rows.append(bytes(row))
    return Image(width, height, rows)


def png(image, effort=6):
    """The bytes of the image as a PNG file; an effort of 9 takes longer and makes it a little smaller."""
    def chunk(kind, data):
        return struct.pack(">I", len(data)) + kind + data + struct.pack(">I", zlib.crc32(kind + data))
    head = struct.pack(">IIBBBBB", image.width, image.height, 8, 2, 0, 0, 0)
    data = zlib.compress(b"".join(_filtered(image.rows)), effort)
    return b"\x89PNG\r\n\x1a\n" + chunk(b"IHDR", head) + chunk(b"IDAT", data) + chunk(b"IEND", b"")


def _filtered(rows):
    """The rows as PNG wants them, each as it is or as its difference from its left or upper neighbours."""
    above = bytes(len(rows[0]))
    for row in rows:
        kinds = (row, _difference(row, bytes(3) + row[:-3]), _difference(row, above))
        kind = min(range(3), key=lambda k: sum(kinds[k].translate(COST)))
        yield bytes([kind]) + kinds[kind]
        above = row


def _difference(row, other):
    """Byte by byte row - other, modulo 256: all bytes at once as one number, whose top bits carry nothing over."""
    size = len(row)
    tops = int.from_bytes(b"\x80" * size, "big")
    a, b = int.from_bytes(row, "big"), int.from_bytes(other, "big")
    low = (a | tops) - (b & ~tops)
    return (low ^ ((a ^ ~b) & tops)).to_bytes(size, "big")
