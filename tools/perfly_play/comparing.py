"""Compares streams of pictures, by their pixels or by the sums of each picture that were kept."""
import gzip
import hashlib
import itertools
import re
from collections.abc import Iterable, Iterator
from typing import BinaryIO, NamedTuple

from .pictures import Image, PictureError, beside, read_images

SUM = re.compile(r"([1-9]\d*) ([1-9]\d*)x([1-9]\d*) ([0-9a-f]{64})")
LOUD = 4  # so many times as large are differences drawn


class Sum(NamedTuple):
    """What is kept of a picture: its size, and the SHA-256 sum of its bytes as a PPM image."""

    width: int
    height: int
    digest: str


class Difference(NamedTuple):
    """How a picture differs from the one before it: its number in the stream, from 1, in words what differs, and both pictures
    where there are both."""

    number: int
    told: str
    old: Image | None = None
    new: Image | None = None


def sum_of(image: Image) -> Sum:
    """The sum of a picture."""
    digest = hashlib.sha256(b"P6\n%d %d\n255\n" % (image.width, image.height))
    for row in image.rows:
        digest.update(row)
    return Sum(image.width, image.height, digest.hexdigest())


def sum_lines(images: Iterable[Image]) -> Iterator[str]:
    """The line of each picture: its number, its size, its sum."""
    for number, (width, height, digest) in enumerate(map(sum_of, images), 1):
        yield f"{number} {width}x{height} {digest}\n"


def pictures_of(kept: Iterable) -> Iterator[Image]:
    """The pictures that are kept; sums are none."""
    for thing in kept:
        if isinstance(thing, Sum):
            raise PictureError("these are sums already, and not PPM images (P6)")
        yield thing


def read_kept(stream: BinaryIO) -> Iterator[Image | Sum]:
    """What is kept in a file: pictures (PPM, also packed by gzip), or a text of their sums. The stream must allow peek()."""
    if stream.peek(2)[:2] == b"\x1f\x8b":
        stream = gzip.open(stream)
    if stream.peek(2)[:2] in (b"P6", b""):
        yield from read_images(stream)
        return
    for number, line in enumerate(stream, 1):
        found = SUM.fullmatch(line.decode("ascii", "replace").rstrip("\r\n"))
        if not found or int(found[1]) != number:
            raise PictureError(f"line {number}: neither PPM images (P6) nor the lines that --sums writes")
        yield Sum(int(found[2]), int(found[3]), found[4])


def differences(old: Iterable, new: Iterable, within: int = 0) -> Iterator[Difference | None]:
    """For each picture of either stream how it differs from the other's, None where it does not. A pixel counts where one of
    its colours differs by more than `within`."""
    for number, (one, other) in enumerate(itertools.zip_longest(old, new), 1):
        if one is None or other is None:
            yield Difference(number, f"only the {'second' if one is None else 'first'} has it")
        elif (one.width, one.height) != (other.width, other.height):
            yield Difference(number, f"{one.width} by {one.height} pixels, and {other.width} by {other.height}")
        elif isinstance(one, Sum) or isinstance(other, Sum):
            sums = [thing if isinstance(thing, Sum) else sum_of(thing) for thing in (one, other)]
            yield None if sums[0] == sums[1] else Difference(number, "its sum is another one")
        else:
            told = told_of_pixels(one, other, within)
            yield Difference(number, told, one, other) if told else None


def told_of_pixels(old: Image, new: Image, within: int) -> str:
    """How two pictures of one size differ, in words; nothing where they do not."""
    count = greatest = 0
    columns, lines = set(), []
    for y, (row, other) in enumerate(zip(old.rows, new.rows)):
        if row == other:
            continue
        apart = [max(abs(a - b) for a, b in zip(row[k:k + 3], other[k:k + 3])) for k in range(0, len(row), 3)]
        there = [x for x, by in enumerate(apart) if by > within]
        if there:
            count, greatest = count + len(there), max(greatest, *apart)
            columns.update((there[0], there[-1]))
            lines.append(y)
    if not count:
        return ""
    return (f"{count:,} of {old.width * old.height:,} pixels, by up to {greatest} of 255, in x {min(columns)}..{max(columns)}, "
            f"y {lines[0]}..{lines[-1]}")


def drawn(old: Image, new: Image) -> Image:
    """Both pictures, and beside them where they differ: black where they do not, and the brighter the more they do."""
    rows = [bytes(min(255, LOUD * abs(a - b)) for a, b in zip(row, other)) for row, other in zip(old.rows, new.rows)]
    return beside([old, new, Image(old.width, old.height, rows)])
