"""The pictures that compare.py holds against Netpbm, and the rasters that they are there.

A picture is the library's memory: bottom line first, the leftmost dot the lowest bit. A raster is that of Netpbm's raw
PBM: top line first, the leftmost dot the highest bit. A lit dot is 1 in both, and black there.
"""
import random
import struct
import zlib
from typing import NamedTuple

PICTURES = 50  # of each format


class Format(NamedTuple):
    number: int
    name: str
    width: int
    height: int

    @property
    def step(self):
        """The bytes of a line."""
        return self.width // 8


EF9366 = Format(0, "EF9366", 512, 256)
FORMATS = [EF9366, Format(1, "FMAT high", 512, 512), Format(2, "FMAT low", 256, 256)]


class Wrong(Exception):
    """A sentence that says what is not as it should be."""


REVERSED = bytes(int(f"{byte:08b}"[::-1], 2) for byte in range(256))
INVERTED = bytes(255 - byte for byte in range(256))


def raster(form, picture):
    lines = [picture[at : at + form.step] for at in range(0, len(picture), form.step)]
    return b"".join(reversed(lines)).translate(REVERSED)


def raw(form, picture):
    return b"P4\n%d %d\n" % (form.width, form.height) + raster(form, picture)


def signs(form, picture):
    """The dots as plain PBM has them, 64 to a line; the last line has no line feed."""
    row = "".join(f"{byte:08b}" for byte in raster(form, picture))
    return "\n".join(row[at : at + 64] for at in range(0, len(row), 64)).encode()


def pictured(form, dots):
    picture = bytearray(form.step * form.height)
    for x, y in dots:
        picture[y * form.step + x // 8] |= 1 << x % 8
    return bytes(picture)


def lit(form, found):
    """The dots of a raster, y counted from the bottom."""
    dots = set()
    for at, byte in enumerate(found):
        for bit in range(8):
            if byte & 0x80 >> bit:
                dots.add((at % form.step * 8 + bit, form.height - 1 - at // form.step))
    return dots


def chunks(png):
    at = 8
    while at < len(png):
        length, kind = struct.unpack(">I4s", png[at : at + 8])
        yield kind, png[at + 8 : at + 8 + length]
        at += 12 + length


def predicted(kind, left, above, corner):
    """PNG's five filters."""
    if kind == 4:  # of the three the one nearest to left + above - corner
        return min((left, above, corner), key=lambda byte: abs(left + above - corner - byte))
    return (0, left, above, (left + above) // 2)[kind]


def unfiltered(data, step, height):
    above, whole = bytes(step), b""
    for at in range(0, height * (step + 1), step + 1):
        line = bytearray(data[at + 1 : at + 1 + step])
        for i in range(step) if data[at] else ():
            left, corner = (line[i - 1], above[i - 1]) if i else (0, 0)
            line[i] = line[i] + predicted(data[at], left, above[i], corner) & 255
        above = bytes(line)
        whole += above
    return whole


def png_raster(form, png):
    """The raster that a PNG of one bit a dot shows; black is 0 there."""
    try:
        parts = list(chunks(png))
        size = struct.unpack(">IIBBBBB", parts[0][1])
        data = zlib.decompress(b"".join(body for kind, body in parts if kind == b"IDAT"))
    except (struct.error, zlib.error, IndexError) as why:
        raise Wrong(f"this is not a whole PNG: {why}") from why
    if size != (form.width, form.height, 1, 0, 0, 0, 0):
        raise Wrong(f"the PNG has another size or form: {size}")
    return unfiltered(data, form.step, form.height).translate(INVERTED)


def generated(form):
    """Corners, edges, patterns, and random dots from sparse to dense."""
    right, top = form.width - 1, form.height - 1
    yield pictured(form, [])
    yield bytes([255]) * (form.step * form.height)
    for corner in (0, 0), (right, 0), (0, top), (right, top):
        yield pictured(form, [corner])
    yield pictured(form, [(x, top) for x in range(form.width)])
    yield pictured(form, [(0, y) for y in range(form.height)])
    yield pictured(form, [(i % form.width, i) for i in range(form.height)])
    yield bytes([0x55, 0xAA][at // form.step % 2] for at in range(form.step * form.height))
    lots = random.Random(form.number)
    for number in range(10, PICTURES):
        yield noise(form, lots, number % 7 - 3)


def noise(form, lots, thinned):
    """One dot in two is lit; so many times half of the lit ones go dark, or, below 0, half of the dark ones are lit."""
    bits = form.width * form.height
    dots = lots.getrandbits(bits)
    for _ in range(abs(thinned)):
        dots = dots & lots.getrandbits(bits) if thinned > 0 else dots | lots.getrandbits(bits)
    return dots.to_bytes(bits // 8, "little")
