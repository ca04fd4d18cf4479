"""Reads a PNG of a browser: its size, and its pixels."""

import struct
import zlib
from typing import List, NamedTuple, Tuple

#: Red, green and blue, each up to 255.
Pixel = Tuple[int, ...]


class Picture(NamedTuple):
    """A picture, row by row."""

    rows: List[List[Pixel]]


def picture_of(png: bytes) -> Picture:
    """Returns the picture in a PNG with 8 bits for each of red, green, blue and perhaps opacity."""
    at, packed, width, depth = 8, b"", 0, 0
    while at < len(png):
        length, kind = struct.unpack_from(">I4s", png, at)
        body = png[at + 8 : at + 8 + length]
        if kind == b"IHDR":
            width, depth = struct.unpack_from(">I", body)[0], {2: 3, 6: 4}[body[9]]
        packed += body if kind == b"IDAT" else b""
        at += 12 + length
    content, stride = zlib.decompress(packed), 1 + width * depth
    rows, above = [], bytearray(stride - 1)
    for begin in range(0, len(content), stride):
        above = _row(content[begin], bytearray(content[begin + 1 : begin + stride]), above, depth)
        rows.append([tuple(above[x : x + 3]) for x in range(0, stride - 1, depth)])
    return Picture(rows)


def _row(filtered: int, line: bytearray, above: bytearray, depth: int) -> bytearray:
    """Returns a row without its filter, whose number is `filtered`."""
    for x, value in enumerate(line):
        left, corner = (line[x - depth], above[x - depth]) if x >= depth else (0, 0)
        up = above[x]
        if filtered == 4:
            likely = min((left, up, corner), key=lambda each: abs(left + up - corner - each))
        else:
            likely = (0, left, up, (left + up) // 2)[filtered]
        line[x] = (value + likely) & 255
    return line
