"""Pages and their PNG pictures."""
import re
import struct
import zlib

from . import Problem

MOST_SCALE = 16


def read_page(page, name):
    """The width, the height and the greys of a Netpbm P5 page of 255 levels."""
    head = re.match(rb"P5\s+([0-9]{1,4})\s+([0-9]{1,4})\s+255\s", page)
    if head is None:
        raise Problem(f"{name}: no page: a Netpbm P5 file starts with P5, width, height and 255")
    width, height = int(head[1]), int(head[2])
    if width * height == 0 or len(page) != head.end() + width * height:
        raise Problem(f"{name}: no page: behind P5, width, height and 255 stands a grey for each pixel, and nothing else")
    return width, height, page[head.end():]


def png(width, height, greys, scale):
    """A PNG of 8-bit grey, each pixel as a square of scale by scale."""
    rows = [bytes(g for g in greys[y * width:(y + 1) * width] for _ in range(scale)) for y in range(height)]
    same = b"\2" + bytes(width * scale)
    data = b"".join(b"\0" + row + same * (scale - 1) for row in rows)
    header = struct.pack(">IIBBBBB", width * scale, height * scale, 8, 0, 0, 0, 0)
    return b"\x89PNG\r\n\x1a\n" + chunk(b"IHDR", header) + chunk(b"IDAT", zlib.compress(data, 9)) + chunk(b"IEND", b"")


def chunk(kind, data):
    return struct.pack(">I", len(data)) + kind + data + struct.pack(">I", zlib.crc32(kind + data))
