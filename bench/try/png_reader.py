"""A reader of PNG and APNG files by the PNG specification alone, to which try_tools.py holds
tools/png.py: every filter, every checksum.
"""
import struct
import zlib


class BadPng(Exception):
    """What is wrong with a file."""


def chunks(data):
    """Kind and body of each chunk."""
    if data[:8] != b"\x89PNG\r\n\x1a\n":
        raise BadPng("signature")
    at = 8
    while at < len(data):
        size, kind = struct.unpack(">I4s", data[at : at + 8])
        body, check = data[at + 8 : at + 8 + size], data[at + 8 + size : at + 12 + size]
        if len(body) < size or struct.pack(">I", zlib.crc32(kind + body)) != check:
            raise BadPng(f"chunk {kind}")
        yield kind, body
        at += 12 + size


def predicted(kind, left, above, corner):
    """The byte that a filter takes off, by its neighbours."""
    if kind < 4:
        return (0, left, above, (left + above) // 2)[kind]
    p = left + above - corner
    a, b, c = abs(p - left), abs(p - above), abs(p - corner)
    return left if a <= b and a <= c else above if b <= c else corner


def unfiltered(width, height, data):
    """The rgb of filtered rows."""
    row = 3 * width
    if len(data) != (row + 1) * height:
        raise BadPng("length of the rows")
    made, above = [], bytes(row)
    for y in range(height):
        kind, line = data[y * (row + 1)], bytearray(data[y * (row + 1) + 1 : (y + 1) * (row + 1)])
        if kind > 4:
            raise BadPng(f"filter {kind}")
        for x in range(row) if kind else ():
            left, corner = (line[x - 3], above[x - 3]) if x >= 3 else (0, 0)
            line[x] = (line[x] + predicted(kind, left, above[x], corner)) & 255
        above = bytes(line)
        made.append(above)
    return b"".join(made)


def read(data):
    """The images of a file as (width, height, rgb), and of a moving one the numerator and
    denominator of each delay.
    """
    parts, delays, due, number = [], [], None, 0
    kinds = []
    for kind, body in chunks(data):
        kinds.append(kind)
        if kind == b"IHDR":
            width, height, *form = struct.unpack(">IIBBBBB", body)
            if form != [8, 2, 0, 0, 0]:
                raise BadPng(f"form {form}")
        elif kind == b"acTL":
            due = struct.unpack(">II", body)[0]
        elif kind in (b"fcTL", b"fdAT"):
            if struct.unpack(">I", body[:4])[0] != number:
                raise BadPng("sequence number")
            number += 1
            if kind == b"fcTL":
                if struct.unpack(">IIII", body[4:20]) != (width, height, 0, 0):
                    raise BadPng("rectangle of a frame")
                delays.append(struct.unpack(">HH", body[20:24]))
            else:
                parts.append(body[4:])
        elif kind == b"IDAT":
            parts.append(body)
    if (
        kinds[0] != b"IHDR"
        or kinds[-1] != b"IEND"
        or due is not None
        and not due == len(parts) == len(delays)
    ):
        raise BadPng("sequence of the chunks")
    return [
        (width, height, unfiltered(width, height, zlib.decompress(part))) for part in parts
    ], delays
