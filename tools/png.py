#!/usr/bin/env python3
"""Turns the images that `render` writes into PNG files.

    python3 tools/png.py wheel < wheel.ppm
        wheel-1.png, wheel-2.png and so on; wheel.png where there is one image
    python3 tools/png.py wheel --apng --fps 8 < wheel.ppm
        wheel.png, which moves

Each file's name is told on standard output.
"""
import argparse
import fractions
import os
import re
import struct
import zlib

import command
import ppm

SIGNATURE = b"\x89PNG\r\n\x1a\n"
LEVEL = 6
# What stands before each row, and how it is filtered.
PLAIN, LEFT, ABOVE = 0, 1, 2
# The rows by which a filter is chosen: so many of each so many.
SAMPLE, STRIDE = 8, 96


def chunk(kind, body):
    return struct.pack(">I", len(body)) + kind + body + struct.pack(">I", zlib.crc32(kind + body))


def differences(bytes_, others):
    """Each byte less the one of the others, by one subtraction of whole numbers: bit 7 of each byte
    is kept apart.
    """
    count = len(bytes_)
    high = int.from_bytes(b"\x80" * count, "little")
    a, b = int.from_bytes(bytes_, "little"), int.from_bytes(others, "little")
    return (((a | high) - (b & ~high)) ^ ((a ^ ~b) & high)).to_bytes(count, "little")


def filtered(row, rgb, kind, above=None):
    """The rows of some pixels, behind a byte that tells their filter. Above the first is `above`,
    or nothing.
    """
    if kind == ABOVE:
        rgb = differences(rgb, (above or bytes(row)) + rgb[:-row])
    elif kind == LEFT:
        before = b"".join(b"\0\0\0" + rgb[at : at + row - 3] for at in range(0, len(rgb), row))
        rgb = differences(rgb, before)
    mark = bytes([kind])
    return b"".join(mark + rgb[at : at + row] for at in range(0, len(rgb), row))


def best_filter(row, rgb):
    """The filter by which some rows of the image are shortest."""
    strips = [rgb[at : at + row * SAMPLE] for at in range(0, len(rgb), row * STRIDE)]

    def length(kind):
        return sum(len(zlib.compress(filtered(row, strip, kind), 1)) for strip in strips)

    return min((PLAIN, LEFT, ABOVE), key=length)


def pixels(width, rgb):
    """The image as PNG files hold it."""
    row = 3 * width
    return zlib.compress(filtered(row, rgb, best_filter(row, rgb)), LEVEL)


def header(width, height):
    return SIGNATURE + chunk(b"IHDR", struct.pack(">IIBBBBB", width, height, 8, 2, 0, 0, 0))


def png(width, height, rgb):
    """The bytes of a PNG file."""
    return header(width, height) + chunk(b"IDAT", pixels(width, rgb)) + chunk(b"IEND", b"")


def frame_control(number, width, height, rate):
    body = struct.pack(
        ">IIIIIHHBB", number, width, height, 0, 0, rate.denominator, rate.numerator, 0, 0
    )
    return chunk(b"fcTL", body)


def write_animation(path, images, rate):
    """One file of all images, which must be of one size. Their number stands in front: it is
    written last.
    """
    with open(path, "wb") as file:
        try:
            write_moving(file, images, rate)
        except command.Wrong:
            os.unlink(path)
            raise


def write_moving(file, images, rate):
    """The chunks of all images to a file that was just made."""
    count = number = 0
    for width, height, rgb in images:
        if count == 0:
            size = width, height
            file.write(header(width, height))
            front = file.tell()
            file.write(chunk(b"acTL", struct.pack(">II", 0, 0)))
        elif (width, height) != size:
            raise command.Wrong(
                f"image {count + 1} is {width} by {height}, and not {size[0]} by {size[1]}"
            )
        body = frame_control(number, width, height, rate)
        kind, place = (b"IDAT", b"") if count == 0 else (b"fdAT", struct.pack(">I", number + 1))
        file.write(body + chunk(kind, place + pixels(width, rgb)))
        number += 1 if count == 0 else 2
        count += 1
    file.write(chunk(b"IEND", b""))
    file.seek(front)
    file.write(chunk(b"acTL", struct.pack(">II", count, 0)))


def write_each(prefix, images):
    """A file for each image: PREFIX.png where there is one, else PREFIX-1.png and so on."""
    images = iter(images)
    waiting, number = next(images), 0
    for picture in images:
        number += 1
        yield f"{prefix}-{number}.png", waiting
        waiting = picture
    yield f"{prefix}-{number + 1}.png" if number else f"{prefix}.png", waiting


def rate(word):
    """Images a second, as a fraction of two numbers of 16 bits."""
    if not re.fullmatch(r"[0-9]{1,4}(\.[0-9]{1,3})?", word) or not 0 < float(word) <= 1000:
        raise argparse.ArgumentTypeError(f"{word!r} isn't a rate from 0.001 to 1000")
    made = fractions.Fraction(word)
    while made.numerator > 65535:
        made = made.limit_denominator(made.denominator // 2)
    return made


def main():
    words = command.Words(__doc__)
    words.add_argument(
        "prefix", type=command.file_name, help="what the names of the files begin with"
    )
    words.add_argument("--apng", action="store_true", help="one file PREFIX.png that moves")
    words.add_argument(
        "--fps", type=rate, help="images a second of --apng, as 8 or 23.976 (12)"
    )
    given = words.parse_args()
    if given.fps and not given.apng:
        words.error("--fps is for --apng")
    images = ppm.frames(command.standard_input())
    if given.apng:
        first = next(images)
        path = f"{given.prefix}.png"
        write_animation(
            path,
            (picture for part in ([first], images) for picture in part),
            given.fps or fractions.Fraction(12),
        )
        print(path)
        return
    for path, picture in write_each(given.prefix, images):
        command.write_file(path, png(*picture))
        print(path, flush=True)


if __name__ == "__main__":
    command.run(main)
