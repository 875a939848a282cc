#!/usr/bin/env python3
"""Shows a cluster at work: each tile of a frame in a colour of its own, lettered with what the
clients sent to it.

    render --tiles 4x3 < scene.rcs > frames.ppm 2> notes.txt
    python3 tools/tiles.py cluster 4x3 notes.txt < frames.ppm
        cluster.png; of several frames cluster-1.png and so on
    python3 tools/tiles.py wall 4x3 --each < frames.ppm
        wall-tile-0.ppm and so on: each tile's part of all frames

The numbers are those of the notes' lines `tile T parcels P sets S looks L`. With `--each` a tile's
file holds its part of each frame, as it is: one for each projector of a wall. Tiles count from 0 at
the lower left.
"""
import colorsys
import contextlib

import command
import letters
import notes
import png
import ppm

BORDER, BORDER_SHARE, SHARE = 2, 0.8, 0.22


def moved_to(color, share):
    """For each channel what becomes of a byte that is moved towards a colour."""
    return [bytes(byte + int((channel - byte) * share) for byte in range(256)) for channel in color]


def tint(picture, span, y, tables):
    """Moves the pixels of a row from one column to another one towards a colour."""
    at, end = (3 * (y * picture[0] + x) for x in span)
    for channel, table in enumerate(tables):
        picture[2][at + channel : end : 3] = picture[2][at + channel : end : 3].translate(table)


def show_tile(picture, rectangle, tile, sent):
    """Tints one tile, draws its border and letters it."""
    left, top, right, bottom = rectangle
    # neighbours differ: the golden ratio parts the circle of hues
    color = [int(255 * channel) for channel in colorsys.hsv_to_rgb(tile * 0.618 % 1.0, 0.75, 1.0)]
    inner, border = moved_to(color, SHARE), moved_to(color, BORDER_SHARE)
    for y in range(top, bottom):
        if y < top + BORDER or y >= bottom - BORDER or right - left <= 2 * BORDER:
            tint(picture, (left, right), y, border)
        else:
            for span, tables in (
                ((left, left + BORDER), border),
                ((left + BORDER, right - BORDER), inner),
                ((right - BORDER, right), border),
            ):
                tint(picture, span, y, tables)
    labels = [f"tile {tile}", f"parcels {sent[0]}", f"sets {sent[1]}"]
    longest = max(map(len, labels))
    scale = max(
        1, min(2, (right - left - 8) // (6 * longest), (bottom - top - 8) // (9 * len(labels)))
    )
    for number, label in enumerate(labels):
        letters.write_label(picture, left + 6, top + 6 + 9 * scale * number, label, scale)


def shown(picture, cut, tallies):
    """The image with all tiles tinted and lettered."""
    width, height, rgb = picture
    made = width, height, bytearray(rgb)
    for tile in range(cut[0] * cut[1]):
        show_tile(made, ppm.tile_rectangle(width, height, *cut, tile), tile, tallies[tile])
    return width, height, bytes(made[2])


def write_parts(images, prefix, cut):
    """Writes each tile's part of each image that comes by to the tile's file, and passes the image
    on.
    """
    with contextlib.ExitStack() as stack:
        files = []
        for picture in images:
            ppm.judge_tiles(*cut, *picture[:2])
            if not files:
                names = [f"{prefix}-tile-{tile}.ppm" for tile in range(cut[0] * cut[1])]
                files = [stack.enter_context(open(name, "wb")) for name in names]
                print("\n".join(names), flush=True)
            for tile, file in enumerate(files):
                rectangle = ppm.tile_rectangle(*picture[:2], *cut, tile)
                file.write(ppm.image(*ppm.cropped(picture, rectangle)))
            yield picture


def main():
    words = command.Words(__doc__)
    words.add_argument(
        "prefix", type=command.file_name, help="what the names of the files begin with"
    )
    words.add_argument(
        "tiles", type=command.pair_of_sides, metavar="CxR", help="columns and rows of tiles"
    )
    words.add_argument(
        "notes", nargs="?", help="the notes of the run; with --each they may be left out"
    )
    words.add_argument("--each", action="store_true", help="writes each tile to a file of its own")
    given = words.parse_args()
    if given.notes is None and not given.each:
        words.error("the notes' name is missing")
    tallies = given.notes and notes.tallies(
        notes.read_lines(given.notes), given.tiles[0] * given.tiles[1]
    )
    images = ppm.frames(command.standard_input())
    if given.each:
        images = write_parts(images, given.prefix, given.tiles)
    if given.notes is None:
        for _ in images:
            pass
        return
    for path, picture in png.write_each(given.prefix, images):
        ppm.judge_tiles(*given.tiles, *picture[:2])
        command.write_file(path, png.png(*shown(picture, given.tiles, tallies)))
        print(path, flush=True)


if __name__ == "__main__":
    command.run(main)
