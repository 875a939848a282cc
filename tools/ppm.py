"""Reads the images that `render` writes: Netpbm P6 of 8-bit channels, one after the other, rows
from the top.

`frames(stream)` gives each as (width, height, rgb), as soon as it is read. It ends where the data
ends, and tells data that is empty, cut or no image. `boundary` is where a tile begins, `scaled` and
`beside` make pictures of pictures.
"""
import re

from command import Wrong

HEADER = re.compile(rb"P6[ \t\n]+([0-9]{1,5})[ \t\n]+([0-9]{1,5})[ \t\n]+255[ \t\n]")
LONGEST_HEADER = 64
OTHER_DEPTH = re.compile(rb"P6[ \t\n]+[0-9]+[ \t\n]+[0-9]+[ \t\n]+([0-9]{1,5})[ \t\n]")
DUE = "P6, two sides and 255 are due"


def wrong_header(head):
    """What is wrong with the beginning of an image."""
    if head[:2] != b"P6":
        return f"is not one that render writes: {DUE}"
    if match := OTHER_DEPTH.match(head):
        return f"has channels of 0 to {int(match[1])}: {DUE}"
    if b"#" in head[: head.find(b"255") if b"255" in head else len(head)]:
        return f"has a comment in its header: {DUE}"
    if len(head) < LONGEST_HEADER:
        return f"is cut: {DUE}"
    return f"is not one that render writes: {DUE}"


def frames(stream):
    """Width, height and rgb of each image of a stream of bytes; at least one."""
    number, head = 0, stream.read(LONGEST_HEADER)
    if not head:
        raise Wrong("there is no image: look at what render said")
    while head:
        number += 1
        match = HEADER.match(head)
        if not match:
            raise Wrong(f"image {number} {wrong_header(head)}")
        width, height = int(match[1]), int(match[2])
        if width == 0 or height == 0:
            raise Wrong(f"image {number} has no pixels: {width} by {height}")
        body, size = head[match.end() :], 3 * width * height
        while len(body) < size:
            more = stream.read(size - len(body))
            if not more:
                raise Wrong(f"image {number} is cut: {len(body)} of its {size} bytes are there")
            body += more
        head = body[size:]
        if len(head) < LONGEST_HEADER:
            head += stream.read(LONGEST_HEADER - len(head))
        yield width, height, body[:size]


def image(width, height, rgb):
    """The bytes of one image."""
    return b"P6\n%d %d\n255\n" % (width, height) + rgb


def boundary(side, parts, number):
    """Where column or row `number` of the tiles begins, as the program cuts a window."""
    return number * side // parts


def tile_rectangle(width, height, columns, rows, tile):
    """Left, top, right and bottom of a tile in rows from the top; tiles have theirs from the
    bottom.
    """
    column, row = tile % columns, tile // columns
    left, right = boundary(width, columns, column), boundary(width, columns, column + 1)
    return (
        left,
        height - boundary(height, rows, row + 1),
        right,
        height - boundary(height, rows, row),
    )


def judge_tiles(columns, rows, width, height):
    """A window has as many columns and rows of tiles as pixels at most."""
    if columns > width or rows > height:
        raise Wrong(f"{columns}x{rows} tiles are too many for a window of {width} by {height}")


def cropped(picture, rectangle):
    """The pixels of a rectangle, as an image."""
    width, _, rgb = picture
    left, top, right, bottom = rectangle
    rows = (rgb[3 * (width * y + left) : 3 * (width * y + right)] for y in range(top, bottom))
    return right - left, bottom - top, b"".join(rows)


def scaled(picture, times):
    """Each pixel as a square of so many pixels a side."""
    width, height, rgb = picture
    if times == 1:
        return picture
    pixels = [rgb[at : at + 3] * times for at in range(0, len(rgb), 3)]
    rows = (b"".join(pixels[width * y : width * (y + 1)]) * times for y in range(height))
    return times * width, times * height, b"".join(rows)


def beside(pictures, gap=8):
    """Images of one size in one, with a white gap between them."""
    width, height, _ = pictures[0]
    row = 3 * width
    rows = (
        (b"\xff" * (3 * gap)).join(rgb[row * y : row * (y + 1)] for _, _, rgb in pictures)
        for y in range(height)
    )
    return len(pictures) * (width + gap) - gap, height, b"".join(rows)
