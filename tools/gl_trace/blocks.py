"""Corners as the commands of a block, rounded as a scene's places are."""
import math
import struct

from .items import FAN, TRIANGLES, Block, W
from .limits import OPCODES

VERTEX, COLOR, COORDINATE = (OPCODES[name] for name in ("Vertex", "Color", "TexCoord"))
BEGIN, END = bytes((OPCODES["Begin"],)), bytes((OPCODES["End"],))
PLAIN, COLORED = bytes((VERTEX,)), bytes((COLOR, VERTEX))
PLACED, COLORED_PLACED = bytes((COORDINATE, VERTEX)), bytes((COLOR, COORDINATE, VERTEX))
PACK_PLAIN, PACK_COLORED = struct.Struct("<4i").pack, struct.Struct("<4B4i").pack
PACK_PLACED = struct.Struct("<6i").pack
PACK_COLORED_PLACED = struct.Struct("<4B6i").pack
LEAST, MOST = -2 ** 31, 2 ** 31 - 1
MIDDLE, EXACT = 8, 0.002    # of a pixel in sixteenths, and how near to it a place is in it


def block_of(state, mode, places, colors, coordinates, lowers=False):
    """A block of corners by columns, or None where it lies outside the viewport or scissor box.

    A place is rounded to sixteenths of a pixel, and x is the least one that gives these: the scene
    rounds down, and would have all lie half a sixteenth to the lower left. Where a polygon `lowers`
    its corners those in the middle of a row of pixels are a sixteenth lower: Mesa keeps a polygon's
    low edge there, and a scene its high one.
    """
    _, _, width, height = state.viewport
    width, height = 8 * width, 8 * height
    across = [round((v[0] / v[3] + 1) * width) for v in places]
    up = [round((v[1] / v[3] + 1) * height) for v in places]
    if lowers and any(y & 15 == MIDDLE for y in up):
        up = [y - (y & 15 == MIDDLE and abs((v[1] / v[3] + 1) * height - y) < EXACT)
              for y, v in zip(up, places)]
    box = box_of(state, across, up)
    if box is None:
        return None
    if not state.texture:
        coordinates = None
    elif coordinates:
        coordinates = fixed_coordinates(coordinates, state.texture[2])
    if state.texture and state.texture[1]:
        colors = None       # REPLACE takes the texel
    xs = [-(-px * W // width) - W for px in across]
    ys = [-(-py * W // height) - W for py in up]
    depths = [round(v[2] / v[3] * W) for v in places]
    opcodes, payload = commands(xs, ys, depths, colors, coordinates)
    return Block(state, BEGIN + opcodes + END, bytes((mode,)) + payload, len(xs), box,
                 outline_of(mode, across, up, 2 * width, 2 * height))


def box_of(state, across, up):
    """The pixels of the window that sixteenths of the viewport may touch."""
    vx, vy, width, height = state.viewport
    left, low = max(vx, vx + min(across) // 16), max(vy, vy + min(up) // 16)
    right = min(vx + width, vx + max(across) // 16 + 1)
    high = min(vy + height, vy + max(up) // 16 + 1)
    if state.scissor:
        x, y, w, h = state.scissor
        left, low, right, high = max(left, x), max(low, y), min(right, x + w), min(high, y + h)
    return (left, low, right, high) if left < right and low < high else None


def outline_of(mode, across, up, width, height):
    """How many pixels long the edges of a block are that no two of its triangles have, by places
    in sixteenths of a viewport of this size in them."""
    if min(across) < 0 or max(across) > width or min(up) < 0 or max(up) > height:
        across = [max(0, min(width, x)) for x in across]
        up = [max(0, min(height, y)) for y in up]
    places = list(zip(across, up))
    if mode == TRIANGLES:
        edges = set()
        for i in range(0, len(places) - 2, 3):
            a, b, c = places[i:i + 3]
            edges ^= {(a, b) if a < b else (b, a)}
            edges ^= {(b, c) if b < c else (c, b)}
            edges ^= {(c, a) if c < a else (a, c)}
        return sum(map(math.dist, *zip(*edges))) / 16 if edges else 0.0
    step = 1 if mode == FAN else 2
    ends = (places[0], places[-1]) if mode == FAN else (places[0], places[1])
    around = sum(map(math.dist, places, places[step:])) + math.dist(*ends)
    return around / 16 if mode == FAN else (around + math.dist(*places[-2:])) / 16


def pixels_of(block, mode, places):
    """About how many pixels a block of these places has: the area of its triangles, where that is
    less than its box."""
    _, _, width, height = block.state.viewport
    across = [v[0] / v[3] * width / 2 for v in places]
    up = [v[1] / v[3] * height / 2 for v in places]
    corners = range(2, len(places), 3 if mode == TRIANGLES else 1)
    firsts = (lambda i: 0) if mode == FAN else (lambda i: i - 2)
    area = sum(abs((across[i - 1] - across[firsts(i)]) * (up[i] - up[firsts(i)])
                   - (up[i - 1] - up[firsts(i)]) * (across[i] - across[firsts(i)]))
               for i in corners) / 2
    left, low, right, high = block.box
    return min(area, (right - left) * (high - low))


def fixed_coordinates(coordinates, clamped):
    """In 16.16 fixed point; where a texture is repeated, whole turns are taken off large ones."""
    shifts = []
    for i in (0, 1):
        low = min(coordinate[i] for coordinate in coordinates)
        shifts.append(math.floor(low) if abs(low) > 64 and not clamped[i] else 0)
    s, t = shifts
    return [(max(LEAST, min(MOST, round(65536 * (x - s)))),
             max(LEAST, min(MOST, round(65536 * (y - t))))) for x, y in coordinates]


def commands(xs, ys, depths, colors, coordinates):
    """Vertices, with a Color and a TexCoord before each that has another than the one before."""
    opcodes, payload = [], []
    last_color, last, last_coordinate = None, None, None
    channels = ()
    for i, x in enumerate(xs):
        turned = False
        if colors is not None and colors[i] is not last_color:
            last_color = colors[i]
            r, g, b, a = last_color
            channels = int(r + 0.5), int(g + 0.5), int(b + 0.5), int(a + 0.5)
            turned, last = channels != last, channels
        if coordinates is None or coordinates[i] == last_coordinate:
            opcodes.append(COLORED if turned else PLAIN)
            payload.append(PACK_COLORED(*channels, x, ys[i], depths[i], W) if turned
                           else PACK_PLAIN(x, ys[i], depths[i], W))
        else:
            last_coordinate = coordinates[i]
            opcodes.append(COLORED_PLACED if turned else PLACED)
            payload.append(PACK_COLORED_PLACED(*channels, *last_coordinate, x, ys[i], depths[i], W)
                           if turned else PACK_PLACED(*last_coordinate, x, ys[i], depths[i], W))
    return b"".join(opcodes), b"".join(payload)
