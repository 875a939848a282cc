"""Textures that are laid on pixel by pixel: images that have what each pixel of a polygon shows.

Where steps between texels don't fit, or a texture is seen in perspective, a polygon has an image as
large as its part of the window, whose texels lie on the pixels. What such a texel has is what the
program's filter gives in the pixel's middle.
"""
import collections
import math

from .clipping import cut, finite
from .filters import ends, mixed
from .images import Image

MARGIN = 1          # pixels around a polygon that its image has too
LEAST_AREA = 0.5    # of a polygon that is drawn so, in pixels
MOST_BENT = 0.1     # texels that a corner of a flat texture is off


def pixels_in(faces, viewport):
    """How many pixels the boxes of polygons have in a viewport, where all lie before the eye."""
    _, _, width, height = viewport
    count = 0
    for face in faces:
        if any(v[3] <= 0 for v in face):
            count += width * height
            continue
        left, low, right, high = box_of(face, width, height)
        count += max(0, right - left) * max(0, high - low)
    return count


def box_of(face, width, height):
    across = [(v[0] / v[3] + 1) * width / 2 for v in face]
    up = [(v[1] / v[3] + 1) * height / 2 for v in face]
    return (max(0, math.floor(min(across)) - MARGIN), max(0, math.floor(min(up)) - MARGIN),
            min(width, math.ceil(max(across)) + MARGIN), min(height, math.ceil(max(up)) + MARGIN))


# What is added to the number of an image, whether two of them are mixed, and whether texels are
# where the texture is enlarged.
Mipmap = collections.namedtuple("Mipmap", "bias mixes is_linear_enlarged")


class Baked:
    """A polygon with the texture that is laid on it, in tiles of the viewport."""

    def __init__(self, image, viewport, side, clamps, linear, mipmap=None):
        self.image, self.side, self.clamps, self.linear = image, side, clamps, linear
        self.mipmap = mipmap
        _, _, self.width, self.height = viewport

    def pieces(self, face):
        """Image and polygon of each tile that a polygon reaches. The polygon's coordinates are
        those of its places in the window (`coordinates`)."""
        law = Law(face, self.width, self.height)
        if law.area < LEAST_AREA:
            self.box = box_of(face, self.width, self.height)
            yield self.spot(face), face
            return
        if len(face) > 3 and not law.fits(face, self.image):
            for b, c in zip(face[1:], face[2:]):
                yield from self.pieces([face[0], b, c])
            return
        left, low, right, high = box_of(face, self.width, self.height)
        for x in range(left, right, self.side):
            for y in range(low, high, self.side):
                self.box = box = x, y, min(right, x + self.side), min(high, y + self.side)
                piece = face
                if right - left > self.side or high - low > self.side:
                    piece = cut(face, self.planes(*box))
                if len(piece) > 2:
                    yield self.made(law, piece, box), piece

    def spot(self, face):
        """An image of one texel, for a polygon that hardly has an area: what is in its middle."""
        s, t = (sum(v[i] for v in face) / len(face) for i in (8, 9))
        texel = self.sample(self.image, s, t, self.linear) if not self.mipmap \
            else self.mixed_images(s, t, self.size_along(face))
        return Image(1, 1, bytes(int(x + 0.5) for x in texel), self.image.base)

    def size_along(self, face):
        """How many texels a pixel goes over along the longest edge."""
        edges = []
        for a, b in zip(face, face[1:] + face[:1]):
            pixels = math.hypot((a[0] / a[3] - b[0] / b[3]) * self.width / 2,
                                (a[1] / a[3] - b[1] / b[3]) * self.height / 2)
            texels = math.hypot((a[8] - b[8]) * self.image.width, (a[9] - b[9]) * self.image.height)
            edges.append((pixels, texels))
        pixels, texels = max(edges)
        return texels / pixels if pixels else 1.0

    def planes(self, left, low, right, high):
        """What keeps a polygon in a box of pixels."""
        x0, x1 = 2 * left / self.width - 1, 2 * right / self.width - 1
        y0, y1 = 2 * low / self.height - 1, 2 * high / self.height - 1
        return (lambda v: v[0] - x0 * v[3], lambda v: x1 * v[3] - v[0],
                lambda v: v[1] - y0 * v[3], lambda v: y1 * v[3] - v[1])

    def coordinates(self, places):
        """Where places lie in the image of the tile that is drawn, rounded as a block rounds
        them: of what is narrow small steps of a place are large ones of what is seen."""
        left, low, right, high = self.box
        return [((round((v[0] / v[3] + 1) * 8 * self.width) / 16 - left) / (right - left),
                 (round((v[1] / v[3] + 1) * 8 * self.height) / 16 - low) / (high - low))
                for v in places]

    def made(self, law, piece, box):
        left, low, right, high = box
        rows = []
        for y in range(low, high):
            reach = self.reach(piece, y + 0.5)
            if reach is None:
                rows.append(bytes(4 * (right - left)))
                continue
            first, last = max(left, reach[0]), min(right, reach[1])
            shown = self.row(law, y + 0.5, first, last) if first < last else b""
            first = min(first, right)
            rows.append(bytes(4 * (first - left)) + shown
                        + bytes(4 * (right - first) - len(shown)))
        self.image.made[0] += (right - left) * (high - low)
        return Image(right - left, high - low, b"".join(rows), self.image.base)

    def reach(self, piece, y):
        """The pixels of a row that a polygon may touch: from the first up to before the last."""
        lows, highs = [], []
        places = [((v[0] / v[3] + 1) * self.width / 2, (v[1] / v[3] + 1) * self.height / 2)
                  for v in piece]
        for (ax, ay), (bx, by) in zip(places, places[1:] + places[:1]):
            if max(ay, by) < y - MARGIN or min(ay, by) > y + MARGIN:
                continue
            if ay != by:
                ends = [max(0.0, min(1.0, (y + d - ay) / (by - ay))) for d in (-MARGIN, MARGIN)]
            else:
                ends = [0.0, 1.0]
            sides = [ax + t * (bx - ax) for t in ends]
            lows.append(min(sides))
            highs.append(max(sides))
        if not lows:
            return None
        return math.floor(min(lows)) - MARGIN, math.ceil(max(highs)) + MARGIN

    def row(self, law, y, first, last):
        """The texels of a row of pixels."""
        out, image, mipmap = [], self.image, self.mipmap
        size = law.size(first + 0.5, y, image) if mipmap and law.is_affine else None
        for x in range(first, last):
            s, t = law.at(x + 0.5, y)
            if not mipmap:
                out += self.sample(image, s, t, self.linear)
            else:
                out += self.mixed_images(s, t, size or law.size(x + 0.5, y, image))
        return bytes(int(x + 0.5) for x in out)

    def mixed_images(self, s, t, size):
        """What is seen of a mipmap where a pixel has so many texels along a side."""
        mipmap, image = self.mipmap, self.image
        level = math.log2(size) + mipmap.bias if size > 0 else 0.0
        if level <= 0:
            return self.sample(image, s, t, mipmap.is_linear_enlarged)
        number = math.floor(level if mipmap.mixes else level + 0.5)
        texel = self.sample(image.level(number, 0), s, t, self.linear)
        if not mipmap.mixes or level == number:
            return texel
        return mixed(texel, self.sample(image.level(number + 1, 0), s, t, self.linear),
                     level - number)

    def sample(self, image, s, t, linear):
        """What the filter gives at these coordinates."""
        width, height, texels, clamps = image.width, image.height, image.texels, self.clamps
        s, t = s * width, t * height
        if not linear:
            column, line = math.floor(s), math.floor(t)
            column = max(0, min(width - 1, column)) if clamps[0] else column % width
            line = max(0, min(height - 1, line)) if clamps[1] else line % height
            at = 4 * (line * width + column)
            return texels[at:at + 4]
        a, b, across = ends(s - 0.5, width, clamps[0])
        low, high, up = ends(t - 0.5, height, clamps[1])
        low, high = 4 * low * width, 4 * high * width
        below = texels[low + 4 * a:low + 4 * a + 4], texels[low + 4 * b:low + 4 * b + 4]
        above = texels[high + 4 * a:high + 4 * a + 4], texels[high + 4 * b:high + 4 * b + 4]
        if below[0] == below[1] == above[0] == above[1]:
            return below[0]
        return mixed(mixed(*below, across), mixed(*above, across), up)


def size_in_middle(face, width, height, image):
    """How many texels of an image a pixel goes over in the middle of a polygon; None where that
    has hardly an area, or isn't all before the eye."""
    if any(v[3] <= 0 for v in face) or not finite(face):
        return None
    law = Law(face, width, height)
    if law.area < LEAST_AREA:
        return None
    x, y = (sum(v[i] / v[3] for v in face) / len(face) for i in (0, 1))
    return law.size((x + 1) * width / 2, (y + 1) * height / 2, image) or None


class Law:
    """Texture coordinates of a flat polygon by places in the window, in perspective."""

    def __init__(self, face, width, height):
        places = [((v[0] / v[3] + 1) * width / 2, (v[1] / v[3] + 1) * height / 2, 1 / v[3])
                  for v in face]
        x, y, q = places[0]
        areas = [(b[0] - x) * (c[1] - y) - (c[0] - x) * (b[1] - y)
                 for b, c in zip(places[1:], places[2:])]
        self.width, self.height, self.area = width, height, max(map(abs, areas))
        j = max(range(len(areas)), key=lambda i: abs(areas[i])) + 1
        if self.area < LEAST_AREA:
            return
        area, (bx, by, bq), (cx, cy, cq) = areas[j - 1], places[j], places[j + 1]
        self.laws = []
        for a, b, c in ((q, bq, cq), *((face[0][k] * q, face[j][k] * bq, face[j + 1][k] * cq)
                                       for k in (8, 9))):
            b, c = b - a, c - a
            fx = (b * (cy - y) - c * (by - y)) / area
            fy = (c * (bx - x) - b * (cx - x)) / area
            self.laws.append((a - fx * x - fy * y, fx, fy))
        self.is_affine = max(map(abs, self.laws[0][1:])) < 1e-9 * q

    def fits(self, face, image):
        """Whether all corners have the coordinates that the law has there, and not three alone: a
        polygon of more has one law only where its texture lies flat on it."""
        return all(abs(s - v[8]) * image.width < MOST_BENT and abs(t - v[9]) * image.height
                   < MOST_BENT for v in face
                   for s, t in [self.at((v[0] / v[3] + 1) * self.width / 2,
                                        (v[1] / v[3] + 1) * self.height / 2)])

    def at(self, x, y):
        (q, qx, qy), (s, sx, sy), (t, tx, ty) = self.laws
        over = q + qx * x + qy * y
        if over <= 0:
            return 0.0, 0.0
        return (s + sx * x + sy * y) / over, (t + tx * x + ty * y) / over

    def size(self, x, y, image):
        """How many texels of an image a pixel goes over, at most, from one to the next."""
        (q, qx, qy), *laws = self.laws
        over, most = q + qx * x + qy * y, 0.0
        for (c, cx, cy), texels in zip(laws, (image.width, image.height)):
            here = (c + cx * x + cy * y) / over if over > 0 else 0.0
            most = max(most, texels * abs(cx - here * qx), texels * abs(cy - here * qy))
        return most / over if over > 0 else 0.0
