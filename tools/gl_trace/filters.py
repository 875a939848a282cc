"""Linear filters: images that have between their texels what the filter gives there.

A scene samples the nearest texel. So a texture whose neighbouring texels differ is laid on as an
image of 3, 5 or 9 times its sides, each texel of which is what the filter gives in its middle. The
number is odd, so that a picture that is shown pixel for pixel stays as it is.
"""
import math
from operator import sub

from .clipping import Parts
from .images import Image

# The greatest difference of neighbours up to which an image is laid on so many times as large: a
# texel is off by half a step at most, which is 12 to 14 of 255.
FACTORS = ((24, 1), (72, 3), (130, 5), (255, 9))
LOOKED_AT = 64          # rows of an image, of those that aren't plain, by which it is judged
SPOT = 0.2              # of a texel
MOST_CELLS = 12         # images that one texture is cut into, or that a primitive has
MOST_REACHED = 256      # cells that a primitive of a repeated texture reaches
MOST_REGIONS = 128      # images of polygons that a texture has
MOST_TEXELS = 4_194_304     # of all images that are made so


def contrast(image):
    """The greatest difference of a channel between two neighbours."""
    if image.differs is None:
        size, most = 4 * image.width, 0
        rows = [image.texels[at:at + size] for at in range(0, size * image.height, size)]
        # Letters may be a small part of an image that has nothing else.
        unlike = [row for row, (texels, above) in enumerate(zip(rows, rows[1:] + rows[-1:]))
                  if texels != above or texels != texels[:4] * image.width]
        for row in unlike[::-(-len(unlike) // LOOKED_AT) or 1]:
            texels, above = rows[row], (rows[row + 1:row + 2] or [b""])[0]
            most = max(most, *map(abs, map(sub, texels[4:], texels)), 0)
            most = max(most, *map(abs, map(sub, above, texels)), 0)
        image.differs = most
    return image.differs


def factor(image):
    """How many times as large an image has to be laid on."""
    return next(times for most, times in FACTORS if contrast(image) <= most)


def ends(x, size, clamped):
    """The two texels that a filter mixes at a place, and the share of the second. Places are in
    texels, from the middle of the first one."""
    first = math.floor(x)
    if clamped:
        return max(0, min(size - 1, first)), max(0, min(size - 1, first + 1)), x - first
    return first % size, (first + 1) % size, x - first


def mixed(a, b, share):
    return a if share == 0 or a is b else [x + (y - x) * share for x, y in zip(a, b)]


def enlarged(image, times, box, clamped):
    """A part of an image that is so many times as large: left, low, width and height in steps."""
    key = times, box, clamped
    if key not in image.parts:
        left, low, width, height = box
        columns = [ends((left + i + 0.5) / times - 0.5, image.width, clamped[0])
                   for i in range(width)]
        wide, out = {}, []
        for j in range(height):
            place = (low + j + 0.5) / times - 0.5
            first, second, share = ends(place, image.height, clamped[1])
            for row in {first, second} - set(wide):
                wide[row] = widened(image, row, columns)
            out += mixed(wide[first], wide[second], share)
        made = Image(width, height, bytes(int(x + 0.5) for x in out), image.base)
        made.times = times
        image.parts[key] = made
        image.made[0] += width * height
    return image.parts[key]


def widened(image, row, columns):
    """The channels of a row of texels at these columns."""
    texels, start, out = image.texels, 4 * row * image.width, []
    for a, b, share in columns:
        a, b = start + 4 * a, start + 4 * b
        out += mixed(texels[a:a + 4], texels[b:b + 4], share)
    return out


def spot(image, s, t, clamped):
    """An image of one texel, which has what the filter gives at these coordinates, to a 64th of a
    texel."""
    s, t = (round(64 * x) / 64 for x in (s * image.width, t * image.height))
    key = "spot", s, t, clamped
    if key not in image.parts:
        column = ends(s - 0.5, image.width, clamped[0])
        first, second, share = ends(t - 0.5, image.height, clamped[1])
        texel = mixed(*(widened(image, row, [column]) for row in (first, second)), share)
        image.parts[key] = Image(1, 1, bytes(int(x + 0.5) for x in texel), image.base)
    return image.parts[key]


class Steps:
    """An image that is laid on so many times as large, of which a part is made for each polygon
    where all fit, else the parts of a grid, at which polygons are cut."""

    def __init__(self, image, times, side, clamps, in_grid):
        self.image, self.times, self.side, self.clamps = image, times, side, clamps
        self.width, self.height, self.base = image.width * times, image.height * times, image.base
        self.grid = Parts(self, side, clamps) if in_grid else None

    def part(self, column, row, side):
        box = (column * side, row * side, min(side, self.width - column * side),
               min(side, self.height - row * side))
        return enlarged(self.image, self.times, box, self.clamps)

    def pieces(self, face):
        """Image and polygon of each part of a polygon, with coordinates of that image."""
        if self.grid:
            yield from self.grid.pieces(face)
            return
        left, low, width, height = box = region(self, (v[8:10] for v in face))
        yield (enlarged(self.image, self.times, box, self.clamps),
               [v[:8] + [(v[8] * self.width - left) / width, (v[9] * self.height - low) / height]
                + v[10:] for v in face])


def region(steps, coordinates):
    """Left, low, width and height in steps of what coordinates reach; where a texture is clamped
    no more than a texel beyond its sides."""
    found = []
    for i, places in enumerate(zip(*coordinates)):
        size, low, high = (steps.width, steps.height)[i], min(places), max(places)
        if steps.clamps[i]:
            low, high = (max(-1 / size, min(1 + 1 / size, x)) for x in (low, high))
        first = math.floor(low * size + 1e-6)
        found.append((first, max(1, math.ceil(high * size - 1e-6) - first)))
    (left, width), (low, height) = found
    return left, low, width, height


class Filtered:
    """How a primitive's texture is laid on under a linear filter: whole, by polygon, or by a grid.
    `level` is the image that is laid on, or `parts` what gives one for each polygon."""

    def __init__(self, image, side, clamps, cuts):
        self.image, self.side, self.clamps, self.cuts = image, side, clamps, cuts
        self.due, self.level, self.parts = factor(image), None, None
        self.times = 1

    def choose(self, faces):
        """Looks for the largest of the numbers that fits; faces are lists of coordinates. What
        reaches a small part of one texel has one colour, and no step or texel may begin in it."""
        lows, highs = ([choose(axis) for axis in zip(*(place for face in faces for place in face))]
                       for choose in (min, max))
        reach = [high - low for low, high in zip(lows, highs)]
        if reach[0] * self.image.width < SPOT and reach[1] * self.image.height < SPOT:
            places = ((low + high) / 2 for low, high in zip(lows, highs))
            self.times, self.level = FACTORS[-1][1], spot(self.image, *places, self.clamps)
            return
        for times in (9, 5, 3):
            if times <= self.due:
                steps = Steps(self.image, times, self.side, self.clamps, False)
                if self.whole(steps) or self.by_polygon(steps, faces) \
                        or self.by_grid(steps, reach):
                    self.times = times
                    return

    def has_room(self, keys, texels):
        """Whether these images are there, or may still be made."""
        return all(key in self.image.parts for key in keys) \
            or self.image.made[0] + texels <= MOST_TEXELS

    def whole(self, steps):
        box = (0, 0, steps.width, steps.height)
        if max(box) > self.side or not self.has_room([(steps.times, box, self.clamps)],
                                                     steps.width * steps.height):
            return False
        self.level = enlarged(self.image, steps.times, box, self.clamps)
        return True

    def by_polygon(self, steps, faces):
        boxes = {region(steps, face) for face in faces}
        keys = [(steps.times, box, self.clamps) for box in boxes]
        new = sum(key not in self.image.parts for key in keys)
        if len(boxes) > MOST_CELLS or len(self.image.parts) + new > MOST_REGIONS \
                or any(max(box[2:]) > self.side for box in boxes) \
                or not self.has_room(keys, sum(w * h for _, _, w, h in boxes)):
            return False
        self.parts = steps
        return True

    def by_grid(self, steps, reach):
        cells = [-(-size // self.side) for size in (steps.width, steps.height)]
        reached = [math.ceil((span + 1) * count) for span, count in zip(reach, cells)]
        made = ("grid", steps.times, self.clamps)
        if not self.cuts or cells[0] * cells[1] > MOST_CELLS \
                or reached[0] * reached[1] > MOST_REACHED \
                or not self.has_room([made], steps.width * steps.height):
            return False
        self.image.parts[made] = None
        self.parts = Steps(self.image, steps.times, self.side, self.clamps, True)
        return True
