"""Polygons cut: by planes, in parts of a texture, and finer for perspective.

A polygon is a list of corners, each a list of numbers (`shading`).
"""
import math

FINEST = 8          # how often an edge is halved at most
MOST_MOVED = 8.0    # in depth, of which the window has 2
LEAST_SPREAD = 0.0005   # of w along an edge, below which it is never cut


def cut(face, planes):
    """What these planes leave of a polygon: each gives a corner's distance, from 0 up inside."""
    for plane in planes:
        distances = [plane(corner) for corner in face]
        if min(distances, default=0.0) >= 0:
            continue
        kept = []
        for i, (a, da) in enumerate(zip(face, distances)):
            b, db = face[i + 1 - len(face)], distances[i + 1 - len(face)]
            if da >= 0:
                kept.append(a)
            if (da >= 0) != (db >= 0):
                # From the inner end, so that an edge has one crossing whichever way it is gone.
                kept.append(crossing(a, b, da, db) if da >= 0 else crossing(b, a, db, da))
        face = kept
    return face


def crossing(a, b, da, db):
    part = da / (da - db)
    return [x + (y - x) * part for x, y in zip(a, b)]


def halfway(a, b):
    return [(x + y) / 2 for x, y in zip(a, b)]


def finite(face):
    return all(math.isfinite(sum(corner)) for corner in face)


def beyond_a_side(face):
    """Whether a polygon in front of the eye lies wholly to one side of the viewport."""
    return (all(v[0] > v[3] for v in face) or all(v[0] < -v[3] for v in face)
            or all(v[1] > v[3] for v in face) or all(v[1] < -v[3] for v in face))


class Finer:
    """Cuts edges in halves until what is linear in the window is near enough to perspective. The
    choice goes by an edge alone, so neighbours cut the one they share alike."""

    def __init__(self, viewport, level, replaces):
        self.half_width, self.half_height = viewport[2] / 2, viewport[3] / 2
        self.colored = not replaces
        self.use(level)

    def use(self, level):
        """Takes texture coordinates as those of this image, in texels of the program's."""
        self.texels = (level.width / level.times, level.height / level.times) if level else None

    def far(self, a, b):
        """Whether the middle of an edge shows something else than half way between its ends."""
        wa, wb = a[3], b[3]
        off = abs(wa - wb) / (2 * (wa + wb))
        if off < LEAST_SPREAD:
            return False
        across = (a[0] / wa - b[0] / wb) * self.half_width
        up = (a[1] / wa - b[1] / wb) * self.half_height
        if off * math.hypot(across, up) < 0.5:
            return False
        if self.texels:
            width, height = self.texels
            if off * max(abs(a[8] - b[8]) * width, abs(a[9] - b[9]) * height) > 0.0625:
                return True
        return self.colored and off * max(abs(a[4] - b[4]), abs(a[5] - b[5]), abs(a[6] - b[6]),
                                          abs(a[7] - b[7])) > 6

    def triangles(self, a, b, c, depth=FINEST):
        """The triangles that one is cut into, those outside the viewport left out."""
        far = (self.far(a, b), self.far(b, c), self.far(c, a)) if depth else (False,)
        if True not in far:
            yield a, b, c
            return
        if beyond_a_side((a, b, c)):
            return
        while not far[0]:       # the first edge is one that is cut
            a, b, c, far = b, c, a, far[1:] + far[:1]
        for part in halves(a, b, c, far):
            yield from self.triangles(*part, depth - 1)


def halves(a, b, c, far):
    """The parts of a triangle whose first edge is cut, and others where they are."""
    d = halfway(a, b)
    if far[1] and far[2]:
        e, f = halfway(b, c), halfway(c, a)
        return (a, d, f), (d, b, e), (e, c, f), (d, e, f)
    if far[1]:
        e = halfway(b, c)
        return (a, d, e), (d, b, e), (a, e, c)
    if far[2]:
        f = halfway(c, a)
        return (a, d, f), (d, b, c), (d, c, f)
    return (a, d, c), (d, b, c)


def moved_in_depth(face, viewport, factor, units):
    """A polygon moved in depth, as glPolygonOffset asks."""
    if len(face) < 3:
        return face
    half_width, half_height = viewport[2] / 2, viewport[3] / 2
    (ax, ay, az), (bx, by, bz), (cx, cy, cz) = (
        (v[0] / v[3] * half_width, v[1] / v[3] * half_height, v[2] / v[3] / 2) for v in face[:3])
    area = (bx - ax) * (cy - ay) - (by - ay) * (cx - ax)
    across = abs((bz - az) * (cy - ay) - (by - ay) * (cz - az))
    up = abs((bx - ax) * (cz - az) - (bz - az) * (cx - ax))
    slope = max(across, up) / abs(area) if area else 0.0
    z = max(-MOST_MOVED, min(MOST_MOVED, 2 * (factor * slope + units / 16777216)))
    return [corner[:2] + [corner[2] + z * corner[3]] + corner[3:] for corner in face]


class Parts:
    """A texture whose sides are longer than a scene's may be, cut into parts."""

    def __init__(self, image, side, clamps):
        self.image, self.side, self.clamps = image, side, clamps
        self.sizes = (image.width, image.height)
        self.counts = [-(-size // side) for size in self.sizes]

    def reached(self, face, i):
        """The numbers of the parts that a polygon reaches in s (0) or t (1)."""
        size, count = self.sizes[i], self.counts[i]
        low, high = (choose(corner[8 + i] for corner in face) for choose in (min, max))
        first, last = (math.floor(x) * count + math.floor((x - math.floor(x)) * size / self.side)
                       for x in (low, max(low, high - 1e-9)))
        if self.clamps[i]:
            return range(max(0, min(count - 1, first)), min(count - 1, max(0, last)) + 1)
        return range(first, last + 1)

    def cell(self, i, number):
        """Where a part begins, how long it is, and the planes that cut it out."""
        turn, index = divmod(number, self.counts[i])
        size, at = self.sizes[i], 8 + i
        start = turn + index * self.side / size
        length = min(self.side, size - index * self.side) / size
        planes = []
        if not (self.clamps[i] and index == 0):
            planes.append(lambda v: v[at] - start)
        if not (self.clamps[i] and index == self.counts[i] - 1):
            planes.append(lambda v: start + length - v[at])
        return start, length, planes

    def pieces(self, face):
        """Image and polygon of each part of a polygon, with coordinates of that image."""
        rows = self.reached(face, 1) if face else ()
        for column in self.reached(face, 0) if face else ():
            left, width, planes = self.cell(0, column)
            strip = cut(face, planes)
            for row in rows if len(strip) > 2 else ():
                low, height, planes = self.cell(1, row)
                piece = cut(strip, planes)
                if len(piece) > 2:
                    image = self.image.part(column % self.counts[0], row % self.counts[1],
                                            self.side)
                    yield image, [v[:8] + [(v[8] - left) / width, (v[9] - low) / height] + v[10:]
                                  for v in piece]
