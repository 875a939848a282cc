"""How much of its pixels a smooth line covers, and its pieces with images that have that."""
import math

from .images import Image

LONGEST = 24.0      # of a piece of a line that has one image, in pixels


class SmoothLine:
    """A line that fades over a pixel at each side and at each end, by its corners in order and
    their places in the window."""

    def __init__(self, line, places, width, fades):
        self.line, self.start, self.end = line, places[0], places[-1]
        across, up = self.end[0] - self.start[0], self.end[1] - self.start[1]
        self.length = math.hypot(across, up)
        if not self.length:
            return
        self.across, self.up = across / self.length, up / self.length
        self.along = [((x - self.start[0]) * self.across + (y - self.start[1]) * self.up)
                      / self.length for x, y, _ in places]
        self.along[0], self.along[-1] = 0.0, 1.0
        self.cover = Coverage(self.length, width, line[0][3], line[-1][3], fades)
        self.has_one_color = all(corner[4:8] == line[0][4:8] for corner in line)

    def place(self, u, side):
        """In the window, with depth, at a share of the length and so many pixels to the side."""
        far = u * (self.length + 1) - 0.5
        return (self.start[0] + far * self.across - side * self.up,
                self.start[1] + far * self.up + side * self.across,
                self.start[2] + u * (self.end[2] - self.start[2]))

    def color_at(self, u):
        """Colour and coordinates at a share of the length, by the corners there."""
        line, along = self.line, self.along
        k = next((i for i in range(1, len(line)) if u <= along[i]), len(line) - 1)
        a, b, span = line[k - 1], line[k], along[k] - along[k - 1]
        share = (u - along[k - 1]) / span if span > 0 else 1.0
        share = share * a[3] / ((1 - share) * b[3] + share * a[3])
        return [x + (y - x) * share for x, y in zip(a[4:10], b[4:10])]

    def strip(self):
        """Corners x, y, depth, and colour with coordinates, between which it fades linearly."""
        rows = []
        for u in sorted({*self.along, *self.cover.stations}):
            corner = self.color_at(u)
            rows.append([(*self.place(u, side), [*corner[:3], corner[3] * covered, *corner[4:]])
                         for side, covered in self.cover.sides(u)])
        corners = []
        for low, high in zip(zip(*rows), list(zip(*rows))[1:]):
            strip = [corner for both in zip(low, high) for corner in both]
            # A strip goes on in the next one by triangles without an area.
            corners += [corners[-1], strip[0], *strip] if corners else strip
        return corners

    def texels(self):
        """About how many texels its images have."""
        count = math.ceil((self.length + 1) / LONGEST)
        wide, tall = (abs(x) * (self.length + 1) / count + 2 * self.cover.half + 2
                      for x in (self.across, self.up))
        return count * wide * tall

    def pieces(self, width, height):
        """Pieces in a viewport, each an image that has the colours of its pixels as far as they
        are covered, and four corners x, y, depth, s, t around it."""
        half, count = self.cover.half, math.ceil((self.length + 1) / LONGEST)
        for i in range(count):
            corners = [self.place(part / count, side) for part, side in
                       ((i, -half), (i + 1, -half), (i + 1, half), (i, half))]
            across, up, _ = zip(*corners)
            left, low = max(0, math.floor(min(across)) - 1), max(0, math.floor(min(up)) - 1)
            right = min(width, math.ceil(max(across)) + 1)
            high = min(height, math.ceil(max(up)) + 1)
            if left < right and low < high:
                rows = [self.row(y + 0.5, left, right) for y in range(low, high)]
                wide, tall = right - left, high - low
                yield (Image(wide, tall, b"".join(rows), "RGBA"),
                       [(x, y, z, (x - left) / wide, (y - low) / tall) for x, y, z in corners])

    def row(self, y, left, right):
        """The texels of a row of pixels."""
        out, up = bytearray(4 * (right - left)), y - self.start[1]
        for x in range(left, right):
            across = x + 0.5 - self.start[0]
            side = up * self.across - across * self.up
            if abs(side) < self.cover.half:
                u = (across * self.across + up * self.up + 0.5) / (self.length + 1)
                covered = self.cover.at(u, side)
                if covered:
                    r, g, b, a = self.line[0][4:8] if self.has_one_color else self.color_at(u)[:4]
                    at = 4 * (x - left)
                    out[at:at + 4] = (int(r + 0.5), int(g + 0.5), int(b + 0.5),
                                      int(a * covered + 0.5))
        return bytes(out)


class Coverage:
    """How much of a pixel a smooth line covers, as Mesa has it: a quad that is half a pixel longer
    at each end and wider at each side, in which the distances to its sides and ends are followed
    in perspective, by two triangles with the quad's diagonal between them. Along the line places
    are shares u of its length, `near` and `far` are 1 / w at its ends."""

    def __init__(self, length, width, first, last, fades):
        self.half, self.fades = max(1.0, (width + 1) / 2), fades
        self.near, self.far = q, r = 1 / first, 1 / last
        self.reach = length / 2 + 0.5 if length >= 1 else length
        self.stations = []
        if not fades:
            return
        if self.reach <= 1:
            self.stations = [q / (q + r)]
        else:
            self.stations = [q / (2 * r * self.reach - r + q),
                             1 - r / (2 * q * self.reach - q + r)]
        if abs(q - r) > 0.02 * (q + r):     # where the borders of the fading go over the diagonal
            self.stations += [q * (2 * self.half - 1) / (r - q + 2 * self.half * q),
                              q / (2 * self.half * r - r + q)]

    def sides(self, u):
        """Pixels to the side, and how much is covered there."""
        half = self.half
        if not self.fades:
            return (-half, 1.0), (half, 1.0)
        q, r = self.near, self.far
        mean = (1 - u) * q + u * r
        along = max(0.0, min(1.0, self.reach * (1 - abs(u * r - (1 - u) * q) / mean)))
        borders = []
        for x in sorted({1 / half - 1, 1 - 1 / half}):
            side = mean / q * (x + 1) - 1
            borders.append(side if side <= 1 - 2 * u else 1 - mean / r * (1 - x))
        return (-half, 0.0), *((half * max(-1.0, min(1.0, x)), along) for x in borders), (half, 0.0)

    def at(self, u, side):
        """How much is covered at a share of the length and so many pixels to the side."""
        side /= self.half
        if not (0 <= u <= 1 and -1 < side < 1):
            return 0.0
        q, r = self.near, self.far
        mean = (1 - u) * q + u * r
        x = q / mean * (side + 1) - 1 if side <= 1 - 2 * u else 1 - r / mean * (1 - side)
        along = max(0.0, min(1.0, self.reach * (1 - abs(u * r - (1 - u) * q) / mean)))
        return along * max(0.0, min(1.0, self.half * (1 - abs(x))))
