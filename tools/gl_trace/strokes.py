"""Points and lines as quads in the window, and the outlines of polygons.

A line is widened across its lesser axis, as Mesa draws one without smoothing. A smooth one has
edges of a pixel in which it fades, as Mesa's stage for smooth lines gives it coverage: it has an
image of its pixels, or where there is no room a strip that fades. Of a smooth point the pixels are
drawn, each with its own.
"""
import math

from .blocks import block_of
from .clipping import cut, finite
from .diamonds import ends_of
from .filters import MOST_TEXELS
from .items import FAN, STRIP, TRIANGLES
from .matrices import transform
from .setting import FIRST_DISTANCE, GUARD, TINY
from .shading import Run, shaded
from .smooth import SmoothLine

WITHOUT_SIDES = (0, 1, 2)       # of a setting's planes: points are cut by these and its own
FIRST_OWN = 7
# The viewport's sides, at which a smooth line ends as it does in Mesa.
SIDES = [lambda v: v[3] - v[0], lambda v: v[3] + v[0], lambda v: v[3] - v[1],
         lambda v: v[3] + v[1]]
WHITE = (255.0, 255.0, 255.0, 255.0)
SPRITE = ((0.0, 1.0), (1.0, 1.0), (1.0, 0.0), (0.0, 0.0))   # a point that has a whole texture


class Strokes:
    """The points or lines of a primitive."""

    def __init__(self, machine, setting, run, corners=None, level=None):
        self.machine, self.setting, self.level = machine, setting, level
        self.mode, self.corners, self.run = run.mode, corners, run
        self.whole = []     # where lines begin of which there are pieces, and which are smooth
        if corners is None:
            if setting.fog and run.mode != "GL_POINTS":
                run = self.cut_for_fog(run)
                self.mode = run.mode
            self.corners = shaded(setting, run, True)
            if setting.texture:
                side = machine.options.texture_side
                self.level = setting.texture["image"].level(0, side)

    def draw(self):
        corners = self.corners
        if self.mode == "GL_POINTS":
            for i in range(len(corners.places)):
                self.point(corners.corner(i), self.size(i))
            return
        if self.whole:
            for first, last in zip(self.whole, self.whole[1:] + [len(corners.places)]):
                self.smooth_pieces([corners.corner(i) for i in range(first, last)])
            return
        for i, j in pairs(self.mode, len(corners.places)):
            a, b = corners.corner(i), corners.corner(j)
            self.line(a[:4] + b[4:8] + a[8:] if self.setting.flat else a, b)

    def outline(self, fan, provoking, front, as_lines, drawn):
        """The edges or corners of a polygon in the colours of the side that is seen, without those
        that were drawn with it."""
        corners, flat = self.corners, self.setting.flat
        back = corners.backs is not None and not front
        of = provoking if flat else back
        for i, j in zip(fan, fan[1:] + fan[:1]):
            key = (min(i, j), max(i, j), of) if as_lines else (i, of)
            if key in drawn:
                continue
            drawn.add(key)
            a, b = corners.corner(i, back), corners.corner(j, back)
            if flat:
                shade = [*(corners.backs if back else corners.fronts)[provoking]]
                a, b = a[:4] + shade + a[8:], b[:4] + shade + b[8:]
            if as_lines:
                self.line(a, b)
            else:
                self.point(a, self.size(i))

    def cut_for_fog(self, run):
        """The same lines in pieces along which fog is nearly linear."""
        setting, pieces = self.setting, Run("GL_LINES")
        depths = [transform(setting.modelview, *point)[2] for point in run.points]
        for i, j in pairs(run.mode, len(run.points)):
            places = [0.0, *setting.fog.cuts(depths[i], depths[j]), 1.0]
            if setting.values["GL_LINE_SMOOTH"]:
                self.whole.append(len(pieces.points))
            for ends in zip(places, places[1:]):
                for t in ends:
                    pieces.points.append(between(run.points[i], run.points[j], t))
                    pieces.normals.append(run.normals[i] if t < 1 else run.normals[j])
                    pieces.colors.append(run.colors[j] if setting.flat else
                                         between(run.colors[i], run.colors[j], t))
                    pieces.coordinates.append(between(run.coordinates[i], run.coordinates[j], t))
        return pieces

    # -- one stroke --

    def window(self, corner):
        _, _, width, height = self.setting.viewport
        return ((corner[0] / corner[3] + 1) * width / 2, (corner[1] / corner[3] + 1) * height / 2,
                corner[2] / corner[3])

    def size(self, i):
        """How large a point is, which may depend on how far away it is."""
        law, size = self.setting.values["point_law"], self.setting.values["point_size"]
        constant, linear, square = law.attenuation
        if (linear, square) != (0.0, 0.0) or constant != 1.0:
            far = abs(transform(self.setting.modelview, *self.run.points[i])[2])
            fading = constant + far * (linear + far * square)
            size = size / math.sqrt(fading) if fading > 0 else law.most
        return max(law.least, min(law.most, size))

    def point(self, corner, size):
        clips = self.setting.clips
        planes = [clips[i] for i in WITHOUT_SIDES] + clips[FIRST_OWN:]
        if not finite([corner]) or any(plane(corner) < 0 for plane in planes):
            return
        x, y, z = self.window(corner)
        if self.setting.values["GL_POINT_SMOOTH"]:
            self.smooth_point(x, y, z, corner, size)
            return
        if self.setting.values["GL_POINT_SPRITE"]:
            half = size / 2
            self.quad((x - half, y, z), (x + half, y, z), corner, corner, (0.0, half),
                      SPRITE if self.setting.values["sprites"] else None)
            return
        side = max(1, math.ceil(size - 0.5))
        x, y = (first_pixel(place, side) for place in (x, y))
        self.quad((x, y + side / 2, z), (x + side, y + side / 2, z), corner, corner,
                  (0.0, side / 2))

    def line(self, a, b):
        if self.setting.values["GL_LINE_SMOOTH"]:
            self.smooth_pieces([a, b])
            return
        if not (inside(a) and inside(b)):
            if not finite([a, b]):
                self.machine.notes.left_out("a line with an end that isn't finite")
                return
            ends = cut([a, b], self.setting.clips)
            if len(ends) < 2:
                return
            a, b = ends[:2]
        start, end = self.window(a), self.window(b)
        width = max(1, math.floor(self.setting.values["line_width"] + 0.5))
        found = ends_of(start[:2], end[:2], width)
        if not found:
            return
        (*ends, side), way = found, zip(a, b)
        way = [(x, y - x) for x, y in way]
        places = [(x / 16, y / 16, start[2] + t * (end[2] - start[2])) for (x, y), t in ends]
        corners = [[x + t * step for x, step in way] for _, t in ends]
        for corner in corners:
            corner[4:8] = (max(0.0, min(255.0, x)) for x in corner[4:8])
        self.quad(*places, *corners, (side[0] / 16, side[1] / 16))

    def quad(self, start, end, a, b, side, coordinates=None):
        """A quad from one end to the other, to both sides of the line between them."""
        _, _, width, height = self.setting.viewport
        across, up = 2 * side[0] / width, 2 * side[1] / height
        ax, ay, az = 2 * start[0] / width - 1, 2 * start[1] / height - 1, start[2]
        bx, by, bz = 2 * end[0] / width - 1, 2 * end[1] / height - 1, end[2]
        places = ((ax - across, ay - up, az, 1.0), (bx - across, by - up, bz, 1.0),
                  (bx + across, by + up, bz, 1.0), (ax + across, ay + up, az, 1.0))
        first, second = a[4:8], b[4:8]
        if first == second:
            second = first
        if self.level and not coordinates:
            coordinates = (a[8:10], b[8:10], b[8:10], a[8:10])
        state = self.setting.state(self.level, cull=False)
        self.machine.add(block_of(state, FAN, places, (first, second, second, first),
                                  coordinates), FAN, places)

    # -- smooth ones --

    def fades(self):
        """Whether coverage, which is in alpha, shows."""
        values = self.setting.values
        return values["GL_BLEND"] or values["GL_ALPHA_TEST"]

    def smooth_pieces(self, corners):
        """A line of which there are the ends of pieces one behind the other."""
        if not finite(corners):
            self.machine.notes.left_out("a line with an end that isn't finite")
            return
        clips = self.setting.clips
        planes = [clips[i] for i in WITHOUT_SIDES] + clips[FIRST_OWN:] + SIDES
        line = []
        for a, b in zip(corners[::2], corners[1::2]):
            ends = cut([a, b], planes)[:2]
            line += ends if not line else ends[1:]
        if len(line) > 1:
            self.smooth_line(line)

    def smooth_line(self, line):
        """Draws a line that fades, by images of its pixels where there is room for these."""
        places = [self.window(corner) for corner in line]
        if places[0] > places[-1]:  # so that a line drawn twice has the same depths both times
            places, line = places[::-1], line[::-1]
        made = SmoothLine(line, places, self.setting.values["line_width"], self.fades())
        if not made.length:
            return
        machine, (_, _, width, height) = self.machine, self.setting.viewport
        if self.fades():
            texels = made.texels()
            if not self.level and machine.filtered[0] + texels <= MOST_TEXELS:
                machine.filtered[0] += texels
                for image, corners in made.pieces(width, height):
                    self.imaged(image, corners)
                return
            machine.concern_once("approximated", "glEnable(GL_LINE_SMOOTH)")
        self.pieces(STRIP, made.strip())

    def imaged(self, image, corners):
        """A quad with an image of its pixels, which has its edges too."""
        _, _, width, height = self.setting.viewport
        places = [(2 * x / width - 1, 2 * y / height - 1, z, 1.0) for x, y, z, _, _ in corners]
        block = block_of(self.setting.state(image, parted=True, cull=False), FAN, places,
                         [WHITE] * 4, [corner[3:] for corner in corners])
        self.machine.add(block and block._replace(outline=0.0), FAN, places)

    def smooth_point(self, x, y, z, corner, size):
        """The pixels of a round point, each with the coverage that Mesa gives its middle, where
        several in a row have one as one rectangle."""
        radius = max(1.0, size / 2)
        least = (1 - 1 / radius) ** 2
        _, _, width, height = self.setting.viewport
        corners = []
        for row in range(max(0, math.ceil(y - radius - 0.5)),
                         min(height, math.floor(y + radius - 0.5) + 1)):
            runs = []
            for column in range(max(0, math.ceil(x - radius - 0.5)),
                                min(width, math.floor(x + radius - 0.5) + 1)):
                far = ((column + 0.5 - x) ** 2 + (row + 0.5 - y) ** 2) / radius ** 2
                covered = min(1.0, (1 - far) / (1 - least)) if self.fades() else 1.0
                if far > 1:
                    continue
                if runs and runs[-1][1:] == [column, covered]:
                    runs[-1][1] += 1
                else:
                    runs.append([column, column + 1, covered])
            for first, last, covered in runs:
                faded = [*corner[4:7], corner[7] * covered, *corner[8:10]]
                low, high = [[(side, up, z, faded) for side in (first, last)]
                             for up in (row, row + 1)]
                corners += (*low, high[1], low[0], *high[::-1])
        self.pieces(TRIANGLES, corners)

    def pieces(self, mode, corners):
        """A block of corners in the window: x, y, depth, and colours with coordinates."""
        if not corners:
            return
        _, _, width, height = self.setting.viewport
        places = [(2 * x / width - 1, 2 * y / height - 1, z, 1.0) for x, y, z, _ in corners]
        made = {id(corner): (tuple(corner[:4]), corner[4:6]) for _, _, _, corner in corners}
        colors = [made[id(corner)][0] for _, _, _, corner in corners]
        coordinates = [made[id(corner)][1] for _, _, _, corner in corners] if self.level else None
        self.machine.add(block_of(self.setting.state(self.level, cull=False), mode, places, colors,
                                  coordinates), mode, places)


def first_pixel(place, side):
    """The first of the whole pixels, so many, that a point covers which isn't smooth: it has a
    pixel in its middle, or the corner of four where the number is even. Mesa has places in 256ths.
    """
    place = round(256 * place) / 256
    return math.floor(place) - side // 2 if side % 2 else math.floor(place + 0.5) - side // 2


def inside(corner):
    """Whether a corner is one that no plane cuts off."""
    x, y, z, w = corner[:4]
    return w > TINY and -w <= z <= w and -GUARD * w <= x <= GUARD * w \
        and -GUARD * w <= y <= GUARD * w and len(corner) == FIRST_DISTANCE


def pairs(mode, n):
    """The ends of the lines of n vertices."""
    ends = [(i, i + 1) for i in range(0, n - 1, 2 if mode == "GL_LINES" else 1)]
    return ends + [(n - 1, 0)] if mode == "GL_LINE_LOOP" and n > 1 else ends


def between(a, b, t):
    return a if t == 0.0 else b if t == 1.0 else tuple(x + t * (y - x) for x, y in zip(a, b))


def is_front(setting, places):
    """Whether a polygon's front is seen, by its area in the window."""
    whole, (ax, ay, _, aw) = 0.0, places[0]
    for (bx, by, _, bw), (cx, cy, _, cw) in zip(places[1:], places[2:]):
        whole += ax * (by * cw - cy * bw) - ay * (bx * cw - cx * bw) + aw * (bx * cy - cx * by)
    return (whole > 0) == (setting.values["front_face"] == "GL_CCW")
