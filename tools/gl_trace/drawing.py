"""A primitive under a setting, from corners to blocks.

Where nothing is to be cut a strip or a fan stays one block; else its polygons are taken one by
one. Which vertices a polygon has, and which gives its colour where it is flat, is as Mesa has it.
"""
import itertools
import math

from .baking import Baked, pixels_in, size_in_middle
from .blocks import block_of
from .clipping import (LEAST_SPREAD, Finer, Parts, beyond_a_side, cut, finite,
                       moved_in_depth)
from .filters import FACTORS, MOST_TEXELS, Filtered, contrast
from .items import FAN, STRIP, TRIANGLES
from .limits import MOST_VERTICES
from .setting import GUARD, TINY
from .shading import shaded
from .strokes import Strokes, is_front

BLOCK = 240         # vertices of a block of single triangles: small blocks have small boxes
MOST_PARTS = 256    # of a texture, that a primitive reaches
DENSE = 0.5         # texels in a pixel, along a side, from which on small steps of places show
MOST_BAKED = 512    # polygons of a primitive that are laid on pixel by pixel
FILLED = ("GL_FILL", "GL_FILL")     # front and back
STROKES = ("GL_POINTS", "GL_LINES", "GL_LINE_STRIP", "GL_LINE_LOOP")
POLYGONS = ("GL_TRIANGLES", "GL_TRIANGLE_STRIP", "GL_TRIANGLE_FAN", "GL_QUADS", "GL_QUAD_STRIP",
            "GL_POLYGON")


def polygons(mode, n):
    """The polygons of n vertices, each with the vertex whose colour it has when it is flat. Quads
    are cut from their second corner to their last."""
    if mode == "GL_TRIANGLES":
        return [((i, i + 1, i + 2), i + 2) for i in range(0, n - 2, 3)]
    if mode == "GL_TRIANGLE_STRIP":
        return [((i + i % 2, i + 1 - i % 2, i + 2), i + 2) for i in range(n - 2)]
    if mode == "GL_TRIANGLE_FAN":
        return [((0, i, i + 1), i + 1) for i in range(1, n - 1)]
    if mode == "GL_QUADS":
        return [((i + 1, i + 2, i + 3, i), i + 3) for i in range(0, n - 3, 4)]
    if mode == "GL_QUAD_STRIP":
        return [((i, i + 1, i + 3, i + 2), i + 3) for i in range(0, n - 3, 2)]
    return [(tuple(range(n)), 0)] if n > 2 else []


def draw(machine, setting, run):
    """Adds the items of a run to the machine's."""
    if run.mode in STROKES:
        Strokes(machine, setting, run).draw()
    elif run.mode in POLYGONS:
        Drawing(machine, setting, run).draw()
    else:
        machine.notes.left_out(f"glBegin({run.mode})")


class Drawing:
    """The polygons of a primitive."""

    def __init__(self, machine, setting, run):
        self.machine, self.setting, self.mode = machine, setting, run.mode
        self.run, self.corners, self.level, self.parts = run, None, None, None
        self.single, self.single_level = ([], [], []), None
        self.clipped = None     # for each corner whether it has to be, where one has
        self.baked = self.laying = None
        self.linear = False     # whether the texture is laid on by a linear filter

    def draw(self):
        setting = self.setting
        if setting.values["GL_CULL_FACE"] and setting.values["cull_face"] == "GL_FRONT_AND_BACK":
            return
        faces = polygons(self.mode, len(self.run.points))
        if not faces:
            return
        self.corners = shaded(setting, self.run, False)
        self.clipped = self.outside()
        groups = self.by_image(faces) if setting.texture else [faces]
        for group in groups:
            self.draw_faces(group, len(groups) == 1)

    def draw_faces(self, faces, are_all):
        """Draws polygons that have one image."""
        setting = self.setting
        if setting.texture:
            self.choose_level(faces)
        if setting.values["polygon_mode"] != FILLED:
            faces = self.outlines(faces)
            if not faces:
                return
        outside = self.clipped
        finer = None if outside is not None and all(outside) else self.finer(outside, faces)
        flat = setting.flat and any(c != self.corners.fronts[0] for c in self.corners.fronts)
        every = are_all and setting.values["polygon_mode"] == FILLED
        if every and not (outside or finer or flat or self.parts or self.baked or setting.two_sided
                          or setting.offset) and self.whole_block(faces):
            return
        if finer and setting.texture and not self.baked \
                and contrast(self.level) > FACTORS[0][0] and not self.bakes(self.level, faces, self.linear):
            self.machine.concern("approximated", "perspective of a texture by pieces that are "
                                 "linear in the window")
        for fan, provoking in faces:
            self.face(fan, provoking if flat else None, outside, finer)
        self.flush()

    def outlines(self, faces):
        """Draws the outlines of polygons on whose side they are asked for, and gives those that
        are to be filled. The order among both is that of OpenGL where one kind is asked for."""
        setting, filled, drawn = self.setting, [], set()
        level = self.level
        if self.parts:      # of which a line takes none
            level = level.level(0, self.machine.options.texture_side)
        strokes = Strokes(self.machine, setting, self.run, self.corners, level)
        for fan, provoking in faces:
            front = is_front(setting, [self.corners.places[i] for i in fan])
            mode = setting.values["polygon_mode"][0 if front else 1]
            if setting.culls(front):
                continue
            if mode == "GL_FILL":
                filled.append((fan, provoking))
            else:
                strokes.outline(fan, provoking, front, mode == "GL_LINE", drawn)
        return filled

    # -- which way --

    def outside(self):
        """For each corner whether it has to be clipped; None where none has."""
        planes = self.corners.distances
        flags = [not (w > TINY and -w <= z <= w and -GUARD * w <= x <= GUARD * w
                      and -GUARD * w <= y <= GUARD * w) for x, y, z, w in self.corners.places]
        if planes:
            flags = [flag or min(d) < 0 for flag, d in zip(flags, planes)]
        return flags if True in flags else None

    def finer(self, outside, faces):
        """What cuts edges for perspective, or None where bounds over the corners of these faces, or
        their edges one by one, show that none is to be cut."""
        corners, setting = self.corners, self.setting
        made = Finer(setting.viewport, self.level, setting.replaces)
        if outside is not None:
            return made
        used = {i for fan, _ in faces for i in fan}
        places, fronts = [corners.places[i] for i in used], [corners.fronts[i] for i in used]
        backs = [corners.backs[i] for i in used] if corners.backs else ()
        ws = [place[3] for place in places]
        least, most = min(ws), max(ws)
        spread = (most - least) / (2 * (most + least))
        if spread < LEAST_SPREAD:
            return None
        if not self.level or not self.varies([corners.coordinates[i] for i in used], self.level,
                                             spread):
            if setting.replaces or not any(spread * (max(c) - min(c)) > 6
                                           for c in zip(*fronts, *backs)):
                return None
        across = [v[0] / v[3] for v in places]
        up = [v[1] / v[3] for v in places]
        if spread * math.hypot((max(across) - min(across)) * made.half_width,
                               (max(up) - min(up)) * made.half_height) < 1:
            return None
        every = {i: corners.corner(i) for i in used}
        for fan, _ in faces:
            if any(made.far(every[i], every[j]) for i, j in zip(fan, fan[1:] + fan[:1])):
                return made
        return None

    def varies(self, coordinates, level, spread):
        """Whether an edge of these texture coordinates may be off by over a sixteenth texel."""
        return any(spread * (max(c) - min(c)) * side > 0.0625
                   for c, side in zip(zip(*coordinates), (level.width / level.times,
                                                          level.height / level.times)))

    def by_image(self, faces):
        """The polygons in their order, parted where another image of a mipmap is seen. They stay
        together where that doesn't show, or where they are laid on pixel by pixel."""
        setting, image = self.setting, self.setting.texture["image"]
        if len(faces) == 1 or not setting.mipmapped() or contrast(image) <= FACTORS[0][0]:
            return [faces]
        if not self.machine.options.nearest \
                and self.bakes(image, faces, setting.is_linear(True), setting.mipmap()):
            self.baked = None
            return [faces]
        numbers = [self.number([face], image) for face in faces]
        return [[face for face, _ in group] for _, group in
                itertools.groupby(zip(faces, numbers), lambda pair: pair[1])]

    def number(self, faces, image):
        """Of the image of a mipmap that is seen."""
        return max(0, int(math.log2(self.texels_in_a_pixel(faces, image)) + 0.5))

    def choose_level(self, faces):
        """The image that the size of polygons in pixels asks for, whole or in parts."""
        setting, options = self.setting, self.machine.options
        image, side = setting.texture["image"], options.texture_side
        self.baked = self.parts = None
        size = self.texels_in_a_pixel(faces, image)
        mipmap = setting.mipmap()
        if mipmap and size * 2 ** mipmap.bias > 1 and contrast(image) > FACTORS[0][0] \
                and not options.nearest \
                and self.bakes(image, faces, setting.is_linear(True), mipmap):
            return
        number = max(0, int(math.log2(size) + 0.5)) if setting.mipmapped() else 0
        if setting.mipmapped() and size > 1 and contrast(image) > FACTORS[0][0]:
            self.machine.concern("approximated", "a mipmap by one of its images for a primitive")
        level = image.level(number, 0)
        self.linear = setting.is_linear(size > 1)
        if self.linear and self.filtered(level, faces):
            return
        if not self.linear and size > DENSE and contrast(level) > FACTORS[0][0]:
            if not options.nearest and self.bakes(level, faces, False):
                return
            self.machine.concern("approximated", "a texture of about as many texels as pixels by "
                                 "places in sixteenths of a pixel")
        if options.cut_textures and max(level.width, level.height) > side:
            reach = [max(c) - min(c) + 1 for c in zip(*self.corners.coordinates)]
            count = math.ceil(reach[0] * level.width / side) \
                * math.ceil(reach[1] * level.height / side)
            if count <= MOST_PARTS:
                self.level, self.parts = level, Parts(level, side, setting.clamps())
                return
        self.level = image.level(number, side)
        if self.level.width * self.level.height < level.width * level.height \
                and contrast(level) > FACTORS[0][0]:
            self.machine.concern("approximated", f"a texture above {side} texels a side by a "
                                 "smaller image")

    def filtered(self, level, faces):
        """Whether the image is laid on as a linear filter has it, which is told where it isn't."""
        setting, machine, options = self.setting, self.machine, self.machine.options
        found = Filtered(level, options.texture_side, setting.clamps(), options.cut_textures)
        level.made = machine.filtered
        if not options.nearest:
            found.choose([[self.corners.coordinates[i] for i in fan] for fan, _ in faces])
        if found.times < found.due and not options.nearest and self.bakes(level, faces, True):
            return True
        if found.times < found.due:
            machine.concern("approximated", "a linear filter by " + (
                "the nearest texel" if found.times == 1 else f"steps of 1/{found.times} texel"))
        self.level, self.parts = found.level or level, found.parts
        return found.times > 1

    def bakes(self, level, faces, linear, mipmap=None):
        """Whether the primitive's polygons are laid on pixel by pixel from now on."""
        setting, options = self.setting, self.machine.options
        if len(faces) > MOST_BAKED or self.parts and level is not self.parts.image \
                or level.times > 1 or setting.values["polygon_mode"] != FILLED:
            return False
        level.made = self.machine.filtered
        corners = [[self.corners.places[i] for i in fan] for fan, _ in faces]
        if level.made[0] + pixels_in(corners, setting.viewport) > MOST_TEXELS:
            return False
        self.baked = Baked(level, setting.viewport, options.texture_side, setting.clamps(), linear,
                           mipmap)
        self.level = self.parts = None
        return True

    def texels_in_a_pixel(self, faces, image):
        """Along a side: of one polygon in its middle, else by the areas of at most some 32; 1 where
        these are none."""
        corners, (_, _, width, height) = self.corners, self.setting.viewport
        if len(faces) == 1:
            face = [corners.corner(i) for i in faces[0][0]]
            size = size_in_middle(face, width, height, image)
            if size is not None:
                return size
        pixels = texels = 0.0
        for fan, _ in faces[::-(-len(faces) // 32) or 1]:
            a, b, c = (corners.places[i] for i in fan[:3])
            if min(a[3], b[3], c[3]) > 0:
                pixels += area(*((v[0] / v[3] * width / 2, v[1] / v[3] * height / 2)
                                 for v in (a, b, c)))
                texels += area(*(corners.coordinates[i] for i in fan[:3])) \
                    * image.width * image.height
        if not (0 < pixels < math.inf and 0 < texels < math.inf):
            return 1.0
        return math.sqrt(texels / pixels)

    # -- blocks --

    def whole_block(self, faces):
        """Draws the primitive as blocks of many vertices, where its kind and number allow it."""
        corners, count = self.corners, len(self.corners.places)
        if self.mode == "GL_TRIANGLES":
            for at in range(0, 3 * len(faces), BLOCK):
                self.columns(TRIANGLES, range(at, min(at + BLOCK, 3 * len(faces))))
            return True
        if self.mode == "GL_QUADS" or count > MOST_VERTICES:
            return False
        if self.mode == "GL_QUAD_STRIP":
            # Mesa cuts each pair from the first vertex to the fourth, so pairs are exchanged and
            # the strip is turned.
            self.columns(STRIP, [i ^ 1 for i in range(count // 2 * 2)], turned=True)
        else:
            self.block(STRIP if self.mode == "GL_TRIANGLE_STRIP" else FAN, corners.places,
                       corners.fronts, corners.coordinates, self.level)
        return True

    def columns(self, mode, indices, turned=False):
        corners = self.corners
        self.block(mode, [corners.places[i] for i in indices], [corners.fronts[i] for i in indices],
                   corners.coordinates and [corners.coordinates[i] for i in indices], self.level,
                   turned)

    def block(self, mode, places, colors, coordinates, level, turned=False):
        if self.laying:
            coordinates = self.baked.coordinates(places)
        state = self.setting.state(level, self.parts is not None or self.baked is not None,
                                   turned=turned)
        self.machine.add(block_of(state, mode, places, colors, coordinates, True), mode, places)
        if self.setting.veil:
            veils = self.setting.fog.veils(v[3] for v in places)
            self.machine.add(block_of(self.setting.veil_state(state), mode, places, veils, None,
                                      True), mode, places)

    def flush(self):
        places, colors, coordinates = self.single
        if places:
            self.block(TRIANGLES, places, colors, coordinates, self.single_level)
            self.single = ([], [], [])

    # -- polygons one by one --

    def face(self, fan, provoking, outside, finer):
        """One polygon, cut as it has to be."""
        corners, setting = self.corners, self.setting
        is_back = corners.backs is not None \
            and not is_front(setting, [corners.places[i] for i in fan])
        clipped = outside is not None and any(outside[i] for i in fan)
        if clipped or finer or self.parts or self.baked or setting.offset:
            face = [corners.corner(i, is_back) for i in fan]
            if provoking is not None:
                shade = (corners.backs if is_back else corners.fronts)[provoking]
                face = [corner[:4] + [*shade] + corner[8:] for corner in face]
            self.cut_face(face, clipped, finer)
            return
        colors = corners.backs if is_back else corners.fronts
        shades = [colors[provoking]] * len(fan) if provoking is not None \
            else [colors[i] for i in fan]
        places = [corners.places[i] for i in fan]
        coordinates = corners.coordinates and [corners.coordinates[i] for i in fan]
        if len(fan) == 3:
            self.triangle(places, shades, coordinates, self.level)
        else:
            self.fan(places, shades, coordinates, self.level)

    def cut_face(self, face, clipped, finer):
        if not finite(face):
            self.machine.notes.left_out("a polygon with a corner that isn't finite")
            return
        if clipped:
            face = cut(face, self.setting.clips)
        if len(face) < 3 or beyond_a_side(face):
            return
        if self.setting.offset:
            face = moved_in_depth(face, self.setting.viewport, *self.setting.offset)
        if self.baked:
            for level, piece in self.baked.pieces(face):
                self.flush()
                self.laying = level
                self.finer_face(piece, finer, level)
                self.flush()
            self.laying = None
            return
        if self.parts is None:
            self.finer_face(face, finer, self.level)
            return
        for level, piece in self.parts.pieces(face):
            self.finer_face(piece, finer, level)

    def finer_face(self, face, finer, level):
        """A polygon as one fan, or as triangles where an edge is to be cut."""
        if finer:
            finer.use(None if self.laying else level)
        far = finer and any(finer.far(a, b) for a, b in zip(face, face[1:] + face[:1]))
        if not far and 3 < len(face) <= MOST_VERTICES:
            self.fan(*split(face), level)
            return
        for b, c in zip(face[1:], face[2:]):
            parts = finer.triangles(face[0], b, c) if finer else ((face[0], b, c),)
            for part in parts:
                self.triangle(*split(part), level)

    def fan(self, places, colors, coordinates, level):
        self.flush()
        if len(places) <= MOST_VERTICES:
            self.block(FAN, places, colors, coordinates, level)
            return
        for i in range(1, len(places) - 1):
            corners = (0, i, i + 1)
            self.triangle([places[j] for j in corners], [colors[j] for j in corners],
                          coordinates and [coordinates[j] for j in corners], level)

    def triangle(self, places, colors, coordinates, level):
        if level is not self.single_level:
            self.flush()
            self.single_level = level
        single = self.single
        single[0].extend(places)
        single[1].extend(colors)
        single[2].extend(coordinates or ())
        if len(single[0]) >= BLOCK:
            self.flush()


def area(a, b, c):
    """Of a triangle, twice."""
    return abs((b[0] - a[0]) * (c[1] - a[1]) - (b[1] - a[1]) * (c[0] - a[0]))


def split(face):
    """Corners by columns."""
    return [v[:4] for v in face], [tuple(v[4:8]) for v in face], [v[8:10] for v in face]
