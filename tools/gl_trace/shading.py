"""From vertices to corners: placed in clip coordinates, lit, in fog, with texture coordinates.

A `Run` is what stands between a glBegin and its glEnd, `Corners` what is drawn of it, both column
by column. Where a polygon is cut its corners become lists: x, y, z, w; r, g, b, a from 0 to 255;
s, t; distances to clip planes.
"""
import math

from .matrices import dot, transform, transform_all, unit

LARGEST = 1e6   # that a texture coordinate is held to


class Run:
    """Vertices of a primitive. In the columns of current values None is what is current where the
    run is drawn, and comes first alone. Materials: from which vertex on, front, back."""

    __slots__ = ("mode", "points", "normals", "colors", "coordinates", "materials", "of_arrays")

    def __init__(self, mode):
        self.mode, self.of_arrays = mode, False
        self.points, self.normals, self.colors, self.coordinates = [], [], [], []
        self.materials = []


class Corners:
    """Corners by columns; backs, coordinates and distances may be None."""

    __slots__ = ("places", "fronts", "backs", "coordinates", "distances")

    def corner(self, i, back=False):
        s_and_t = self.coordinates[i] if self.coordinates else (0.0, 0.0)
        colors = self.backs if back else self.fronts
        distances = self.distances[i] if self.distances else ()
        return [*self.places[i], *colors[i], *s_and_t, *distances]


def shaded(setting, run, unfilled):
    """The corners of a run. Strokes have no back."""
    corners = Corners()
    points, lighting = run.points, setting.lighting
    corners.places = transform_all(setting.whole, points)
    eyes = transform_all(setting.modelview, points) if setting.needs_eyes else None
    fronts, backs = run.colors, None
    if lighting:
        sides = materials_of(run, setting)
        fronts = lighting.colors(eyes, run.normals, run.colors, sides[0], 1.0)
        if setting.two_sided and not unfilled:
            backs = lighting.colors(eyes, run.normals, run.colors, sides[1], -1.0)
    if setting.fog and (unfilled or not setting.veil):
        fronts = setting.fog.laid_over(fronts, eyes)
        backs = backs and setting.fog.laid_over(backs, eyes)
    corners.fronts = as_channels(fronts, setting.keeps)
    corners.backs = backs and as_channels(backs, setting.keeps)
    if setting.constant is not None:
        alpha = (255 * setting.constant,)
        corners.fronts, corners.backs = (side and [color[:3] + alpha for color in side]
                                         for side in (corners.fronts, corners.backs))
    corners.coordinates = coordinates_of(setting, run, eyes) if setting.texture else None
    corners.distances = None
    if setting.planes:
        corners.distances = [[sum(a * b for a, b in zip(plane, eye)) for plane in setting.planes]
                             for eye in eyes]
    return corners


def materials_of(run, setting):
    """Front and back material of each vertex."""
    count = len(run.points)
    if not run.materials:
        return [setting.front] * count, [setting.back] * count
    fronts, backs = [], []
    ends = [first for first, _, _ in run.materials[1:]] + [count]
    for (first, front, back), end in zip(run.materials, ends):
        fronts += [front] * (end - first)
        backs += [back] * (end - first)
    return fronts, backs


def as_channels(colors, keeps):
    """Channels from 0 to 255; white in those that a texture without the others replaces."""
    found, known = [], {}
    for color in colors:
        channels = known.get(color)
        if channels is None:
            r, g, b, a = color
            channels = (min(255.0, max(0.0, 255 * r)), min(255.0, max(0.0, 255 * g)),
                        min(255.0, max(0.0, 255 * b)), min(255.0, max(0.0, 255 * a)))
            if keeps == "alpha":
                channels = (255.0, 255.0, 255.0, channels[3])
            elif keeps == "color":
                channels = (*channels[:3], 255.0)
            known[color] = channels
        found.append(channels)
    return found


def coordinates_of(setting, run, eyes):
    """Texture coordinates s and t, made and by the texture matrix where the state says so."""
    found, matrix = [], setting.texture_matrix
    for i, coordinate in enumerate(run.coordinates):
        if setting.generated:
            coordinate = generated(setting, run, i, eyes, coordinate)
        if matrix:
            coordinate = transform(matrix, *coordinate)
        s, t, _, q = coordinate
        if q != 1.0 and q:
            s, t = s / q, t / q
        if not (-LARGEST < s < LARGEST and -LARGEST < t < LARGEST):
            s, t = (max(-LARGEST, min(LARGEST, x)) if x == x else 0.0 for x in (s, t))
        found.append((s, t))
    return found


def generated(setting, run, i, eyes, coordinate):
    """A vertex' texture coordinates as glTexGen asks for them."""
    found = list(coordinate)
    for number, made in setting.generated:
        plane = tuple(float(number == k) for k in range(4))
        mode = made.mode if made else "GL_EYE_LINEAR"
        if mode == "GL_SPHERE_MAP":
            found[number] = mirrored(setting, run.normals[i], eyes[i])[number]
        elif mode == "GL_OBJECT_LINEAR":
            plane = made.object_plane or plane
            found[number] = sum(a * b for a, b in zip(plane, run.points[i]))
        elif mode == "GL_EYE_LINEAR":
            plane = made and made.eye_plane or plane
            found[number] = sum(a * b for a, b in zip(plane, eyes[i]))
    return tuple(found)


def mirrored(setting, normal, eye):
    """Where a sphere map is seen in a vertex: by the view that its normal mirrors, which has the
    length of one only where GL_NORMALIZE gives it that."""
    n = tuple(dot(row, normal) for row in setting.normals)
    if setting.values["GL_NORMALIZE"]:
        n = unit(n)
    u = unit(eye[:3])
    d = 2 * dot(n, u)
    x, y, z = (a - d * b for a, b in zip(u, n))
    m = 2 * math.sqrt(x * x + y * y + (z + 1) ** 2) or 1.0
    return x / m + 0.5, y / m + 0.5, 0.0, 1.0
