#!/usr/bin/env python3
"""Writes the examples that are computed: their texts, and the bytes of the one that has none.

    make.py sunset > sunset.txt
    make.py wheel > wheel.txt
    make.py orrery > orrery.txt
    make.py lanterns > lanterns.txt
    make.py courtyard > courtyard.txt
    make.py road > road.txt
    make.py road 1 > road-1.txt     the same in version 1, for the picture in docs/drawing.md
    make.py links > links.txt
    make.py forest > forest.rcs     the bytes, since no text has call lists; how many they are is told on standard error
    make.py forest 2 > forest-2.txt     what its lists mean, as a scene of version 2

A vertex's x and y go from -65536 at the left and bottom edge of the window to 65536 at the right and top edge: 16.16 fixed point.
"""
import math
import pathlib
import sys

sys.path.append(str(pathlib.Path(__file__).resolve().parent.parent / "tools"))
import scene_forms
import scene_lists

ONE = 65536


def fixed(x):
    return round(x * ONE)


def point(x, y, color):
    return [f"Color {color[0]} {color[1]} {color[2]} 255", f"Vertex {x} {y} 0 {ONE}"]


def block(mode, points):
    return [f"Begin {mode}"] + [line for p in points for line in point(*p)] + ["End"]


TRIANGLES, STRIP, FAN = 0, 1, 2


def bands(rows):
    """A strip over the whole width: a colour at each height."""
    return block(STRIP, [(x, y, color) for y, color in rows for x in (-ONE, ONE)])


def sunset():
    lines = [
        "# A sunset over the sea: strips for sky and water, a fan for the sun, triangles for mountains and a sail.",
        "# Made by make.py. As bytes: render_cli pack < sunset.txt > sunset.rcs",
        "# Colours are interpolated between the vertices of each triangle.",
        "scene 1 640 400",
        "client",
        "ClearColor 10 12 30 255",
        "Clear 3",
        "# the sky: a strip of bands, dark blue at the top",
    ]
    lines += bands(
        [
            (fixed(1), (24, 28, 84)),
            (fixed(0.65), (70, 48, 120)),
            (fixed(0.3), (190, 82, 110)),
            (fixed(0.025), (250, 150, 80)),
            (fixed(-0.15), (255, 214, 130)),
        ]
    )
    lines.append("# the sun: a fan around its centre")
    x, y, wide, high = 0.375, -0.02, 0.18125, 0.29
    rim = [
        (fixed(x + wide * math.cos(2 * math.pi * i / 32)), fixed(y + high * math.sin(2 * math.pi * i / 32)), (255, 196, 70))
        for i in range(33)
    ]
    lines += block(FAN, [(fixed(x), fixed(y), (255, 255, 220))] + rim)
    lines.append("# mountains: overlapping triangles")
    foot = fixed(-0.16)
    for corners in (
        [(-69632, foot, (52, 34, 70)), (-22528, foot, (40, 28, 60)), (-45875, 32768, (120, 70, 110))],
        [(-43008, foot, (44, 30, 66)), (2048, foot, (34, 24, 54)), (-23552, 20316, (150, 84, 110))],
        [(22528, foot, (40, 26, 60)), (69632, foot, (30, 22, 50)), (54272, 29491, (140, 80, 110))],
    ):
        lines += block(TRIANGLES, corners)
    lines.append("# the sea: a strip")
    lines += bands(
        [
            (fixed(-0.15), (250, 170, 110)),
            (fixed(-0.3), (120, 86, 130)),
            (fixed(-0.6), (44, 44, 100)),
            (fixed(-1), (12, 14, 44)),
        ]
    )
    lines.append("# the sun on the water: short strips")
    for i in range(9):
        color = (255, 200 - 8 * i, 110)
        step = 0.015625 * i
        top, bottom = fixed(-0.2 - 0.06 * i), fixed(-0.225 - 0.06 * i)
        lines += block(
            STRIP,
            [
                (fixed(0.15625 + step), top, color),
                (fixed(0.59375 - step), top, color),
                (fixed(0.2 + step), bottom, color),
                (fixed(0.5625 - step), bottom, color),
            ],
        )
    lines.append("# a boat: a fan for the hull, two triangles for the sails")
    hull = [(-25395, -29491), (-22118, -36700), (-6554, -36700), (-2867, -29491)]
    lines += block(FAN, [(-14336, -34079, (90, 50, 40))] + [(x, y, (60, 30, 30)) for x, y in hull])
    lines += block(
        TRIANGLES,
        [
            (-14336, -28180, (250, 240, 230)),
            (-14336, 7209, (255, 255, 250)),
            (-24986, -28180, (214, 190, 190)),
            (-13107, -28180, (236, 214, 204)),
            (-3686, -28180, (200, 170, 170)),
            (-13107, 1311, (255, 250, 240)),
        ],
    )
    return lines + ["Swap"]


def wheel():
    lines = [
        "# A wheel of six spokes that turns: eight frames, one picture after the other.",
        "# Made by make.py. As bytes: render_cli pack < wheel.txt > wheel.rcs",
        "scene 1 200 200",
        "client",
    ]
    colors = [(230, 70, 60), (240, 170, 50), (120, 190, 70), (60, 180, 200), (80, 100, 220), (190, 80, 200)]
    frames, radius, half = 8, ONE * 5 / 6, 0.22
    for frame in range(frames):
        lines += [f"# frame {frame + 1}", f"ClearColor {20 + 8 * frame} 24 40 255", "Clear 3"]
        for spoke, color in enumerate(colors):
            angle = math.pi / 3 * (spoke + frame / frames)
            ends = [(round(radius * math.cos(a)), round(radius * math.sin(a)), color) for a in (angle - half, angle + half)]
            lines += block(TRIANGLES, [(0, 0, (255, 255, 255))] + ends)
        lines.append("Swap")
    return lines


def matrix(a, b, x, y):
    """Turns and stretches by a + bi, then moves by (x, y): column after column."""
    rows = [[a, -b, 0, x], [b, a, 0, y], [0, 0, 1, 0], [0, 0, 0, 1]]
    return "MultMatrix " + " ".join(str(fixed(rows[row][column])) for column in range(4) for row in range(4))


def turned(angle):
    return matrix(math.cos(angle), math.sin(angle), 0, 0)


def moved(x):
    return matrix(1, 0, x, 0)


def ball(size, middle, rim):
    """A round body at the origin of the matrix that is current, which stays as it was."""
    corners = [(fixed(math.cos(2 * math.pi * i / 24)), fixed(math.sin(2 * math.pi * i / 24))) for i in range(25)]
    color = lambda c: f"Color {c[0]} {c[1]} {c[2]} 255"
    lines = ["PushMatrix", matrix(size, 0, 0, 0), f"Begin {FAN}", color(middle), f"Vertex 0 0 0 {ONE}", color(rim)]
    return lines + [f"Vertex {x} {y} 0 {ONE}" for x, y in corners] + ["End", "PopMatrix"]


# where the planet with the moon goes: from the middle of the window, and its turn at first
DISTANCE, START = 0.62, 0.45


def bodies(time):
    """A sun, and around it planets, one of them with a moon: each stands in the frame of what it goes around."""
    lines = ball(0.17, (255, 250, 210), (250, 170, 40))
    for distance, size, start, laps, middle, rim, moon in (
        (0.34, 0.05, 0.1, 3, (230, 200, 170), (120, 80, 60), False),
        (DISTANCE, 0.08, START, 1, (190, 225, 255), (30, 80, 190), True),
        (0.88, 0.06, 0.8, -1, (255, 190, 160), (150, 50, 30), False),
    ):
        lines += ["PushMatrix", turned(2 * math.pi * (laps * time / 8 + start)), moved(distance)] + ball(size, middle, rim)
        if moon:
            lines += ["PushMatrix", turned(2 * math.pi * time / 3), moved(0.14)] + ball(0.03, (245, 245, 245), (130, 130, 140)) + ["PopMatrix"]
        lines.append("PopMatrix")
    return lines


def orrery():
    side, box, near = 320, 112, 2
    lines = [
        "# An orrery: matrices on a stack move each body in the frame of what it goes around.",
        "# The box at the upper right shows the planet with the moon from near: the same commands in a large viewport, cut to a scissor box.",
        "# Made by make.py. As bytes: render_cli pack < orrery.txt > orrery.rcs",
        f"scene 1 {side} {side}",
        "client",
    ]
    for frame in range(3):
        angle = 2 * math.pi * (frame / 8 + START)
        left = side - box - 8
        middle = left + box // 2
        corner = [round(middle - near * side * (1 + DISTANCE * f(angle)) / 2) for f in (math.cos, math.sin)]
        lines += [f"# frame {frame + 1}", "ClearColor 10 12 30 255", "Clear 3"] + bodies(frame)
        lines += ["Enable 0", f"Scissor {left} {left} {box} {box}", "ClearColor 34 38 70 255", "Clear 1"]
        lines += [f"Viewport {corner[0]} {corner[1]} {near * side} {near * side}"] + bodies(frame)
        lines += ["Disable 0", f"Viewport 0 0 {side} {side}", "Swap"]
    return lines


def shaded(color, light):
    return tuple(min(255, round(c * light)) for c in color)


def lamp_light(normal, place, lamp):
    """How bright a surface is: some light from all sides, and the lamp's by the angle at which it falls and its distance."""
    way = [l - p for l, p in zip(lamp, place)]
    far = math.sqrt(sum(w * w for w in way))
    facing = max(0.0, sum(n * w for n, w in zip(normal, way)) / far)
    return 0.16 + 1.5 * facing / (1 + far * far)


def globe(centre, radius, color, lamp, across):
    """The front of a sphere: strips of triangles, each vertex lit by the lamp. Depth goes by z; x is narrowed for a wide window."""
    rings, sides = 14, 20
    lines = []

    def corner(ring, side):
        up, round_ = math.pi * (ring / rings - 0.5), math.pi * side / sides
        normal = (-math.cos(up) * math.cos(round_), math.sin(up), -math.cos(up) * math.sin(round_))
        place = [c + radius * n for c, n in zip(centre, normal)]
        tone = shaded(color, lamp_light(normal, place, lamp))
        x, y, z = place
        return [f"Color {tone[0]} {tone[1]} {tone[2]} 255", f"Vertex {fixed(x * across)} {fixed(y)} {fixed(z)} {ONE}"]

    for ring in range(rings):
        lines.append(f"Begin {STRIP}")
        for side in range(sides + 1):
            lines += corner(ring, side) + corner(ring + 1, side)
        lines.append("End")
    return lines


def glow(centre, radius, color, across):
    """A light that is added to what stands: bright in the middle, nothing at the rim."""
    x, y, z = centre
    lines = [f"Begin {FAN}", f"Color {color[0]} {color[1]} {color[2]} 255", f"Vertex {fixed(x * across)} {fixed(y)} {fixed(z)} {ONE}", "Color 0 0 0 255"]
    for i in range(33):
        a = 2 * math.pi * i / 32
        lines.append(f"Vertex {fixed((x + radius * math.cos(a)) * across)} {fixed(y + radius * math.sin(a))} {fixed(z)} {ONE}")
    return lines + ["End"]


def lanterns():
    width, height = 640, 400
    across = height / width
    lamp = (0.1, 0.62, -0.45)
    lines = [
        "# Lanterns at night: spheres that run into one another and a floor that cuts them, by the depth test; light that is added, and a pane of",
        "# glass that is blended over what stands behind it.",
        "# Made by make.py. As bytes: render_cli pack < lanterns.txt > lanterns.rcs",
        f"scene 1 {width} {height}",
        "client",
        "ClearColor 8 9 22 255",
        "Clear 3",
        "# the depth test, LESS: what is nearer stays",
        "Enable 2",
        "# the floor, from near below to far behind: it is lit in the middle",
    ]
    for near, far in ((-0.95, -0.45), (-0.45, 0.05), (0.05, 0.55), (0.55, 0.95)):
        lines.append(f"Begin {STRIP}")
        for i in range(17):
            x = -1.7 + 3.4 * i / 16
            for z in (near, far):
                y = -1 + 0.8 * (z + 0.95) / 1.9
                tone = shaded((120, 110, 140), lamp_light((0, 1, 0), (x, y, z), lamp))
                lines += [f"Color {tone[0]} {tone[1]} {tone[2]} 255", f"Vertex {fixed(x * across)} {fixed(y)} {fixed(z)} {ONE}"]
        lines.append("End")
    lines.append("# three spheres, two of which run into one another")
    for centre, radius, color in (
        ((-0.55, -0.26, 0.05), 0.42, (220, 70, 60)),
        ((0.02, -0.46, -0.15), 0.32, (70, 130, 235)),
        ((0.85, -0.2, 0.25), 0.36, (90, 200, 110)),
    ):
        lines += globe(centre, radius, color, lamp, across)
    lines += [
        "# light is added (ONE, ONE); it is tested against depth and leaves none",
        "Enable 3",
        "BlendFunc 1 1",
        "DepthMask 0",
    ]
    for centre, radius, color in (
        (lamp, 0.75, (150, 110, 50)),
        (lamp, 0.16, (255, 230, 170)),
        ((-1.2, 0.35, 0.2), 0.4, (90, 40, 90)),
        ((-1.2, 0.35, 0.2), 0.1, (255, 170, 220)),
        ((1.25, 0.5, 0.6), 0.45, (30, 70, 110)),
        ((1.25, 0.5, 0.6), 0.1, (170, 230, 255)),
    ):
        lines += glow(centre, radius, color, across)
    lines += [
        "# a pane of glass in front (SRC_ALPHA, ONE_MINUS_SRC_ALPHA): the nearest part of a sphere still stands before it",
        "BlendFunc 6 7",
        f"Begin {STRIP}",
    ]
    for x, y, alpha in ((0.4, -0.68, 150), (1.1, -0.68, 60), (0.4, 0.3, 90), (1.1, 0.3, 30)):
        lines += [f"Color 150 220 230 {alpha}", f"Vertex {fixed(x * across)} {fixed(y)} {fixed(-0.05)} {ONE}"]
    return lines + ["End", "Swap"]


def texels(side, color_at):
    """The hexadecimal digits of a square picture: its rows from t = 0."""
    return "".join("%02x%02x%02x%02x" % color_at(x, y) for y in range(side) for x in range(side))


def noise(x, y):
    """A number from -1 to 1 that looks like chance."""
    return (math.sin(12.9898 * x + 78.233 * y) * 43758.5453) % 2 - 1


def brick(x, y):
    shift = 0 if y // 4 % 2 == 0 else 4
    if y % 4 == 0 or (x + shift) % 8 == 0:
        return (150, 144, 136, 255)
    n = round(14 * noise(x, y))
    return (176 + n, 84 + n, 62 + n, 255)


def paving(x, y):
    n = round(10 * noise(3 * x, y))
    if x % 8 == 0 or y % 8 == 0:
        return (96 + n, 100 + n, 92 + n, 255)
    tone = 172 if (x // 8 + y // 8) % 2 == 0 else 146
    return (tone + n, tone + n, tone - 14 + n, 255)


def lattice(x, y):
    """Bars, and holes whose alpha is 0."""
    bar = x % 8 < 2 or y % 8 < 2
    return (66, 46, 30, 255) if bar else (0, 0, 0, 0)


def crate(x, y):
    edge = min(x, y, 15 - x, 15 - y)
    n = round(12 * noise(x // 3, 5 * y))
    if edge < 2 or abs(x - y) < 2:
        return (150 + n, 104 + n, 56 + n, 255)
    return (196 + n, 146 + n, 86 + n, 255)


def picture(corners):
    """A strip whose vertices have a place in the window, a place in the texture (1 is its side), and a brightness."""
    lines = [f"Begin {STRIP}"]
    for x, y, s, t, tone in corners:
        lines += [f"Color {tone} {tone} {tone} 255", f"TexCoord {fixed(s)} {fixed(t)}", f"Vertex {fixed(x)} {fixed(y)} 0 {ONE}"]
    return lines + ["End"]


def courtyard():
    lines = [
        "# A courtyard: four private textures. Walls and floor repeat their picture and are darkened by the vertices' colours (MODULATE), the crates",
        "# show theirs as it is (REPLACE), and through the lattice one sees the wall, since the alpha test drops what is transparent.",
        "# Made by make.py. As bytes: render_cli pack < courtyard.txt > courtyard.rcs",
        "scene 1 640 400",
        "client",
        "ClearColor 150 190 230 255",
        "Clear 1",
        "# the pictures: bricks, paving, a lattice, a crate",
        "TexImage 1 16 16 " + texels(16, brick),
        "TexImage 2 16 16 " + texels(16, paving),
        "TexImage 3 16 16 " + texels(16, lattice),
        "TexImage 4 16 16 " + texels(16, crate),
        "Enable 5",
        "# the wall behind: eight pictures wide, darker towards its corners",
        "BindTexture 0 1",
    ]
    wall = [(-1, 70), (-0.5, 190), (0, 255), (0.5, 190), (1, 70)]
    lines += picture([(x, y, 4 * x, 2.5 * y, tone) for x, tone in wall for y in (-0.35, 0.8)])
    lines.append("# the floor: rows that grow towards the viewer")
    lines.append("BindTexture 0 2")
    rows = [(-0.35, 0, 1, 90), (-0.42, 1, 1.15, 130), (-0.52, 2, 1.35, 170), (-0.68, 3, 1.65, 215), (-1, 4, 2.2, 255)]
    for (y, t, wide, tone), (below, under, wider, bright) in zip(rows, rows[1:]):
        columns = [i / 4 - 1 for i in range(9)]
        lines += picture([corner for c in columns for corner in ((c * wide, y, 3 * c, t, tone), (c * wider, below, 3 * c, under, bright))])
    lines += ["# the lattice: alpha greater than 0 goes on", "BindTexture 0 3", "Enable 1", "AlphaFunc 4 0"]
    lines += picture([(x, y, 3 * x, 2 * y, 255) for x in (-0.85, -0.3) for y in (-0.4, 0.62)])
    lines += ["Disable 1", "# crates: the picture held to its sides (CLAMP), as it is", "BindTexture 0 4", "TexEnv 1", "TexWrap 1 1"]
    for x, y, side in ((0.2, -0.72, 0.3), (0.53, -0.78, 0.34), (0.36, -0.24, 0.26)):
        high = side * 640 / 400
        lines += picture([(x + side * i, y + high * j, i, j, 255) for i in (0, 1) for j in (0, 1)])
    return lines + ["Swap"]


def tilted(point, by):
    """A point after a turn around the x axis and then one around the y axis."""
    (x, y, z), (a, b) = point, by
    y, z = y * math.cos(a) - z * math.sin(a), y * math.sin(a) + z * math.cos(a)
    return x * math.cos(b) + z * math.sin(b), y, z * math.cos(b) - x * math.sin(b)


def ring(middle, upright, by, color):
    """A ring of strips, lit from the upper left: each strip goes once around the tube."""
    across, along, radius, tube = 20, 40, 0.42, 0.13
    lines = []

    def vertex(i, j):
        u, v = 2 * math.pi * i / along, 2 * math.pi * j / across
        normal = math.cos(v) * math.cos(u), math.cos(v) * math.sin(u), math.sin(v)
        point = tuple(radius * c + tube * n for c, n in zip((math.cos(u), math.sin(u), 0), normal))
        if upright:
            point, normal = ((p[0], -p[2], p[1]) for p in (point, normal))
        place = tilted((point[0] + middle, point[1], point[2]), by)
        n = tilted(normal, by)
        light = 0.28 + 0.72 * max(0.0, (-0.5 * n[0] + 0.6 * n[1] - 0.62 * n[2]))
        shine = max(0.0, (-0.3 * n[0] + 0.37 * n[1] - 0.88 * n[2])) ** 24
        tone = tuple(min(255, round(c * light + 150 * shine)) for c in color)
        return [f"Color {tone[0]} {tone[1]} {tone[2]} 255", f"Vertex {fixed(0.8 * place[0])} {fixed(1.2 * place[1])} {fixed(place[2])} {ONE}"]

    for i in range(along):
        lines.append(f"Begin {STRIP}")
        for j in range(across + 1):
            lines += vertex(i, j) + vertex(i + 1, j)
        lines.append("End")
    return lines


def links():
    by = (0.5, -0.6)
    lines = [
        "# Two links of a chain, each drawn by a client of its own. Nothing is ordered but the swap: depth decides at each pixel whose link is seen, so the",
        "# clients can draw apart and be put together. It is a scene for `last`. By `render` client 0's Clear may come behind client 1's ring: that would take a",
        "# barrier of both behind the Clear, which `last` doesn't know.",
        "# Made by make.py. As bytes: render_cli pack < links.txt > links.rcs",
        "scene 1 240 160",
        "client",
        "ClearColor 28 34 52 255",
        "Clear 3",
        "Enable 2",
    ]
    lines += ring(-0.26, False, by, (226, 160, 60)) + ["Swap", "client", "Enable 2"]
    return lines + ring(0.26, True, by, (84, 150, 214)) + ["Swap"]


# half of the road's width, how wide the kerbs beside it are, and how high the eye stands above it
HALF, KERB, EYE = 0.42, 0.07, 0.42
# the view: how far a unit goes across and upward in the window where it is seen from the distance of one, and how high the horizon lies
ACROSS, UPWARD, HORIZON = 1.0, 1.5, 0.2
# nothing nearer than this is shown: its depth would lie before the depth range
NEAREST = 0.05


def bend(z):
    """Where the middle of the road lies at a distance: straight at first, and then to the right."""
    return 0.02 * max(0.0, z - 1.5) ** 2


def hill(z):
    """How high the land stands at a distance."""
    return 0.9 * (1 - math.cos(min(max(0.0, z - 4), 14) * math.pi / 14)) / 2


def hazy(color, z):
    """A colour that goes over into the air's with the distance."""
    share = 1 - math.exp(-max(0.0, z) / 24)
    return tuple(round(c + (h - c) * share) for c, h in zip(color, (232, 178, 140)))


def places(mode, color, corners):
    """A block of one colour with corners in the world: to the right, up, ahead."""
    c = [f"Color {color[0]} {color[1]} {color[2]} {color[3] if len(color) > 3 else 255}", f"Begin {mode}"]
    return c + [f"Vertex {fixed(x)} {fixed(y)} {fixed(z)} {ONE}" for x, y, z in corners] + ["End"]


def lane(left, right, near, far, color, lift=0.0):
    """A piece of ground between two lines beside the middle of the road."""
    lines = [near + (far - near) * i / 4 for i in range(5)] if near > 1.4 else [near, far]
    return places(STRIP, hazy(color, near), [(bend(z) + x, hill(z) + lift, z) for z in lines for x in (left, right)])


def slab(x, low, high, near, far, color):
    """An upright face beside the road, along it."""
    return places(STRIP, hazy(color, near), [(bend(z) + x, hill(z) + y, z) for z in (near, far) for y in (low, high)])


def upright(x, z, wide, low, high, color):
    """An upright face that is turned to the viewer."""
    return places(STRIP, hazy(color, z), [(bend(z) + x + i * wide / 2, hill(z) + y, z) for y in (low, high) for i in (-1, 1)])


def spruce(x, z, tall):
    """A tree: a trunk, and three tiers that are lit from the left."""
    lines = upright(x, z, 0.05 * tall, 0, 0.3 * tall, (70, 48, 36))
    foot, middle = hill(z), bend(z) + x
    for low, high, wide in ((0.18, 0.6, 0.24), (0.4, 0.8, 0.18), (0.6, 1, 0.12)):
        for side, color in ((-1, (104, 112, 50)), (1, (34, 58, 42))):
            lines += places(
                TRIANGLES,
                hazy(color, z),
                [(middle, foot + high * tall, z), (middle + side * wide * tall, foot + low * tall, z), (middle, foot + (low - 0.03) * tall, z)],
            )
    return lines


def road(version=2):
    width, height = 480, 320
    view = [ACROSS, 0, 0, 0, 0, UPWARD, 0, 0, 0, HORIZON, 1, 1, 0, -UPWARD * EYE, -2 * NEAREST, 0]
    lines = [
        "# A road that runs under the eye, with kerbs, a wall, a fence and wires beside and above the viewer: long pieces that begin behind the eye and",
        "# end before it. In version 2 they are cut at the near plane; in version 1 each of them is left out whole.",
        "# All of it lies so near to the line of sight that its crossings with the near plane stay within the bound of window coordinates.",
        "# Made by make.py. As bytes: render_cli pack < road.txt > road.rcs",
        f"scene {version} {width} {height}",
        "client",
        "ClearColor 70 92 48 255",
        "Clear 3",
        "# the sky",
    ]
    lines += bands([(fixed(1), (44, 62, 120)), (fixed(0.62), (120, 110, 160)), (fixed(0.36), (236, 160, 120)), (fixed(HORIZON), (255, 214, 150))])
    lines.append("# the sun, and the light around it")
    x, y = -0.46, 0.34
    for size, middle, rim in ((0.34, (255, 226, 160), None), (0.075, (255, 252, 226), (255, 238, 180))):
        lines += ["Enable 3", "BlendFunc 6 7", f"Begin {FAN}", f"Color {middle[0]} {middle[1]} {middle[2]} {255 if rim else 170}", f"Vertex {fixed(x)} {fixed(y)} 0 {ONE}"]
        edge = rim or middle
        lines.append(f"Color {edge[0]} {edge[1]} {edge[2]} {255 if rim else 0}")
        for i in range(33):
            a = 2 * math.pi * i / 32
            lines.append(f"Vertex {fixed(x + size * math.cos(a))} {fixed(y + size * width / height * math.sin(a))} 0 {ONE}")
        lines += ["End", "Disable 3"]
    lines.append("# mountains far away")
    for corners in (
        [(-1.1, 0.2, (196, 142, 140)), (-0.1, 0.2, (206, 150, 140)), (-0.72, 0.5, (150, 112, 140))],
        [(-0.6, 0.2, (206, 150, 140)), (0.5, 0.2, (196, 140, 136)), (0.12, 0.44, (142, 104, 136))],
        [(0.1, 0.2, (200, 144, 138)), (1.2, 0.2, (186, 132, 134)), (0.66, 0.58, (122, 92, 132))],
    ):
        lines += block(TRIANGLES, [(fixed(x), fixed(y), color) for x, y, color in corners])
    lines += [
        "# From here on places are in the world: to the right, up, and ahead. The projection makes w the distance.",
        "MatrixMode 1",
        "LoadMatrix " + " ".join(str(fixed(v)) for v in view),
        "Clear 2",
        "Enable 2",
        "# the land: bands before the viewer, none of which reaches the near plane",
    ]
    edges = [0.3, 0.9, 1.5, 2.2, 3, 4, 5.2, 6.6, 8.2, 10, 12, 14.5, 18, 23]
    for i, (near, far) in enumerate(zip(edges, edges[1:])):
        green = (104, 124, 58) if i % 2 else (92, 112, 52)
        lines += places(STRIP, hazy(green, near), [(side * (6 + 3 * z), hill(z) - 0.02, z) for z in (near, far) for side in (-1, 1)])
    lines.append("# the road; its nearest piece begins behind the viewer")
    joints = [-1.5, 1.5, 2.4, 3.4, 4.6, 6, 7.6, 9.4, 11.4, 13.6, 16, 18]
    for i, (near, far) in enumerate(zip(joints, joints[1:])):
        lines += lane(-HALF, HALF, near, far, (84, 82, 90) if i % 2 else (90, 88, 96))
    lines.append("# kerbs, and the line in the middle")
    lengths = [-1.2] + [0.75 + 0.55 * i for i in range(30)]
    for i, (near, far) in enumerate(zip(lengths, lengths[1:])):
        tone = (226, 220, 212) if i % 2 else (186, 62, 52)
        for side in (-1, 1):
            lines += lane(*sorted((side * HALF, side * (HALF + KERB))), near, far, tone, 0.004)
            lines += slab(side * HALF, -0.01, 0.004, near, far, tuple(c * 3 // 4 for c in tone))
    for i in range(12):
        near, far = ((-0.9, 1.0) if i == 0 else (0.3 + 1.3 * i, 1.0 + 1.3 * i))
        lines += lane(-0.018, 0.018, near, far, (240, 226, 170), 0.006)
    lines.append("# a wall of stones to the left")
    for course in range(3):
        stones = [-1.3 - 0.35 * (course % 2)] + [0.95 + 0.3 * (course % 2) + 0.62 * i for i in range(14)]
        for i, (near, far) in enumerate(zip(stones, stones[1:])):
            tone = 150 + (37 * i + 53 * course) % 44
            lines += slab(-0.72, 0.1 * course, 0.1 * course + 0.094, near, far, (tone, tone - 10, tone - 26))
    capstones = [-1.6] + [1.1 + 0.9 * i for i in range(10)]
    for i, (near, far) in enumerate(zip(capstones, capstones[1:])):
        tone = 206 - 14 * (i % 2)
        lines += lane(-0.86, -0.7, near, far, (tone, tone - 12, tone - 34), 0.3)
    lines.append("# a fence to the right: posts and rails")
    posts = [-0.5] + [1.1 + 1.1 * i for i in range(9)]
    for near, far in zip(posts, posts[1:]):
        for low in (0.12, 0.26):
            lines += slab(0.68, low, low + 0.035, near, far, (150, 104, 66))
            lines += lane(0.68, 0.7, near, far, (196, 146, 96), low + 0.035)
    for z in posts[1:]:
        lines += upright(0.7, z - 0.01, 0.045, 0, 0.36, (120, 80, 52))
    lines.append("# poles, and two wires that go over the viewer's head")
    poles = [-1.2, 2.3, 5.8, 9.3]
    for z in poles[1:]:
        lines += upright(0.9, z, 0.05, 0, 1.5, (74, 56, 48)) + upright(0.9, z - 0.01, 0.34, 1.36, 1.4, (74, 56, 48))
    for x in (0.76, 1.04):
        for near, far in zip(poles, poles[1:]):
            for i in range(6):
                ends = [near + (far - near) * (i + k) / 6 for k in (0, 1)]
                sag = [1.42 - 0.5 * ((i + k) / 6) * (1 - (i + k) / 6) for k in (0, 1)]
                lines += places(
                    STRIP, (52, 44, 52), [(bend(z) + x, hill(z) + y + up, z) for z, y in zip(ends, sag) for up in (0, 0.012)]
                )
    lines.append("# trees on both sides")
    for x, z, tall in (
        (-1.5, 3.2, 1.5), (-2.3, 4.6, 1.9), (-1.3, 5.4, 1.4), (-3.4, 6, 2.2), (-1.9, 7.4, 1.8), (-1.2, 9, 1.5), (-3, 10, 2), (-1.6, 12, 1.7),
        (1.9, 4.1, 1.7), (2.5, 6.3, 2), (1.7, 7.7, 1.5), (3.4, 8.6, 2.2), (1.5, 10.6, 1.6), (2.4, 13, 1.8), (-2.4, 15, 2), (1.8, 16, 2),
    ):
        lines += spruce(x, z, tall)
    lines += ["# shadows, which darken what stands there", "Enable 3", "BlendFunc 6 7", "DepthMask 0"]
    for near, far, left, right in ((0.55, 0.75, -0.72, 0.7), (2.1, 2.2, -0.3, 0.9), (3.3, 3.6, -0.6, 0.5), (5.2, 5.7, -0.5, 0.4)):
        lines += places(STRIP, (24, 22, 46, 96), [(bend(z) + x, hill(z) + 0.012, z + 0.12 * (x - left)) for z in (near, far) for x in (left, right)])
    return lines + ["Swap"]


# ---- a forest: call lists

# Of client 0: a tier of a spruce in two greens, the spruces, a stand of them, and mist. Of client 1: leaves, a crown, a birch, a tuft, and a patch of tufts.
TIER, BLUE_TIER, SPRUCE, BLUE_SPRUCE, STAND, MIST = range(1, 7)
LEAVES, CROWN, BIRCH, TUFT, PATCH = range(1, 6)
# How high the eye stands, how far a unit goes across and upward in the window from the distance of one, and where the horizon lies.
WOOD_EYE, WOOD_ACROSS, WOOD_UPWARD, WOOD_HORIZON = 0.62, 1.0, 1.5, -0.12
HUES = {"gold": (246, 196, 64), "orange": (232, 132, 44), "red": (198, 70, 44), "green": (150, 172, 66)}


def recorded(name, lines):
    """A list of commands that are carried out where it is called."""
    return [f"NewList {name}"] + lines + ["EndList"]


def at(name, x, y, z, wide, high):
    """A call of a list under a matrix of its own: stretched, and moved to a place."""
    entries = [wide, 0, 0, 0, 0, high, 0, 0, 0, 0, wide, 0, x, y, z, 1]
    return ["PushMatrix", "MultMatrix " + " ".join(str(fixed(e)) for e in entries), f"CallList {name}", "PopMatrix"]


def painted(mode, corners):
    """A block of places with a colour each."""
    lines = [f"Begin {mode}"]
    for place, color in corners:
        alpha = color[3] if len(color) > 3 else 255
        lines += [f"Color {color[0]} {color[1]} {color[2]} {alpha}", f"Vertex {fixed(place[0])} {fixed(place[1])} {fixed(place[2])} {ONE}"]
    return lines + ["End"]


def mixed(one, other, share):
    return tuple(round(a + (b - a) * share) for a, b in zip(one, other))


def tier(dark, lit):
    """The half of a cone that is turned to the viewer, with a rim of boughs, lit from the left. It is one high, and reaches one to each side."""
    corners = [((0, 1, 0), mixed(dark, lit, 0.25))]
    for i in range(11):
        angle = math.pi * (1.08 - 1.16 * i / 10)
        long = 1 if i % 2 == 0 else 0.8
        light = max(0.0, math.cos(angle - 0.78 * math.pi)) ** 1.5
        corners.append(((long * math.cos(angle), -0.1 if i % 2 == 0 else 0.06, -0.5 * long * math.sin(angle)), mixed(dark, lit, light)))
    return painted(FAN, corners)


def spruce_of(name):
    """A trunk, and six tiers on one another; it is one high."""
    trunk = [((x, y, 0.02), (92, 66, 50) if x < 0 else (44, 32, 32)) for y in (0, 0.2) for x in (-0.018, 0.018)]
    lines = painted(STRIP, trunk)
    for low, high, wide in ((0.1, 0.42, 0.25), (0.24, 0.56, 0.22), (0.38, 0.69, 0.18), (0.52, 0.81, 0.14), (0.66, 0.92, 0.1), (0.79, 1, 0.06)):
        lines += at(name, 0, low, 0, wide, high - low)
    return lines


def leaves(color):
    """A ball of leaves: bright at the upper left, where the light falls."""
    dark = tuple(round(c * 0.42) for c in (color[0], color[1] * 0.9, color[2] * 1.2))
    corners = [((-0.25, 0.3, -0.6), mixed(color, (255, 248, 200), 0.35))]
    for i in range(11):
        angle = 2 * math.pi * i / 10
        long = 1 if i % 2 == 0 else 0.93
        light = 0.5 + 0.5 * math.cos(angle - 0.7 * math.pi)
        corners.append(((long * math.cos(angle), long * math.sin(angle), 0), mixed(dark, color, light)))
    return painted(FAN, corners)


def crown():
    """Balls of leaves around one another."""
    lines = []
    for x, y, z, size in (
        (0, 0.62, 0.06, 0.19), (-0.17, 0.53, 0.02, 0.11), (0.18, 0.52, 0.03, 0.12), (-0.08, 0.46, 0, 0.1), (0.07, 0.45, -0.02, 0.11), (-0.2, 0.66, 0.01, 0.1),
        (0.2, 0.66, 0.02, 0.1), (-0.1, 0.59, -0.05, 0.11), (0.09, 0.58, -0.06, 0.12), (-0.12, 0.77, 0, 0.12), (0.13, 0.78, 0.01, 0.11), (0, 0.7, -0.05, 0.12),
        (-0.03, 0.86, -0.01, 0.11), (0.06, 0.9, 0, 0.09), (0, 0.97, 0.01, 0.07),
    ):
        lines += at(LEAVES, x, y, z, size, size)
    return lines


def birch():
    """A white trunk with dark bands, and a crown of what leaves there are."""
    corners = []
    for i in range(9):
        y, half = 0.08 * i, 0.018 - 0.0012 * i
        tone = (236, 230, 220) if i % 2 else (206, 196, 186)
        corners += [((-half, y, 0.03), tone), ((half, y, 0.03), tuple(round(c * 0.55) for c in tone))]
        if i in (2, 4, 5):
            corners += [((-half, y + 0.012, 0.03), (60, 52, 52)), ((half, y + 0.02, 0.03), (40, 36, 40))]
    return painted(STRIP, corners) + [f"CallList {CROWN}"]


def tuft():
    """Blades of grass."""
    corners = []
    for x, y, lean in ((-0.4, 0.7, -0.3), (-0.2, 1, -0.1), (0, 0.85, 0.12), (0.2, 1.05, 0.3), (0.38, 0.66, 0.5), (-0.3, 0.5, 0.1), (0.1, 0.6, -0.3)):
        corners += [((x - 0.06, 0, 0), (26, 44, 26)), ((x + 0.06, 0, 0), (40, 62, 30)), ((x + lean, y, 0), (186, 176, 84))]
    return painted(TRIANGLES, corners)


def many(name, places):
    return [line for place in places for line in at(name, *place)]


def view():
    """Places in the world from here on, to the right, up and ahead; the projection makes w the distance. The depth test is on."""
    entries = [WOOD_ACROSS, 0, 0, 0, 0, WOOD_UPWARD, 0, 0, 0, WOOD_HORIZON, 1, 1, 0, -WOOD_UPWARD * WOOD_EYE, -0.1, 0]
    return ["MatrixMode 1", "LoadMatrix " + " ".join(str(fixed(e)) for e in entries), "MatrixMode 0", "Enable 2"]


def trees(*places):
    """Trees that stand on the ground, by their places to the right and ahead and their heights."""
    return [(x, 0, z, tall, tall) for x, z, tall in places]


def rows():
    """The rows of the forest from the far end to the near one: spruces, birches by their leaves, and where the mist behind the row stands."""
    far = trees(
        (-9.5, 12.6, 3.2), (-8.2, 12.1, 3.7), (-7, 12.4, 3.1), (-4.9, 11.6, 3), (-3.6, 12.2, 3.5), (-2.6, 12.5, 2.6),
        (2.6, 12.6, 2.7), (3.4, 12.3, 3.3), (5.2, 11.5, 3.1), (6.6, 12.4, 3.5), (7.6, 12, 3), (9, 12.5, 3.7),
    )
    middle = trees(
        (-6.4, 8.2, 3.6), (-5.4, 7.9, 3.1), (-4.1, 7.5, 2.6), (-3.5, 8.3, 3.4), (-2.1, 7.8, 2.8),
        (2.3, 7.5, 2.7), (2.9, 8.2, 3.3), (3.6, 7.9, 2.9), (5, 7.4, 3.2), (5.9, 8.1, 3.6), (6.6, 7.8, 3),
    )
    near = trees((-4.4, 5.2, 3.6), (-3.4, 4.7, 3.2), (-2.25, 5, 2.3), (2.45, 5.1, 2.9), (3.5, 4.7, 3.4), (4.3, 5.2, 2.7))
    front = trees((-2.5, 2.9, 3.1), (2.75, 2.8, 3.4))
    return (
        (far, {"orange": trees((-6.2, 11.8, 2.6), (2.2, 12.4, 2.3)), "gold": trees((-2.2, 11.7, 2.4), (4.2, 11.9, 2.5))}, 14),
        (middle, {"gold": trees((-3, 7.4, 2.3), (4.4, 7, 2.4)), "red": trees((1.6, 7.6, 1.9)), "green": trees((-4.6, 7.4, 2.1))}, 10),
        (near, {"orange": trees((1.75, 4.6, 2)), "gold": trees((-1.65, 4.7, 2.1)), "red": trees((-2.9, 4.4, 1.9), (3.05, 4.4, 2))}, 6.2),
        (front, {"gold": trees((1.85, 2.9, 2.1)), "orange": trees((-1.85, 2.8, 1.8))}, 3.8),
    )


def stream_side(z):
    """Where the middle of the stream lies at a distance, and half of its width."""
    return 0.5 * math.sin(0.55 * z + 0.4) - 0.2 * math.cos(1.1 * z), 0.2 + 0.012 * z


def land():
    """Sky, sun, hills, grass and a stream."""
    lines = bands([(ONE, (70, 104, 168)), (fixed(0.5), (150, 168, 198)), (fixed(0.2), (240, 204, 176)), (fixed(WOOD_HORIZON), (255, 232, 190))])
    lines.append("# the sun, and the light around it")
    lines += ["Enable 3", "BlendFunc 6 7"]
    for size, middle, rim in ((0.5, (255, 240, 190, 190), (255, 226, 170, 0)), (0.075, (255, 253, 236, 255), (255, 246, 214, 255))):
        circle = [((-0.13 + size * math.cos(math.pi * i / 14), 0.26 + 1.5 * size * math.sin(math.pi * i / 14), 0), rim) for i in range(29)]
        lines += painted(FAN, [((-0.13, 0.26, 0), middle)] + circle)
    lines += ["Disable 3", "# hills far away"]
    for left, right, top, high, tone in ((-1.2, -0.1, -0.7, 0.24, (176, 176, 196)), (0.05, 1.3, 0.62, 0.3, (168, 170, 194)), (-0.5, 0.7, 0.2, 0.1, (196, 188, 196))):
        foot = WOOD_HORIZON - 0.02
        lines += painted(TRIANGLES, [((left, foot, 0), (228, 208, 190)), ((right, foot, 0), (222, 202, 190)), ((top, high, 0), tone)])
    lines += ["Clear 2"] + view() + ["# grass, from near to far, and a stream through it that shows the sky"]
    edges = [0.55, 1, 1.6, 2.4, 3.4, 4.6, 6.2, 8.4, 11.5, 16, 30]
    grass = lambda z: mixed((92, 104, 46), (222, 204, 176), min(1, z / 20) ** 0.8)
    corners = [((side * 1.6 * z, 0, z), mixed(grass(z), (40, 60, 34), 0.3 if side > 0 else 0)) for z in edges for side in (-1, 1)]
    lines += painted(STRIP, corners)
    water = lambda z: mixed((110, 142, 176), (255, 232, 196), min(1, z / 9))
    for wide, lift, tint in ((1.22, 0.003, lambda z: mixed((66, 62, 40), grass(z), 0.45)), (1, 0.006, water)):
        bank = []
        for i in range(40):
            z = 0.6 * 1.092**i
            middle, half = stream_side(z)
            bank += [((middle + side * half * wide, lift, z), tint(z)) for side in (-1, 1)]
        lines += painted(STRIP, bank)
    return lines


def forest_lists():
    """The streams of the two clients."""
    first = ["# client 0: land, mist and spruces", "ClearColor 255 232 190 255", "Clear 3"]
    first += recorded(TIER, tier((16, 38, 34), (150, 170, 84))) + recorded(BLUE_TIER, tier((14, 34, 44), (116, 156, 136)))
    first += recorded(SPRUCE, spruce_of(TIER)) + recorded(BLUE_SPRUCE, spruce_of(BLUE_TIER))
    stand = trees((-1.9, 0.3, 2.5), (-1, 0.8, 2.9), (0.3, 0.5, 2.6), (1.9, 0.1, 2.4)), trees((-1.4, 0, 2.3), (-0.4, 0.2, 3.1), (0.9, 0, 2.8), (1.4, 0.6, 3.2))
    first += recorded(STAND, many(SPRUCE, stand[0]) + many(BLUE_SPRUCE, stand[1]))
    haze = [((x, y, 0), (250, 226, 192, alpha)) for y, alpha in ((-0.02, 0), (0.1, 130), (0.22, 96), (0.55, 0)) for x in (-1.2, 1.2)]
    first += recorded(MIST, ["Enable 3", "DepthMask 0"] + painted(STRIP, haze) + ["DepthMask 1", "Disable 3"])
    first += land() + ["# the wood behind"]
    first += many(STAND, [(x, 0, z, 1, 1) for x, z in ((-14, 19), (-9.6, 18), (-4.6, 18.6), (4.4, 18.4), (9.2, 18), (13.8, 19), (0.4, 20.5))])
    second = ["# client 1: birches and grass"] + recorded(CROWN, crown()) + recorded(BIRCH, birch()) + recorded(TUFT, tuft())
    tufts = ((-0.3, 0.1, 0.1), (-0.12, 0, 0.13), (0.05, 0.15, 0.09), (0.2, 0.05, 0.12), (0.36, 0.2, 0.1))
    second += recorded(PATCH, many(TUFT, [(x, 0, z, size, 1.3 * size) for x, z, size in tufts])) + view()
    for spruces, birches, mist in rows():
        first += many(MIST, [(0, 0, mist, mist, mist)])
        first += many(SPRUCE, spruces[0::2]) + many(BLUE_SPRUCE, spruces[1::2]) + ["Barrier 1", "Barrier 1"]
        second += ["Barrier 1"]
        for hue, standing in birches.items():
            second += recorded(LEAVES, leaves(HUES[hue])) + many(BIRCH, standing)
        second += ["Barrier 1"]
    grass = ((-1.5, 2.5), (-0.7, 2.3), (1.9, 2.2), (-1.1, 1.9), (1.5, 1.7), (-0.3, 1.7), (-1.2, 1.5), (-0.5, 1.3), (1.15, 1.25), (-0.85, 1.1), (-0.2, 1.1), (0.85, 1))
    second += many(PATCH, [(x, 0, z, 1, 1) for x, z in grass])
    return first + ["Swap"], second + ["Swap"]


def forest(version=3):
    """The bytes of the scene with call lists; of version 2 the text of what it means."""
    words = [[line.split() for line in lines if not line.startswith("#")] for lines in forest_lists()]
    streams = [[scene_forms.command(name, *map(int, numbers)) for name, *numbers in lines] for lines in words]
    lists = scene_forms.Scene(480, 320, [], [2], [], streams, 3)
    meant, faults = scene_lists.meaning(lists)
    data, whole = scene_forms.scene_bytes(lists), scene_forms.scene_bytes(meant)
    assert not faults and 10 * len(data) <= len(whole)
    if version == 3:
        given = sum(map(len, meant.streams))
        print(f"{len(data)} bytes, {sum(map(len, streams))} commands; its expansion has {len(whole)} bytes, {given} commands", file=sys.stderr)
        return data
    return scene_forms.scene_text(meant)


TEXTS = {"sunset": sunset, "wheel": wheel, "orrery": orrery, "lanterns": lanterns, "courtyard": courtyard, "road": road, "links": links}
VERSIONS = {"road": ("1",), "forest": ("2",)}


def main():
    name, *version = sys.argv[1:] or [""]
    if name and name not in [*TEXTS, "forest"]:
        sys.exit(f"make.py: {name!r} is none of {', '.join([*TEXTS, 'forest'])}")
    if not name or version and (len(version) > 1 or version[0] not in VERSIONS.get(name, ())):
        sys.exit(__doc__)
    if name == "forest":
        sys.stdout.buffer.write(forest(*map(int, version)))
    else:
        print("\n".join(TEXTS[name](*map(int, version))))


main()
