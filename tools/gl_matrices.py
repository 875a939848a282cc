"""Matrices as OpenGL 1.x makes them: 16 numbers by columns."""
import math


def identity():
    return [1.0 if at % 5 == 0 else 0.0 for at in range(16)]


def multiplied(a, b):
    """The matrix a times b: what b does is done first."""
    return [
        sum(a[4 * k + row] * b[4 * column + k] for k in range(4))
        for column in range(4)
        for row in range(4)
    ]


def translation(x, y, z=0.0):
    return identity()[:12] + [x, y, z, 1.0]


def scaling(x, y, z=1.0):
    return [x, 0, 0, 0, 0, y, 0, 0, 0, 0, z, 0, 0, 0, 0, 1.0]


def rotation(degrees, x, y, z):
    """Around an axis, counterclockwise as seen from its end."""
    length = math.sqrt(x * x + y * y + z * z)
    if length == 0:
        raise ValueError("an axis of no length")
    x, y, z = x / length, y / length, z / length
    c, s = math.cos(math.radians(degrees)), math.sin(math.radians(degrees))
    d = 1 - c
    return [
        x * x * d + c,
        y * x * d + z * s,
        x * z * d - y * s,
        0,
        x * y * d - z * s,
        y * y * d + c,
        y * z * d + x * s,
        0,
        x * z * d + y * s,
        y * z * d - x * s,
        z * z * d + c,
        0,
        0,
        0,
        0,
        1.0,
    ]


def differ(**pairs):
    """The two of each pair may not be one number."""
    for name, (first, second) in pairs.items():
        if first == second:
            raise ValueError(f"{name.replace('_', ' ')} are both {first}: they have to differ")


def frustum_matrix(left, right, bottom, top, near, far):
    if near <= 0 or far <= 0:
        raise ValueError(f"near {near} and far {far}: both have to be above 0")
    differ(left_and_right=(left, right), bottom_and_top=(bottom, top), near_and_far=(near, far))
    return [
        2 * near / (right - left),
        0,
        0,
        0,
        0,
        2 * near / (top - bottom),
        0,
        0,
        (right + left) / (right - left),
        (top + bottom) / (top - bottom),
        (far + near) / (near - far),
        -1,
        0,
        0,
        2 * far * near / (near - far),
        0,
    ]


def perspective_matrix(degrees, aspect, near, far):
    """Seen under so many degrees from the bottom to the top; aspect is width by height."""
    if not 0 < degrees < 180 or aspect <= 0:
        raise ValueError(f"{degrees} degrees and aspect {aspect}: 0 to 180, and above 0, are due")
    if near <= 0:
        raise ValueError(f"near is {near}: it has to be above 0")
    top = near * math.tan(math.radians(degrees) / 2)
    return frustum_matrix(-top * aspect, top * aspect, -top, top, near, far)


def orthographic_matrix(left, right, bottom, top, near=-1.0, far=1.0):
    differ(left_and_right=(left, right), bottom_and_top=(bottom, top), near_and_far=(near, far))
    return [
        2 / (right - left),
        0,
        0,
        0,
        0,
        2 / (top - bottom),
        0,
        0,
        0,
        0,
        2 / (near - far),
        0,
        (right + left) / (left - right),
        (top + bottom) / (bottom - top),
        (far + near) / (near - far),
        1,
    ]


def look_at_matrix(eye, centre, up):
    """The eye at one point, looking at another one."""

    def unit(v, what):
        length = math.sqrt(sum(n * n for n in v))
        if length == 0:
            raise ValueError(what)
        return [n / length for n in v]

    def cross(a, b):
        return [a[1] * b[2] - a[2] * b[1], a[2] * b[0] - a[0] * b[2], a[0] * b[1] - a[1] * b[0]]

    f = unit([c - e for c, e in zip(centre, eye)], "the eye stands where it looks at")
    s = unit(cross(f, up), "up goes along the view: take another one")
    u = cross(s, f)
    turned = [s[0], u[0], -f[0], 0, s[1], u[1], -f[1], 0, s[2], u[2], -f[2], 0, 0, 0, 0, 1.0]
    return multiplied(turned, translation(*(-e for e in eye)))
