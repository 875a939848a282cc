"""Matrices of OpenGL: tuples of 16 numbers, column after column."""
import math

IDENTITY = (1.0, 0.0, 0.0, 0.0, 0.0, 1.0, 0.0, 0.0, 0.0, 0.0, 1.0, 0.0, 0.0, 0.0, 0.0, 1.0)


def multiply(a, b):
    a0, a1, a2, a3, a4, a5, a6, a7, a8, a9, a10, a11, a12, a13, a14, a15 = a
    product = []
    for column in (0, 4, 8, 12):
        x, y, z, w = b[column:column + 4]
        product += (a0 * x + a4 * y + a8 * z + a12 * w, a1 * x + a5 * y + a9 * z + a13 * w,
                    a2 * x + a6 * y + a10 * z + a14 * w, a3 * x + a7 * y + a11 * z + a15 * w)
    return tuple(product)


def transform(m, x, y, z, w):
    return (m[0] * x + m[4] * y + m[8] * z + m[12] * w, m[1] * x + m[5] * y + m[9] * z + m[13] * w,
            m[2] * x + m[6] * y + m[10] * z + m[14] * w,
            m[3] * x + m[7] * y + m[11] * z + m[15] * w)


def transform_all(m, points):
    """Points by a matrix, one after the other."""
    m0, m1, m2, m3, m4, m5, m6, m7, m8, m9, m10, m11, m12, m13, m14, m15 = m
    return [(m0 * x + m4 * y + m8 * z + m12 * w, m1 * x + m5 * y + m9 * z + m13 * w,
             m2 * x + m6 * y + m10 * z + m14 * w, m3 * x + m7 * y + m11 * z + m15 * w)
            for x, y, z, w in points]


def plane_by(equation, m):
    """A plane's equation by a matrix from the right."""
    return tuple(sum(equation[row] * m[4 * column + row] for row in range(4))
                 for column in range(4))


def normal_rows(m):
    """The rows by which normals are multiplied: those of the inverse's transpose."""
    a, b, c, d, e, f, g, h, i = m[0], m[4], m[8], m[1], m[5], m[9], m[2], m[6], m[10]
    rows = ((e * i - f * h, f * g - d * i, d * h - e * g),
            (c * h - b * i, a * i - c * g, b * g - a * h),
            (b * f - c * e, c * d - a * f, a * e - b * d))
    determinant = a * rows[0][0] + b * rows[0][1] + c * rows[0][2]
    over = 1.0 / determinant if determinant else 1.0
    return tuple(tuple(over * x for x in row) for row in rows)


def rescaled(rows):
    """The rows by which normals are multiplied under GL_RESCALE_NORMAL: by one factor, which
    undoes what a matrix of turns and one scale does to their lengths."""
    size = math.sqrt(sum(row[2] * row[2] for row in rows))
    over = 1.0 / size if size else 1.0
    return tuple(tuple(over * x for x in row) for row in rows)


def inverse(m):
    """By Gauss and Jordan; the identity of a matrix that has none."""
    rows = [[float(m[row + 4 * column]) for column in range(4)]
            + [float(row == column) for column in range(4)] for row in range(4)]
    for c in range(4):
        pivot = max(range(c, 4), key=lambda r: abs(rows[r][c]))
        rows[c], rows[pivot] = rows[pivot], rows[c]
        if rows[c][c] == 0:
            return IDENTITY
        rows[c] = [x / rows[c][c] for x in rows[c]]
        for r in range(4):
            if r != c:
                rows[r] = [x - rows[r][c] * y for x, y in zip(rows[r], rows[c])]
    return tuple(rows[row][4 + column] for column in range(4) for row in range(4))


def unit(v):
    size = math.sqrt(v[0] * v[0] + v[1] * v[1] + v[2] * v[2])
    return (v[0] / size, v[1] / size, v[2] / size) if size > 0 else tuple(v)


def dot(a, b):
    return a[0] * b[0] + a[1] * b[1] + a[2] * b[2]


def rotation(angle, x, y, z):
    x, y, z = unit((x, y, z))
    s, c = math.sin(math.radians(angle)), math.cos(math.radians(angle))
    d = 1 - c
    return (x * x * d + c, y * x * d + z * s, x * z * d - y * s, 0.0,
            x * y * d - z * s, y * y * d + c, y * z * d + x * s, 0.0,
            x * z * d + y * s, y * z * d - x * s, z * z * d + c, 0.0, 0.0, 0.0, 0.0, 1.0)


def translation(x, y, z):
    return (1.0, 0.0, 0.0, 0.0, 0.0, 1.0, 0.0, 0.0, 0.0, 0.0, 1.0, 0.0, x, y, z, 1.0)


def scaling(x, y, z):
    return (x, 0.0, 0.0, 0.0, 0.0, y, 0.0, 0.0, 0.0, 0.0, z, 0.0, 0.0, 0.0, 0.0, 1.0)


def orthographic(left, right, bottom, top, near, far):
    width, height, depth = right - left, top - bottom, far - near
    return (2 / width, 0.0, 0.0, 0.0, 0.0, 2 / height, 0.0, 0.0, 0.0, 0.0, -2 / depth, 0.0,
            -(right + left) / width, -(top + bottom) / height, -(far + near) / depth, 1.0)


def perspective(left, right, bottom, top, near, far):
    width, height, depth = right - left, top - bottom, far - near
    return (2 * near / width, 0.0, 0.0, 0.0, 0.0, 2 * near / height, 0.0, 0.0,
            (right + left) / width, (top + bottom) / height, -(far + near) / depth, -1.0,
            0.0, 0.0, -2 * far * near / depth, 0.0)
