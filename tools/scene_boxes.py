"""The boxes of a block, by docs/cluster.md ('Boxes') alone: the exact one, of its kept pieces, and the one in object space, of its vertices."""
from command_table import first_values

ONE, NEAR_W, CLIP_BOUND = 65536, 256, 2**46
PLACE_BOUND, DEPTH_BOUND, DEPTH_MOST = 2**20, 2**30, 16777215
IDENTITY = [ONE if i % 5 == 0 else 0 for i in range(16)]


def applied(m, v):
    """The matrix times the vector, each row rounded down."""
    return [sum(m[4 * c + r] * v[c] for c in range(4)) // ONE for r in range(4)]


def applied_over(m, b):
    """The same of a vector of intervals."""
    ends = [[(m[4 * c + r] * b[c][0], m[4 * c + r] * b[c][1]) for c in range(4)] for r in range(4)]
    return [(sum(map(min, row)) // ONE, sum(map(max, row)) // ONE) for row in ends]


def product(a, b):
    return [n for c in range(4) for n in applied(a, b[4 * c : 4 * c + 4])]


def quotient_over(n, d):
    return (n[0] // d[1] if n[0] >= 0 else n[0] // d[0], n[1] // d[0] if n[1] >= 0 else n[1] // d[1])


class Context:
    """What a client has set, as far as boxes depend on it."""

    def __init__(self, width, height):
        self.matrices, self.mode = [[IDENTITY], [IDENTITY]], 0
        self.values = first_values(width, height)
        self.scissor_on = self.cull_on = False
        self.shape, self.vertices = None, []

    def issue(self, name, numbers):
        """The shape and the vertices of a block that ends here. A scene whose commands are refused isn't for this reader."""
        stack = self.matrices[self.mode]
        if name == "Begin":
            self.shape, self.vertices = numbers[0], []
        elif name == "Vertex":
            self.vertices.append(numbers)
        elif name == "End":
            return self.shape, self.vertices
        elif name in ("Enable", "Disable"):
            on = name == "Enable"
            self.scissor_on, self.cull_on = (on if numbers[0] == 0 else self.scissor_on), (on if numbers[0] == 4 else self.cull_on)
        elif name == "MatrixMode":
            self.mode = numbers[0]
        elif name == "LoadIdentity":
            stack[-1] = IDENTITY
        elif name == "LoadMatrix":
            stack[-1] = list(numbers)
        elif name == "MultMatrix":
            stack[-1] = product(stack[-1], numbers)
        elif name == "PushMatrix":
            stack.append(stack[-1])
        elif name == "PopMatrix":
            stack.pop()
        elif name in self.values:
            self.values[name] = numbers
        return None

    def place(self, c):
        """A vertex in clip coordinates, in the window: sixteenths of a pixel. None where it drops its triangle."""
        x, y, z, w = c
        if w <= 0:
            return None
        left, bottom, width, height = self.values["Viewport"]
        near, far = self.values["DepthRange"]
        at = (16 * left + (x + w) * width * 16 // (2 * w), 16 * bottom + (y + w) * height * 16 // (2 * w))
        depth = ((far - near) * z + (near + far) * w) * DEPTH_MOST // (131072 * w)
        return at if max(map(abs, at)) <= PLACE_BOUND and abs(depth) <= DEPTH_BOUND else None

    def is_shown(self, corners):
        (ax, ay), (bx, by), (cx, cy) = corners
        area = (bx - ax) * (cy - ay) - (by - ay) * (cx - ax)
        (clockwise,), (culled,) = self.values["FrontFace"], self.values["CullFace"]
        front = area < 0 if clockwise else area > 0
        return area != 0 and not (self.cull_on and (culled == 2 or front == (culled == 0)))

    def visible(self, box):
        """The rectangle of pixels whose centres lie in the box, cut by the viewport and the scissor box."""
        (x0, x1), (y0, y1) = box
        rect = [-(-(x0 - 8) // 16), -(-(y0 - 8) // 16), (x1 - 8) // 16 + 1, (y1 - 8) // 16 + 1]
        for x, y, w, h in [self.values["Viewport"]] + [self.values["Scissor"]] * self.scissor_on:
            rect = [max(rect[0], x), max(rect[1], y), min(rect[2], x + w), min(rect[3], y + h)]
        return rect

    def exact(self, shape, vertices):
        """The box of the kept pieces, which are what is drawn."""
        clip = [applied(self.matrices[1][-1], applied(self.matrices[0][-1], v)) for v in vertices]
        places = []
        for triple in triangles(shape, len(vertices)):
            for piece in pieces([clip[i] for i in triple]):
                corners = [self.place(c) for c in piece]
                if None not in corners and self.is_shown(corners):
                    places += corners
        if not places:
            return None
        xs, ys = [x for x, _ in places], [y for _, y in places]
        return self.visible(((min(xs), max(xs)), (min(ys), max(ys))))

    def over(self, shape, vertices):
        """The box in object space, and whether it comes nearer than the near plane."""
        standing = {i for triple in triangles(shape, len(vertices)) for i in triple}
        if not standing:
            return None, False
        b = [(min(vertices[i][c] for i in standing), max(vertices[i][c] for i in standing)) for c in range(4)]
        d = applied_over(self.matrices[1][-1], applied_over(self.matrices[0][-1], b))
        w = d[3]
        if w[0] < NEAR_W:
            x, y, wide, high = self.values["Viewport"]
            return self.visible(((16 * x, 16 * (x + wide)), (16 * y, 16 * (y + high)))), True
        box = []
        for i in range(2):
            origin, size = self.values["Viewport"][i], self.values["Viewport"][2 + i]
            q = quotient_over(tuple((d[i][end] + w[end]) * size * 16 for end in range(2)), (2 * w[0], 2 * w[1]))
            box.append((16 * origin + q[0], 16 * origin + q[1]))
        return self.visible(box), False


def triangles(shape, n):
    if shape == 0:
        return [(3 * i, 3 * i + 1, 3 * i + 2) for i in range(n // 3)]
    if shape == 1:
        return [(i + 1, i, i + 2) if i % 2 else (i, i + 1, i + 2) for i in range(n - 2)]
    return [(0, i + 1, i + 2) for i in range(n - 2)]


def pieces(corners):
    """What is in front of the near plane, as triangles."""
    if any(abs(n) > CLIP_BOUND for c in corners for n in c):
        return []
    polygon = []
    for a, b in zip(corners, corners[1:] + corners[:1]):
        if a[3] >= NEAR_W:
            polygon.append(a)
        if (a[3] >= NEAR_W) != (b[3] >= NEAR_W):
            near, far = (a, b) if a[3] >= NEAR_W else (b, a)
            polygon.append([p + (q - p) * (near[3] - NEAR_W) // (near[3] - far[3]) for p, q in zip(near, far)])
    return [(polygon[0], polygon[i + 1], polygon[i + 2]) for i in range(len(polygon) - 2)]
