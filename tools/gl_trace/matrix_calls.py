"""Calls that change the matrix on top of a stack, and clip planes, which a matrix places."""
from .context import OLDER
from .faults import Refused
from .limits import MOST_STACK
from .matrices import (IDENTITY, inverse, multiply, orthographic, perspective, plane_by, rotation,
                       scaling, translation)


def by_rows(numbers):
    return tuple(numbers[4 * row + column] for column in range(4) for row in range(4))


class MatrixCalls:
    """What a machine does at these calls."""

    def stack(self):
        return self.context.stacks.get(self.values["matrix_mode"]) \
            or self.context.stacks["GL_TEXTURE"]

    def times(self, matrix):
        stack = self.stack()
        stack[-1] = multiply(stack[-1], matrix)

    def do_MatrixMode(self, mode):
        self.values["matrix_mode"] = mode

    def do_LoadIdentity(self):
        self.stack()[-1] = IDENTITY

    def do_LoadMatrix(self, *numbers):
        self.stack()[-1] = multiply(IDENTITY, numbers)

    def do_MultMatrix(self, *numbers):
        self.times(numbers)

    def do_LoadTransposeMatrix(self, *numbers):
        self.do_LoadMatrix(*by_rows(numbers))

    def do_MultTransposeMatrix(self, *numbers):
        self.times(by_rows(numbers))

    def do_PushMatrix(self):
        stack = self.stack()
        if len(stack) >= MOST_STACK:
            raise Refused(f"more than {MOST_STACK} matrices are pushed")
        stack.append(stack[-1])

    def do_PopMatrix(self):
        if len(self.stack()) > 1:
            self.stack().pop()

    def do_Translate(self, x, y, z):
        self.times(translation(x, y, z))

    def do_Scale(self, x, y, z):
        self.times(scaling(x, y, z))

    def do_Rotate(self, angle, x, y, z):
        self.times(rotation(angle, x, y, z))

    def do_Ortho(self, left, right, bottom, top, near, far):
        if left != right and bottom != top and near != far:     # else OpenGL ignores it
            self.times(orthographic(left, right, bottom, top, near, far))

    def do_Frustum(self, left, right, bottom, top, near, far):
        if left != right and bottom != top and near != far and near > 0 and far > 0:
            self.times(perspective(left, right, bottom, top, near, far))

    def do_ClipPlane(self, plane, equation):
        matrix = inverse(self.context.stacks["GL_MODELVIEW"][-1])
        self.context.planes[OLDER.get(plane, plane)] = plane_by(equation, matrix)
