"""A second judge of commands, by docs/drawing.md alone: which commands of a stream are refused, and by which fault. hostile.py compares the program with it."""
from command_table import BY_OPCODE, OUTSIDE, code_counts
from scene_forms import COMMANDS

IN_BLOCKS = [row.name for row in BY_OPCODE if row.place != OUTSIDE]
# How many codes the first numbers of a command have.
CODES = {row.name: code_counts(row) for row in BY_OPCODE if code_counts(row)}
IDENTITY = tuple(65536 if i % 5 == 0 else 0 for i in range(16))
MOST_VERTICES, MOST_MATRICES, MOST_NAMES, LONGEST_SIDE = 16_383, 32, 64, 256


def product(a, b):
    """Of two matrices by columns, in 16.16 fixed point."""
    return tuple(sum(a[4 * k + row] * b[4 * column + k] for k in range(4)) // 65536 for column in range(4) for row in range(4))


class Context:
    """What decides whether a client's next command is refused."""

    def __init__(self, scene):
        self.scene = scene
        self.vertices = None  # how many the open block has
        self.mode, self.stacks, self.images = 0, ([IDENTITY], [IDENTITY]), {}

    def has_values(self, name, n):
        """Each argument has one of its values."""
        scene = self.scene
        if name == "Vertex":
            return self.vertices < MOST_VERTICES
        if name == "Viewport":
            return all(-32768 <= corner <= 32767 for corner in n[:2]) and all(0 <= side <= 2048 for side in n[2:])
        if name == "Scissor":
            return n[2] >= 0 and n[3] >= 0
        if name == "Clear":
            return n[0] < 4
        if name == "BindTexture":
            return 1 <= n[1] <= (len(scene.shared) if n[0] else MOST_NAMES)
        if name == "TexImage":
            return 1 <= n[0] <= MOST_NAMES and 1 <= n[1] <= LONGEST_SIDE and 1 <= n[2] <= LONGEST_SIDE
        if name == "MultMatrix":
            return all(-1 << 31 <= entry < 1 << 31 for entry in product(self.stacks[self.mode][-1], n))
        names = {"TexPart": MOST_NAMES, "SharedImage": len(scene.shared), "Barrier": len(scene.barriers), "SemP": len(scene.semaphores),
                 "SemV": len(scene.semaphores)}
        return name not in names or 1 <= n[0] <= names[name]

    def fault(self, name, n):
        """The first rule that a command breaks, or None."""
        if name in ("Vertex", "End") if self.vertices is None else name not in IN_BLOCKS:
            return "INVALID_OPERATION"
        if any(code >= count for code, count in zip(n, CODES.get(name, ()))):
            return "INVALID_ENUM"
        if not self.has_values(name, n):
            return "INVALID_VALUE"
        if name == "TexPart" and n[0] not in self.images:
            return "INVALID_OPERATION"
        if name in ("TexPart", "SharedImage"):
            sides = self.images[n[0]] if name == "TexPart" else self.scene.shared[n[0] - 1]
            if n[1] + n[3] > sides[0] or n[2] + n[4] > sides[1]:
                return "INVALID_VALUE"
        if name == "PushMatrix" and len(self.stacks[self.mode]) >= MOST_MATRICES:
            return "STACK_OVERFLOW"
        if name == "PopMatrix" and len(self.stacks[self.mode]) == 1:
            return "STACK_UNDERFLOW"
        return None

    def take(self, name, n):
        """What an accepted command leaves."""
        stack = self.stacks[self.mode]
        if name == "Begin":
            self.vertices = 0
        elif name == "End":
            self.vertices = None
        elif name == "Vertex":
            self.vertices += 1
        elif name == "MatrixMode":
            self.mode = n[0]
        elif name == "LoadIdentity":
            stack[-1] = IDENTITY
        elif name == "LoadMatrix":
            stack[-1] = n
        elif name == "MultMatrix":
            stack[-1] = product(stack[-1], n)
        elif name == "PushMatrix":
            stack.append(stack[-1])
        elif name == "PopMatrix":
            stack.pop()
        elif name == "TexImage":
            self.images[n[0]] = n[1:]


def issue(scene, commands):
    """Each command of a stream: its place, name, numbers and fault, which is None where it is accepted."""
    context = Context(scene)
    for place, (opcode, numbers, _) in enumerate(commands):
        name = COMMANDS[opcode][0]
        fault = context.fault(name, numbers)
        if not fault:
            context.take(name, numbers)
        yield place, name, numbers, fault
