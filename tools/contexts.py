"""All that a client's commands have set: its context, and the commands that set it anew."""
import scene_faults
from command_table import first_values
from scene_bytes import ALL_OPCODES, Placed, name_of

IDENTITY = scene_faults.IDENTITY
SCISSOR, DEPTH, BLEND = 0, 2, 3


def placed(name, *numbers, texels=b""):
    """A command without a line."""
    return Placed((ALL_OPCODES[name], numbers, texels))


class Context(scene_faults.Context):
    """A client's context: elements by the commands that set them, what is enabled, images."""

    def __init__(self, scene):
        super().__init__(scene)
        self.values, self.enabled = first_values(scene.width, scene.height), set()
        self.pictures = {}

    def issue(self, command):
        """A command's fault, or None where it is taken."""
        name, numbers = name_of(command), command[1]
        fault = self.fault(name, numbers)
        if fault:
            return fault
        self.take(name, numbers)
        if name in self.values:
            self.values[name] = numbers
        elif name == "Enable":
            self.enabled.add(numbers[0])
        elif name == "Disable":
            self.enabled.discard(numbers[0])
        elif name == "TexImage":
            self.pictures[numbers[0]] = *numbers[1:], command[2]
        elif name == "TexPart":
            picture = self.pictures[numbers[0]]
            self.pictures[numbers[0]] = with_part(picture, numbers[1:], command[2])
        return None

    def is_whole(self):
        """Whether a Clear goes over the whole window."""
        x, y, w, h = self.values["Scissor"]
        width, height = self.scene.width, self.scene.height
        return SCISSOR not in self.enabled or (
            x <= 0 and y <= 0 and x + w >= width and y + h >= height
        )

    def commands(self, values):
        """The commands that make this context of a fresh one with these values of elements. A block
        that is open isn't begun.
        """
        made = [
            placed("TexImage", name, w, h, texels=texels)
            for name, (w, h, texels) in sorted(self.pictures.items())
        ]
        made += [
            placed(name, *numbers)
            for name, numbers in self.values.items()
            if numbers != values[name]
        ]
        made += [placed("Enable", capability) for capability in sorted(self.enabled)]
        for mode in (1, 0):
            if self.stacks[mode] != [IDENTITY]:
                made += [placed("MatrixMode", mode)] if mode else []
                made += stack_commands(self.stacks[mode])
                made += [placed("MatrixMode", 0)] if mode else []
        return made + ([placed("MatrixMode", 1)] if self.mode else [])


def stack_commands(stack):
    """The commands that make a stack of one that has the identity alone."""
    made, top = [], IDENTITY
    for number, matrix in enumerate(stack):
        made += [placed("PushMatrix")] if number else []
        made += [placed("LoadMatrix", *matrix)] if matrix != top else []
        top = matrix
    return made


def write_part(body, width, numbers, texels):
    """Writes a part over the texels of an image."""
    x, y, w, h = numbers
    for row in range(h):
        at = 4 * (width * (y + row) + x)
        body[at : at + 4 * w] = texels[4 * w * row : 4 * w * (row + 1)]


def with_part(picture, numbers, texels):
    """An image with a part written over it."""
    width, height, body = picture
    made = bytearray(body)
    write_part(made, width, numbers, texels)
    return width, height, bytes(made)
