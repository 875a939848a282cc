"""What a scene draws, block by block, for tests: in sixteenths of a pixel, with its state."""
import collections

import scene_lists
from scene_forms import COMMANDS

# A vertex is a place in sixteenths of a pixel, a depth from -1 to 1, a colour, and s and t.
Vertex = collections.namedtuple("Vertex", "x y z color coordinate")
Block = collections.namedtuple("Block", "mode state vertices texels")
MODES = ("TRIANGLES", "STRIP", "FAN")


class Scene:
    """A scene's size and version, and the blocks, clears and marks of each client."""

    def __init__(self, data):
        scene, _ = scene_lists.read(data)
        self.version, self.size, self.data = data[3] - ord("0"), (scene.width, scene.height), data
        self.commands = [[(COMMANDS[code][0], numbers, texels) for code, numbers, texels in stream]
                         for stream in scene.streams]
        self.clients = [list(drawn(stream)) for stream in self.commands]

    @property
    def blocks(self):
        return [item for items in self.clients for item in items if isinstance(item, Block)]

    def named(self, name):
        """The numbers of each command of this name, in the first client."""
        return [numbers for found, numbers, _ in self.commands[0] if found == name]


def drawn(stream):
    """Blocks with the state that is set, and the names of clears and marks."""
    state, textures, color, coordinate = {"on": frozenset()}, {}, (255,) * 4, (0, 0)
    mode, vertices = None, []
    for name, numbers, texels in stream:
        if name == "Begin":
            mode, vertices = MODES[numbers[0]], []
        elif name == "Color":
            color = numbers
        elif name == "TexCoord":
            coordinate = tuple(number / 65536 for number in numbers)
        elif name == "Vertex":
            vertices.append(vertex(numbers, state["Viewport"], color, coordinate))
        elif name == "End":
            bound = textures.get(state.get("BindTexture", (0, 1))[1])
            texture = bound if 5 in state["on"] else None
            yield Block(mode, dict(state), vertices, texture)
        elif name == "TexImage":
            textures[numbers[0]] = (numbers[1], numbers[2], texels)
        elif name in ("Enable", "Disable"):
            change = {numbers[0]}
            state["on"] = state["on"] | change if name == "Enable" else state["on"] - change
        elif name in ("Clear", "Swap", "Barrier"):
            yield name, numbers, dict(state)
        else:
            state[name] = numbers


def vertex(numbers, viewport, color, coordinate):
    """As docs/drawing.md has window coordinates."""
    x, y, z, w = numbers
    left, low, width, height = viewport
    return Vertex(16 * left + (x + w) * width * 16 // (2 * w),
                  16 * low + (y + w) * height * 16 // (2 * w), z / w, color, coordinate)
