"""What a conversion draws: blocks of vertices with all state that they need, clears, and marks."""
import collections

import command_table

from .limits import OPCODES

State = collections.namedtuple("State", "viewport depth_range scissor alpha depth blend color_mask "
                                        "cull texture")
# A block's opcodes and payloads are those of its commands from Begin to End; its outline is a length
# in pixels.
Block = collections.namedtuple("Block", "state opcodes payload vertices box outline")
Clear = collections.namedtuple("Clear", "scissor color_mask depth_mask color depth mask box")
SWAP, BARRIER = "swap", "barrier"

TRIANGLES, STRIP, FAN = 0, 1, 2
FUNCTIONS = command_table.code_numbers(command_table.FUNCTIONS, "GL_")
FACTORS = command_table.code_numbers(command_table.FACTORS, "GL_")
# Names that apitrace prints for 0 and 1, which several constants of OpenGL are.
FACTORS.update({"GL_NONE": 0, "GL_FALSE": 0, "GL_POINTS": 0, "GL_TRUE": 1, "GL_LINES": 1})
FACES = command_table.code_numbers(command_table.FACES, "GL_")

W = 1 << 24     # of every vertex: depth keeps 24 bits, and x and y reach 127 times the viewport


def channels(color):
    """Channels of 8 bits, as OpenGL rounds them."""
    return tuple(max(0, min(255, int(255 * x + 0.5))) for x in color)


def command(name, payload=b""):
    return bytes((OPCODES[name],)), payload
