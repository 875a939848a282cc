"""What a scene may hold (docs/scene-format.md), and how much a trace may ask for."""
from scene_forms import ALL_OPCODES as OPCODES, LAYOUTS  # noqa: F401
from scene_forms import LONGEST as MOST_BYTES, MOST_COMMANDS  # noqa: F401

MOST_SIDE = 2048
MOST_CLIENTS = 8
MOST_LISTS = 64
MOST_COST = 67_108_864
MOST_TEXTURES = 64          # private ones of a client
MOST_TEXTURE_SIDE = 256
MOST_VERTICES = 16_383      # of a block
MOST_PIXELS = 2_147_483_648     # of all frames

# A trace can ask for more than any program does; these end it in a line.
MOST_STEPS = 4_194_304      # calls that display lists give in a frame
DEEPEST_LIST = 64           # OpenGL's own bound of lists in lists
MOST_GIVEN = 4_194_304      # vertices of one draw from arrays
MOST_TEXELS = 67_108_864    # of all textures
MOST_IMAGE_SIDE = 16_384
MOST_BUFFER = 268_435_456   # bytes of all buffers
MOST_STACK = 4_096          # matrices or groups of attributes on a stack
MOST_MEMORY = 4_294_967_296     # bytes, of which a few bytes of a pickle may ask for more
