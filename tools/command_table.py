"""The table of the commands: what the tools know of each one by itself, in one row.

A row has a command's opcode and name, its fields, where it may stand, what stands at first in the
element that it sets, and its call in gl.py, whose words are the fields' names and which says
nothing of itself, where the row has no other. From the rows follow the table by which scenes are
read and written (scene_forms.py), the codes and places of the judge (scene_faults.py), the names
by which commands are told (scene_bytes.py), calls and constants of gl.py, and the tables of
docs/scene-format.md and docs/drawing.md. bench/try/command_lists.py holds it against the
definitions.

Fields are spelt `NAMES: KIND`, with `;` between them. The kinds are:

    byte, half, whole   a number of 8 bits, one of 16 bits, and a signed one of 32 bits
    fixed               a number in 16.16 fixed point
    share               from 0 to 1, in 8 bits
    flag                in 8 bits, on where they aren't 0
    sides               width and height of the picture whose texels follow, of 16 bits
    bits NAME ..        in 8 bits, each with its name, from the lowest on
    NAME ..             a code in 8 bits: each has its name, from 0 on

So many numbers without names are spelt by their number.
"""
from collections import namedtuple

# Where a command may stand: in an open block alone, outside one alone, or in both places.
INSIDE, OUTSIDE, ANYWHERE = "inside", "outside", "anywhere"
# What stands at first in an element: the rectangle of the window.
WINDOW = "window"
LETTERS = {"byte": "B", "half": "H", "whole": "i", "fixed": "i", "share": "B", "flag": "B", "sides": "H"}

# A number of a command: its name, its kind, its letter as `struct` has it, and the names of its codes or bits.
Field = namedtuple("Field", "name kind letter names")
Row = namedtuple("Row", "opcode name fields place first call about")


def fields_of(spelt):
    """The fields that are spelt so, one for each number."""
    for part in filter(None, spelt.split("; ")):
        names, kind = part.split(": ")
        values = []
        if kind not in LETTERS:
            kind, *values = kind.split() if kind.startswith("bits ") else ["code", *kind.split()]
        for name in [None] * int(names) if names.isdigit() else names.split():
            yield Field(name, kind, LETTERS.get(kind, "B"), tuple(values))


def row(opcode, name, fields="", place=OUTSIDE, first=None, call=None, about=None):
    own = "".join(("_" if letter.isupper() else "") + letter.lower() for letter in name)[1:]
    return Row(opcode, name, tuple(fields_of(fields)), place, first, call or own, about)


CAPABILITIES = "SCISSOR ALPHA DEPTH BLEND CULL TEXTURE"
FUNCTIONS = "NEVER LESS EQUAL LEQUAL GREATER NOTEQUAL GEQUAL ALWAYS"
FACTORS = (
    "ZERO ONE SRC_COLOR ONE_MINUS_SRC_COLOR DST_COLOR ONE_MINUS_DST_COLOR "
    "SRC_ALPHA ONE_MINUS_SRC_ALPHA DST_ALPHA ONE_MINUS_DST_ALPHA"
)
FACES = "FRONT BACK FRONT_AND_BACK"

# By subject, as gl.py tells its calls.
ROWS = (
    # blocks, and what is current
    row(0x01, "Begin", "mode: TRIANGLES TRIANGLE_STRIP TRIANGLE_FAN"),
    row(0x02, "End", place=INSIDE),
    row(0x03, "Vertex", "x y z w: fixed", INSIDE),
    row(0x04, "Color", "r g b a: share", ANYWHERE, (255, 255, 255, 255)),
    row(0x05, "TexCoord", "s t: fixed", ANYWHERE, (0, 0)),
    # matrices
    row(0x08, "MatrixMode", "mode: MODELVIEW PROJECTION"),
    row(0x09, "LoadIdentity"),
    row(0x0A, "LoadMatrix", "16: fixed"),
    row(0x0B, "MultMatrix", "16: fixed", call="multiply"),
    row(0x0C, "PushMatrix", call="push()"),
    row(0x0D, "PopMatrix", call="pop()"),
    # state
    row(0x06, "Enable", f"capability: {CAPABILITIES}"),
    row(0x07, "Disable", f"capability: {CAPABILITIES}"),
    row(0x0E, "Viewport", "x y w h: whole", first=WINDOW, call="viewport(x, y, width, height)", about="In pixels from the lower left."),
    row(0x10, "Scissor", "x y w h: whole", first=WINDOW, call="scissor(x, y, width, height)", about="In pixels from the lower left."),
    row(0x0F, "DepthRange", "near far: fixed", first=(0, 65536)),
    row(0x11, "AlphaFunc", f"function: {FUNCTIONS}; reference: share", first=(7, 0), about="The reference is a share from 0 to 1."),
    row(0x12, "DepthFunc", f"function: {FUNCTIONS}", first=(1,)),
    row(0x13, "DepthMask", "flag: flag", first=(1,), call="depth_mask(on)"),
    row(0x14, "BlendFunc", f"source destination: {FACTORS}", first=(1, 0)),
    row(0x15, "ColorMask", "r g b a: flag", first=(1, 1, 1, 1)),
    row(0x19, "CullFace", f"face: {FACES}", first=(1,)),
    row(0x1A, "FrontFace", "direction: COUNTERCLOCKWISE CLOCKWISE", first=(0,)),
    row(0x16, "ClearColor", "r g b a: share", first=(0, 0, 0, 0), call="clear_color(r, g, b, a=1.0)"),
    row(0x17, "ClearDepth", "depth: fixed", first=(65536,)),
    row(0x18, "Clear", "mask: bits COLOR DEPTH", call="clear(mask=3)"),
    # textures
    row(0x1E, "TexImage", "name: byte; w h: sides"),
    row(0x1F, "TexPart", "name: byte; x y: half; w h: sides"),
    row(0x20, "SharedImage", "name: byte; x y: half; w h: sides"),
    row(0x1B, "BindTexture", "kind: PRIVATE SHARED; name: byte", first=(0, 1)),
    row(0x1C, "TexEnv", "environment: MODULATE REPLACE", first=(0,), about="MODULATE or REPLACE."),
    row(0x1D, "TexWrap", "s t: REPEAT CLAMP", first=(0, 0), about="REPEAT or CLAMP, each way."),
    # synchronisation
    row(0x21, "Barrier", "name: byte", about="Waits at a barrier of the scene."),
    row(0x22, "SemP", "name: byte", call="semaphore_take(name)", about="Waits for a unit of a semaphore, and takes it (SemP)."),
    row(0x23, "SemV", "name: byte", call="semaphore_give(name)", about="Gives a unit to a semaphore (SemV)."),
    row(0x24, "Swap", about="Ends a frame."),
)
# Those that version 3 has beside them.
LIST_ROWS = (row(0x25, "NewList", "name: byte"), row(0x26, "EndList"), row(0x27, "CallList", "name: byte"))
BY_OPCODE = sorted(ROWS)


def layout(one):
    """The numbers of a command, as `struct` writes them."""
    return "".join(field.letter for field in one.fields)


def code_counts(one):
    """How many codes the first numbers of a command have."""
    return tuple(len(field.names) for field in one.fields if field.kind == "code")


def value_names(field):
    """The names of a number's values, from 0 on."""
    if field.kind == "bits":
        sums = range(1 << len(field.names))
        return [" and ".join(name for bit, name in enumerate(field.names) if value >> bit & 1) or "nothing" for value in sums]
    return list(field.names)


def code_numbers(names, prefix=""):
    """The numbers of some codes by their names."""
    return {prefix + name: number for number, name in enumerate(names.split())}


def constants():
    """The numbers of all codes, and those of bits, by their names."""
    for one in ROWS:
        for field in one.fields:
            for number, name in enumerate(field.names):
                yield (f"{name}_BIT", 1 << number) if field.kind == "bits" else (name, number)


def first_values(width, height):
    """What stands at first in each element that one command sets, by the command's name: first the
    rectangles of the window, last what is current.
    """
    rows = [one for one in BY_OPCODE if one.first]
    rows.sort(key=lambda one: (one.place == ANYWHERE, one.first != WINDOW))
    return {one.name: (0, 0, width, height) if one.first == WINDOW else one.first for one in rows}


# Of these what stands there at first whatever the window is.
FIRST = {one.name: one.first for one in BY_OPCODE if one.first and one.first != WINDOW}
