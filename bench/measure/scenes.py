#!/usr/bin/env python3
"""Makes the scenes of the benchmarks, in bytes.

    scenes.py NAME [WORD ..] > scene.rcs

    usual [CLIENTS]     1024 by 768, 20 frames. With one client four strips of 5,002 vertices a frame, a colour before each vertex; with more, one
                        such strip for each client, and a barrier of all clients before each swap.
    turned [CLIENTS]    `usual` under a modelview matrix that turns it by 3 degrees.
    apart [CLIENTS]     `usual` with 4 clients, with the depth test and without barriers: a scene for `last`. Each frame begins with a clear.
    frames [N]          8 by 8, eight clients, N (1,000) frames of one triangle each with the depth test: a scene for `last`.
    fill                1024 by 768, 40 full windows, each a textured square of four colours that is blended over what stands (MODULATE, REPEAT).
    plain               1024 by 768, 100 full windows of one colour: what a covered pixel costs.
    smooth              the same with colours that are interpolated.
    tested              the same with the depth test, each window nearer than the one before.
    blended             the same, blended by SRC_ALPHA, ONE_MINUS_SRC_ALPHA.
    small [TRIANGLES]   1024 by 768, one frame of 100,000 triangles of 8 by 8 pixels, a colour for each.
    lone [TRIANGLES]    the same, each triangle a block of its own: what sorting a block takes at least.
    near [TRIANGLES]    version 2, 1024 by 768, one frame of 100,000 triangles of 8 by 9 pixels, a colour for each. Every other one crosses the near plane;
                        what is in front of it is in turn a triangle, and a parallelogram of the same area, which is two pieces.
    front [TRIANGLES]   the same triangles, all in front of the near plane: what they show has the same size at the same places.
    ways                no scene, but the names of the states that `way` draws in, one a line.
    way N               1024 by 768, 40 full windows of four colours in the Nth of these states: no stage, each pair of blend factors, each function
                        of both tests, colour masks, and the same with a texture.
    state               512 by 512, 20,000 small draws with state that changes between them.
    depth               1024 by 768, 2,000 overlapping triangles of some 200 by 200 pixels with depth test, colours interpolated.
    clears [SIDE] [N]   SIDE by SIDE (2,048), N (8) clears and swaps.
    gives [CLIENTS] [N] 8 by 8, CLIENTS (8) clients of N (8,192) operations that give a unit and wait for nobody, and no frame: what synchronisation costs.
    hands [N]           8 by 8, two clients that hand a unit back and forth N (2,048) times by two semaphores, and no frame.
    meets [N]           8 by 8, eight clients that meet at a barrier N (1,024) times, and no frame.
    shows [N]           64 by 48, four clients, N (500) frames of a triangle each.
    mesh [CLIENTS] [N]  1024 by 768, 10 frames of N by N (140) squares over the window, a strip for each row, dealt to the CLIENTS (1) row by row, and a
                        barrier of all clients before each frame.
    commands [N]        one client, N (1,048,576) commands in all: semaphore operations in pairs, the swap last.
    called [N]          version 3, one client, a list of a block of 1,022 colours and vertices, called until it gave N commands. With N as it is, 1,048,577, one
                        more than there may be, the scene is refused as soon as it was expanded.
    written [N]         version 2, the same commands without a list, so that the scene is refused as soon as it was read.

Words after these: `noswap` leaves the swaps out, so nothing is written; `nodraw` puts all vertices at one place, so nothing is covered; `v2` makes the scene
one of version 2.
"""
import argparse
import pathlib
import random
import struct
import sys

sys.path.append(str(pathlib.Path(__file__).resolve().parents[2] / "tools"))

import command_table
from command import Words, number_in

BEGIN, END, VERTEX, COLOR, TEX_COORD, ENABLE, DISABLE, LOAD_MATRIX = 1, 2, 3, 4, 5, 6, 7, 0x0A
ALPHA_FUNC, DEPTH_FUNC, BLEND_FUNC, COLOR_MASK, CLEAR_COLOR, CLEAR = 0x11, 0x12, 0x14, 0x15, 0x16, 0x18
TEX_ENV, TEX_WRAP, TEX_IMAGE, BARRIER, SEM_P, SEM_V, SWAP = 0x1C, 0x1D, 0x1E, 0x21, 0x22, 0x23, 0x24
NEW_LIST, END_LIST, CALL_LIST = 0x25, 0x26, 0x27
TRIANGLES, STRIP = 0, 1
ALPHA_TEST, DEPTH_TEST, BLEND, TEXTURE = 1, 2, 3, 5
SRC_ALPHA, ONE_MINUS_SRC_ALPHA = 6, 7
ONE = 65536


def byte_fields(opcode, *fields):
    return opcode, bytes(fields)


def begin(mode):
    return byte_fields(BEGIN, mode)


END_COMMAND = (END, b"")


def vertex(x, y, z=0, w=ONE):
    return VERTEX, struct.pack("<4i", x, y, z, w)


def color(r, g, b, a=255):
    return byte_fields(COLOR, r, g, b, a)


def tex_coord(s, t):
    return TEX_COORD, struct.pack("<2i", s, t)


def any_color(rng, a=255):
    return color(rng.randrange(256), rng.randrange(256), rng.randrange(256), a)


def stream(commands):
    out = bytearray()
    for i in range(0, len(commands), 1024):
        packet = commands[i : i + 1024]
        out += struct.pack("<H", len(packet)) + bytes(o for o, _ in packet) + b"".join(p for _, p in packet)
    return bytes(out)


def scene(width, height, streams, barriers=(), semaphores=()):
    out = b"RCS1" + struct.pack("<HHBBBB", width, height, len(streams), 0, len(barriers), len(semaphores))
    out += bytes(barriers) + b"".join(struct.pack("<H", units) for units in semaphores)
    for commands in streams:
        data = stream(commands)
        out += struct.pack("<I", len(data)) + data
    return out


def one_client(width, height, commands, swap):
    return scene(width, height, [commands + ([(SWAP, b"")] if swap else [])])


class Corners:
    """Makes vertices, or with `nodraw` vertices at one place."""

    def __init__(self, draw):
        self.draw = draw

    def at(self, x, y, z=0, w=ONE):
        return vertex(x, y, z, w) if self.draw else vertex(0, 0, 0, w)


def strip(rng, y, corners, z=0):
    """A zigzag from the left to the right edge, 5,002 vertices."""
    commands = [begin(STRIP)]
    for i in range(5002):
        x = -ONE + (2 * ONE * i) // 5001
        commands += [any_color(rng), corners.at(x, y + (i % 2) * 12000 + rng.randrange(2000), z)]
    return commands + [END_COMMAND]


def strips(setup):
    """Strips over the window, behind some commands."""

    def make(numbers, swap, corners):
        clients = numbers[0] if numbers else 1
        streams = []
        for c in range(clients):
            rng = random.Random(c)
            commands = list(setup)
            for frame in range(20):
                for row in range(4) if clients == 1 else [c]:
                    commands += strip(rng, -60000 + (row * 28000 + frame * 900) % 110000, corners)
                if clients > 1:
                    commands.append(byte_fields(BARRIER, 1))
                if swap:
                    commands.append((SWAP, b""))
            streams.append(commands)
        return scene(1024, 768, streams, [clients] if clients > 1 else [])

    return make


# Columns of a turn by 3 degrees.
TURN = struct.pack("<16i", 65446, 3430, 0, 0, -3430, 65446, 0, 0, 0, 0, ONE, 0, 0, 0, 0, ONE)


def apart(numbers, swap, corners):
    streams = []
    for c in range(numbers[0] if numbers else 4):
        rng = random.Random(c)
        commands = [byte_fields(ENABLE, DEPTH_TEST)]
        for frame in range(20):
            if c == 0:
                commands.append(byte_fields(CLEAR, 3))
            commands += strip(rng, -60000 + (c * 28000 + frame * 900) % 110000, corners, rng.randrange(-60000, 60000))
            if swap:
                commands.append((SWAP, b""))
        streams.append(commands)
    return scene(1024, 768, streams)


def frames(numbers, swap, corners):
    streams = []
    for c in range(8):
        rng = random.Random(c)
        commands = [byte_fields(ENABLE, DEPTH_TEST)]
        for _ in range(numbers[0] if numbers else 1000):
            if c == 0:
                commands.append(byte_fields(CLEAR, 3))
            commands += [any_color(rng), begin(TRIANGLES)]
            commands += [corners.at(*(rng.randrange(-ONE, ONE) for _ in range(3))) for _ in range(3)] + [END_COMMAND]
            if swap:
                commands.append((SWAP, b""))
        streams.append(commands)
    return scene(8, 8, streams)


def window(corners, colors, z=0, texture=False):
    """A strip of two triangles over the whole window."""
    commands = [begin(STRIP)]
    places = [(-ONE, -ONE), (ONE, -ONE), (-ONE, ONE), (ONE, ONE)]
    for i, (x, y) in enumerate(places):
        commands.append(color(*colors[i % len(colors)]))
        if texture:
            commands.append(tex_coord(4 * x, 3 * y))
        commands.append(corners.at(x, y, z))
    return commands + [END_COMMAND]


FOUR = [(255, 0, 0, 160), (0, 255, 0, 160), (0, 0, 255, 160), (255, 255, 255, 160)]


def fill(numbers, swap, corners):
    rng = random.Random(3)
    texels = bytes(rng.randrange(256) for _ in range(4 * 64 * 64))
    commands = [(TEX_IMAGE, struct.pack("<BHH", 1, 64, 64) + texels), byte_fields(ENABLE, TEXTURE)]
    commands += [byte_fields(ENABLE, BLEND), byte_fields(BLEND_FUNC, SRC_ALPHA, ONE_MINUS_SRC_ALPHA)]
    for _ in range(40):
        commands += window(corners, FOUR, texture=True)
    return one_client(1024, 768, commands, swap)


def windows(setup, colors, nearer=False):
    def make(numbers, swap, corners):
        commands = list(setup)
        for i in range(100):
            commands += window(corners, colors, z=60000 - 1000 * i if nearer else 0)
        return one_client(1024, 768, commands, swap)

    return make


FACTORS, FUNCTIONS = command_table.FACTORS.split(), command_table.FUNCTIONS.split()


def blending(first, second):
    return [byte_fields(ENABLE, BLEND), byte_fields(BLEND_FUNC, first, second)]


def texturing(environment, wrap):
    rng = random.Random(3)
    texels = bytes(rng.randrange(256) for _ in range(4 * 64 * 64))
    image = (TEX_IMAGE, struct.pack("<BHH", 1, 64, 64) + texels)
    return [image, byte_fields(ENABLE, TEXTURE), byte_fields(TEX_ENV, environment), byte_fields(TEX_WRAP, wrap, wrap)]


def state_table():
    """The states of `way`: name, commands that set the state, whether there is a texture."""
    plain = [("no stage", [], False)]
    pairs = [(f"{first}, {second}", blending(a, b), False) for a, first in enumerate(FACTORS) for b, second in enumerate(FACTORS)]
    tests = [(f"depth {FUNCTIONS[f]}", [byte_fields(ENABLE, DEPTH_TEST), byte_fields(DEPTH_FUNC, f)], False) for f in range(8)]
    alpha = [byte_fields(ENABLE, ALPHA_TEST)]
    tests += [(f"alpha {FUNCTIONS[f]}", alpha + [byte_fields(ALPHA_FUNC, f, 160)], False) for f in range(8)]
    tests += [("alpha GREATER, depth LESS", alpha + [byte_fields(ALPHA_FUNC, 4, 100), byte_fields(ENABLE, DEPTH_TEST)], False)]
    flags = [tuple(n >> bit & 1 for bit in range(4)) for n in range(15)]
    masks = [("mask " + "".join(map(str, f)), [byte_fields(COLOR_MASK, *f)], False) for f in flags]
    masks += [("mask 1010, SRC_ALPHA, ONE_MINUS_SRC_ALPHA", blending(6, 7) + [byte_fields(COLOR_MASK, 1, 0, 1, 0)], False)]
    textured = []
    for name, environment, wrap in (("MODULATE", 0, 0), ("REPLACE", 1, 0), ("MODULATE by CLAMP", 0, 1)):
        setup = texturing(environment, wrap)
        textured.append((f"texture {name}", setup, True))
        textured += [(f"texture {name}, {FACTORS[a]}, {FACTORS[b]}", setup + blending(a, b), True) for a, b in ((6, 7), (6, 1), (4, 0), (1, 7))]
        textured.append((f"texture {name}, alpha GREATER", setup + alpha + [byte_fields(ALPHA_FUNC, 4, 100)], True))
    return plain + pairs + tests + masks + textured


def way(numbers, swap, corners):
    name, setup, texture = state_table()[numbers[0]]
    commands = list(setup)
    for i in range(40):
        commands += window(corners, FOUR, z=60000 - 1000 * i, texture=texture)
    return one_client(1024, 768, commands, swap)


def triangles_of(a_block):
    """Small triangles, so many a block."""

    def make(numbers, swap, corners):
        count = numbers[0] if numbers else 100_000
        rng = random.Random(7)
        wide, high = 16 * ONE // 1024, 16 * ONE // 768
        commands = []
        for first in range(0, count, a_block):
            commands.append(begin(TRIANGLES))
            for _ in range(min(a_block, count - first)):
                x, y = rng.randrange(-ONE, ONE - wide), rng.randrange(-ONE, ONE - high)
                commands += [any_color(rng), corners.at(x, y), corners.at(x + wide, y), corners.at(x, y + high)]
            commands.append(END_COMMAND)
        return one_client(1024, 768, commands, swap)

    return make


# The near plane stands at w = 256, so an edge from w = 512 to w = 0 crosses it in its middle: from (x, y, 512) to (p, q, 0) at ((x + p) / 2, (y + q) / 2, 256),
# which is seen (p, q) / 512 of the half window beside (x, y, 512).
FRONT, BEHIND = 512, 0


def crossing_triangle(number, x, y, wide, high):
    """The corners of a triangle that crosses the near plane, and shows a right triangle or a parallelogram of so many 512ths of the half window."""
    if number % 2 == 0:
        return [(x, y, FRONT), (wide, 0, BEHIND), (0, high, BEHIND)]
    return [(x, y, FRONT), (x + wide, y, FRONT), (0, high // 2, BEHIND)]


def mixed(crosses):
    """Small triangles, every other one across the near plane where `crosses` says so."""

    def make(numbers, swap, corners):
        count = numbers[0] if numbers else 100_000
        rng = random.Random(7)
        # 8 by 9 pixels, at even places, so that crossings are exact
        wide, high = 8, 12
        commands = []
        for first in range(0, count, 5000):
            commands.append(begin(TRIANGLES))
            for number in range(first, min(first + 5000, count)):
                x, y = rng.randrange(-FRONT, FRONT - wide, 2), rng.randrange(-FRONT, FRONT - high, 2)
                places = [(x, y, FRONT), (x + wide, y, FRONT), (x, y + high, FRONT)]
                if crosses and number % 2 == 0:
                    places = crossing_triangle(number // 2, x, y, wide, high)
                commands.append(any_color(rng))
                commands += [corners.at(px, py, 0, w) for px, py, w in places]
            commands.append(END_COMMAND)
        return one_client(1024, 768, commands, swap)

    return make


# Which of depth test, blending and texturing are on; depth function; blend factors; environment.
STATES = [
    ((), 1, (1, 0), 0),
    ((DEPTH_TEST,), 1, (1, 0), 0),
    ((DEPTH_TEST,), 3, (1, 0), 0),
    ((BLEND,), 1, (6, 7), 0),
    ((BLEND,), 1, (1, 1), 0),
    ((TEXTURE,), 1, (1, 0), 1),
    ((TEXTURE,), 1, (1, 0), 0),
    ((TEXTURE, BLEND), 1, (6, 7), 0),
    ((TEXTURE, DEPTH_TEST), 3, (1, 0), 1),
    ((DEPTH_TEST, BLEND), 3, (6, 7), 0),
]


def state(numbers, swap, corners):
    rng = random.Random(11)
    texels = bytes(rng.randrange(256) for _ in range(4 * 16 * 16))
    commands = [(TEX_IMAGE, struct.pack("<BHH", 1, 16, 16) + texels)]
    for _ in range(20_000):
        on, function, factors, environment = rng.choice(STATES)
        for capability in (DEPTH_TEST, BLEND, TEXTURE):
            commands.append(byte_fields(ENABLE if capability in on else DISABLE, capability))
        commands += [byte_fields(DEPTH_FUNC, function), byte_fields(BLEND_FUNC, *factors), byte_fields(TEX_ENV, environment)]
        x, y = rng.randrange(-ONE, ONE - 4000), rng.randrange(-ONE, ONE - 4000)
        commands.append(begin(TRIANGLES))
        for dx, dy in ((0, 0), (4000, 0), (0, 4000)):
            commands += [any_color(rng), tex_coord(16 * dx, 16 * dy), corners.at(x + dx, y + dy, rng.randrange(-ONE, ONE))]
        commands.append(END_COMMAND)
    return one_client(512, 512, commands, swap)


def depth(numbers, swap, corners):
    rng = random.Random(5)
    commands = [byte_fields(ENABLE, DEPTH_TEST), begin(TRIANGLES)]
    for _ in range(2000):
        x, y = rng.randrange(-ONE, ONE), rng.randrange(-ONE, ONE)
        for dx, dy in ((0, 0), (25600, 0), (0, 34133)):
            commands += [any_color(rng), corners.at(x + dx, y + dy, rng.randrange(-ONE, ONE))]
    return one_client(1024, 768, commands + [END_COMMAND], swap)


def clears(numbers, swap, corners):
    side = numbers[0] if numbers else 2048
    count = numbers[1] if len(numbers) > 1 else 8
    commands = []
    for i in range(count):
        commands += [byte_fields(CLEAR_COLOR, i * 30 % 256, 40, 200, 255), byte_fields(CLEAR, 3)]
        if swap:
            commands.append((SWAP, b""))
    return scene(side, side, [commands])


def commands_only(numbers, swap, corners):
    count = numbers[0] if numbers else 1_048_576
    pair = [byte_fields(SEM_V, 1), byte_fields(SEM_P, 1)]
    commands = (pair * ((count + 1) // 2))[: count - 1]
    return scene(1, 1, [commands + [(SWAP, b"")]], semaphores=[0])


def gives(numbers, swap, corners):
    clients = numbers[0] if numbers else 8
    count = numbers[1] if len(numbers) > 1 else 8_192
    return scene(8, 8, [[byte_fields(SEM_V, 1)] * count] * clients, semaphores=[0])


def hands(numbers, swap, corners):
    count = numbers[0] if numbers else 2_048
    first = [byte_fields(SEM_V, 1), byte_fields(SEM_P, 2)] * count
    second = [byte_fields(SEM_P, 1), byte_fields(SEM_V, 2)] * count
    return scene(8, 8, [first, second], semaphores=[0, 0])


def meets(numbers, swap, corners):
    return scene(8, 8, [[byte_fields(BARRIER, 1)] * (numbers[0] if numbers else 1_024)] * 8, [8])


def shows(numbers, swap, corners):
    streams = []
    for c in range(4):
        rng = random.Random(c)
        commands = []
        for _ in range(numbers[0] if numbers else 500):
            commands += [any_color(rng), begin(TRIANGLES)]
            commands += [corners.at(*(rng.randrange(-ONE, ONE) for _ in range(2))) for _ in range(3)] + [END_COMMAND]
            if swap:
                commands.append((SWAP, b""))
        streams.append(commands)
    return scene(64, 48, streams)


def mesh(numbers, swap, corners):
    clients = numbers[0] if numbers else 1
    side = numbers[1] if len(numbers) > 1 else 140
    step = 2 * ONE // side
    streams = []
    for c in range(clients):
        rng = random.Random(c)
        commands = []
        for frame in range(10):
            commands.append(byte_fields(BARRIER, 1))
            for row in range(c, side, clients):
                y = -ONE + row * step
                commands.append(begin(STRIP))
                for i in range(side + 1):
                    x = -ONE + i * step
                    commands += [any_color(rng), corners.at(x, y), corners.at(x, y + step, frame)]
                commands.append(END_COMMAND)
            if swap:
                commands.append((SWAP, b""))
        streams.append(commands)
    return scene(1024, 768, streams, [clients])


def listed(calls):
    """A block that a list gives over and over, and so many commands more as are due; or the same commands written out."""

    def make(numbers, swap, corners):
        count = numbers[0] if numbers else 1_048_577
        rng = random.Random(13)
        block = [begin(STRIP)]
        for _ in range(511):
            block += [any_color(rng), corners.at(rng.randrange(-ONE, ONE), rng.randrange(-ONE, ONE))]
        block.append(END_COMMAND)
        times, rest = divmod(count, len(block))
        recorded = [byte_fields(NEW_LIST, 1), *block, (END_LIST, b""), *[byte_fields(CALL_LIST, 1)] * times]
        return scene(8, 8, [(recorded if calls else block * times) + [color(1, 2, 3)] * rest])

    return make


SCENES = {
    "usual": strips([]),
    "turned": strips([(LOAD_MATRIX, TURN)]),
    "apart": apart,
    "frames": frames,
    "fill": fill,
    "plain": windows([], [(40, 90, 200)]),
    "smooth": windows([], FOUR),
    "tested": windows([byte_fields(ENABLE, DEPTH_TEST)], FOUR, nearer=True),
    "blended": windows([byte_fields(ENABLE, BLEND), byte_fields(BLEND_FUNC, SRC_ALPHA, ONE_MINUS_SRC_ALPHA)], FOUR),
    "way": way,
    "small": triangles_of(5000),
    "lone": triangles_of(1),
    "near": mixed(True),
    "front": mixed(False),
    "state": state,
    "depth": depth,
    "clears": clears,
    "gives": gives,
    "hands": hands,
    "meets": meets,
    "shows": shows,
    "mesh": mesh,
    "commands": commands_only,
    "called": listed(True),
    "written": listed(False),
}
CLIENTS, SIDE, COUNT = number_in(0, 255), number_in(0, 65535), number_in(0, 999_999_999)
# The numbers that a scene may have behind its name; another one has none.
NUMBERS = {
    **dict.fromkeys(("usual", "turned", "apart"), [CLIENTS]),
    **dict.fromkeys(("frames", "small", "lone", "near", "front", "hands", "meets", "shows", "commands", "called", "written"), [COUNT]),
    "way": [number_in(0, len(state_table()) - 1)],
    "clears": [SIDE, COUNT],
    "gives": [CLIENTS, COUNT],
    "mesh": [CLIENTS, number_in(1, 999_999_999)],
}
# The scenes of another version than 1.
VERSIONS = {"near": b"2", "front": b"2", "called": b"3", "written": b"2"}


def words():
    """The scene's name, its numbers, and the words that change it."""
    parser = Words(__doc__)
    parser.add_argument("name", metavar="NAME", help="the scene")
    parser.add_argument("words", metavar="WORD", nargs="*", default=[], help="its numbers, and noswap, nodraw, v2")
    args = parser.parse_args()
    given = [args.name, *args.words]
    options = {word for word in given if word in ("noswap", "nodraw", "v2")}
    name, *numbers = [word for word in given if word not in options] or [given[0]]
    if name not in [*SCENES, "ways"]:
        parser.error(f"there is no scene {name!r}")
    due = NUMBERS.get(name, [])
    if len(numbers) > len(due):
        parser.error(f"{numbers[len(due)]!r} is a word too many for {name}")
    if name == "way" and not numbers:
        parser.error("way wants the number of its state")
    try:
        return name, [read(word) for read, word in zip(due, numbers)], options
    except argparse.ArgumentTypeError as fault:
        parser.error(f"{name}: {fault}")


def main():
    name, numbers, options = words()
    if name == "ways":
        print("\n".join(name for name, _, _ in state_table()))
        return
    data = SCENES[name](numbers, "noswap" not in options, Corners("nodraw" not in options))
    # the digit of the version; all else is spelled as in version 1
    digit = VERSIONS.get(name, b"2" if "v2" in options else b"1")
    sys.stdout.buffer.write(data[:3] + digit + data[4:])


if __name__ == "__main__":
    main()
