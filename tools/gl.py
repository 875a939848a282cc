#!/usr/bin/env python3
"""Writes scenes: a library of calls as OpenGL 1.x has them, in Python.

    import gl

    scene = gl.Scene(320, 240)
    client = scene.client()
    client.clear_color(0.1, 0.1, 0.2)
    client.clear()
    client.perspective(45, 320 / 240, 0.1, 100)
    client.translate(0, 0, -3)
    client.rotate(30, 0, 1, 0)
    client.begin(gl.QUADS)
    for x, y in ((-1, -1), (1, -1), (1, 1), (-1, 1)):
        client.color(x, y, 1)
        client.vertex(x, y)
    client.end()
    client.swap()
    scene.save("picture.txt")       # as text; as bytes where the name ends with .rcs

Positions, matrices, texture coordinates and depths are numbers as OpenGL has them, and are written
in 16.16 fixed point. Colours go from 0 to 1, angles are degrees. What the program has no command
for is made of those it has: QUADS, QUAD_STRIP and POLYGON of triangles, rotate and its like of
MultMatrix. What a scene would refuse is a ValueError at the call that makes it, with its reason.

It is imported from tools/, where it stands: `PYTHONPATH=tools python3 mine.py`, or
sys.path.append("/path/to/tools") before the import. examples/cube.py is a whole program.

    python3 tools/gl.py             tells the calls
"""
import contextlib
import inspect
import math
import struct

import command
import command_table
import gl_calls
import ranges
import reasons
from gl_matrices import (  # noqa: F401 (a part of them is for those who import this)
    frustum_matrix,
    identity,
    look_at_matrix,
    multiplied,
    orthographic_matrix,
    perspective_matrix,
    rotation,
    scaling,
    translation,
)
import scene_faults
import scene_forms
import scene_lists
from scene_bytes import (
    Refused,
    Scene as Spelled,
    print_line,
    told_refusal,
)

ONE = 65536
TRIANGLES, TRIANGLE_STRIP, TRIANGLE_FAN = range(3)
QUADS, QUAD_STRIP, POLYGON = "quads", "quad strip", "polygon"
MODELVIEW, PROJECTION = range(2)
PRIVATE, SHARED = range(2)
# These are used below; here are all codes by their names, but for the factor ONE.
OTHER_NAMES = {"ONE": "SOURCE_ONE"}
globals().update((OTHER_NAMES.get(name, name), code) for name, code in command_table.constants())


def fixed(number):
    """A number in 16.16 fixed point."""
    try:
        made = round(number * ONE)
    except (OverflowError, ValueError):
        made = 2**31
    if not -(2**31) <= made < 2**31:
        raise ValueError(f"{number} doesn't fit 16.16 fixed point, which goes from -32768 to 32768")
    return made


def channel(share):
    """A share from 0 to 1 as a byte; what lies outside is held to the ends."""
    return round(255 * min(max(share, 0), 1))


def texel_bytes(width, height, texels):
    """Texels row by row, as bytes or as one (r, g, b[, a]) of bytes for each; row 0 is at t = 0."""
    if not isinstance(texels, (bytes, bytearray)):
        texels = b"".join(bytes([*texel, 255][:4]) for texel in texels)
    if len(texels) != 4 * width * height:
        raise ValueError(
            f"{width} by {height} texels have {4 * width * height} bytes, and not {len(texels)}"
        )
    return bytes(texels)


# ---- a client's calls


class Client:
    """One client's stream of commands. The calls that aren't written here are made by gl_calls.py.
    """

    def __init__(self, scene):
        self.scene, self.commands, self.shape, self.corners = scene, [], None, []
        self.now, self.written = {}, {}
        self.judge, self.lists, self.record = reasons.Judge(scene), {}, None

    def issue(self, name, *numbers, texels=b""):
        """Any command by its name, with its numbers as the program has them."""
        try:
            made = scene_forms.command(name, *numbers, texels=texels)
            scene_forms.LAYOUTS[made[0]].pack(*numbers)
        except (KeyError, struct.error):
            words = " ".join(map(str, (name, *numbers)))
            raise ValueError(f"{words[:80]}: no command has this name and these numbers") from None
        if self.shape is not None:
            raise ValueError(f"{name} inside a block: end() it first")
        reason = self._judge(name, made)
        if reason:
            raise ValueError(f"{' '.join(map(str, (name, *numbers)))[:80]}: {reason}")
        self.commands.append(made)

    def _judge(self, name, made):
        """Why the scene would refuse a command here, or None; its context has it then."""
        if made[0] not in scene_forms.OPCODES.values():
            return self._judge_list(name, made)
        if self.record is not None:
            reason = self.judge.judge_recorded(name, made[1])
            self.record[1].extend([] if reason else [made])
            return reason
        told = self.judge.issue(len(self.commands), made)
        return told and told[1]

    def _judge_list(self, name, made):
        """The same of a list command."""
        if self.scene.version != 3:
            return "call lists are of version 3: gl.Scene(width, height, version=3)"
        began = None if self.record is None else f"recording({self.record[0]})"
        if scene_lists.fault_of(made, began is not None):
            return reasons.list_reason(made, began)
        if name == "NewList":
            self.record = made[1][0], []
        elif name == "EndList":
            self.lists[self.record[0]], self.record = self.record[1], None
        elif began:
            self.record[1].append(made)
        else:
            return self._judge_call(made[1][0])
        return None

    def _judge_call(self, name):
        """Why the scene would refuse a command of a list that is called here, or None."""
        count, cost = scene_lists.sizes(self.lists, name, 1, {})
        for limit, value in (("commands", count), ("expansion", cost)):
            if value > ranges.RANGES[limit][1]:
                return f"limit {limit} {value}: {ranges.told(limit)}"
        judge = self.judge.copy()
        for placed in scene_lists.given(self.lists, name, 1, {}):
            told = judge.issue(len(self.commands), placed)
            if told:
                return f"{scene_forms.ALL_COMMANDS[placed[0]][0]} of it is refused: {told[1]}"
        self.judge = judge
        return None

    # blocks

    def begin(self, mode):
        """Opens a block of TRIANGLES, TRIANGLE_STRIP, TRIANGLE_FAN, QUADS, QUAD_STRIP or POLYGON.
        """
        if self.shape is not None:
            raise ValueError("begin inside a block")
        self.shape, self.corners = mode, []

    def vertex(self, x, y, z=0.0, w=1.0):
        """A vertex, with the colour and the texture coordinates that are current."""
        if self.shape is None:
            raise ValueError("vertex outside a block")
        count = len(self.corners) + 1
        if (count // 4 * 6 if self.shape == QUADS else count) > scene_faults.MOST_VERTICES:
            more = " (a quad has six)" if self.shape == QUADS else ""
            raise ValueError(f"a block has at most {scene_faults.MOST_VERTICES} vertices{more}")
        self.corners.append(([fixed(n) for n in (x, y, z, w)], dict(self.now)))

    def end(self):
        """Draws the block."""
        if self.shape is None:
            raise ValueError("end without begin")
        shape, corners = self.shape, self.corners
        self.shape = None
        if shape == QUADS:
            # two triangles of each four corners
            corners = [
                corners[4 * quad + at]
                for quad in range(len(corners) // 4)
                for at in (0, 1, 2, 0, 2, 3)
            ]
        mode = {QUADS: TRIANGLES, QUAD_STRIP: TRIANGLE_STRIP, POLYGON: TRIANGLE_FAN}.get(
            shape, shape
        )
        self.issue("Begin", mode)
        for position, now in corners:
            self._write_current(now)
            self.issue("Vertex", *position)
        self.issue("End")
        self._write_current(self.now)

    def _write_current(self, now):
        """Colour and texture coordinates, where they differ from those that were written last."""
        for name, numbers in now.items():
            if self.written.get(name) != numbers:
                self.issue(name, *numbers)
                self.written[name] = numbers

    @contextlib.contextmanager
    def block(self, mode):
        """`with client.block(gl.QUADS):` begins a block and ends it."""
        self.begin(mode)
        yield self
        self.end()

    def _set_current(self, name, numbers):
        self.now[name] = numbers
        if self.shape is None:
            self._write_current(self.now)

    def color(self, r, g, b, a=1.0):
        """The current colour."""
        self._set_current("Color", tuple(channel(share) for share in (r, g, b, a)))

    def tex_coord(self, s, t):
        """The current texture coordinates: 0 to 1 is the whole image."""
        self._set_current("TexCoord", (fixed(s), fixed(t)))

    def line(self, first, second, width):
        """A line from (x, y) to (x, y) as a strip of this width, in the plane."""
        (x0, y0), (x1, y1) = first, second
        length = math.hypot(x1 - x0, y1 - y0) or 1.0
        dx, dy = (y0 - y1) / length * width / 2, (x1 - x0) / length * width / 2
        with self.block(TRIANGLE_STRIP):
            for x, y in (
                (x0 - dx, y0 - dy),
                (x1 - dx, y1 - dy),
                (x0 + dx, y0 + dy),
                (x1 + dx, y1 + dy),
            ):
                self.vertex(x, y)

    # matrices

    def matrix_mode(self, mode):
        """Which matrix is meant: MODELVIEW or PROJECTION."""
        self.issue("MatrixMode", mode)

    def load_matrix(self, numbers):
        """16 numbers by columns in place of the matrix."""
        self.issue("LoadMatrix", *map(fixed, numbers))

    def multiply(self, numbers):
        """The matrix times these 16 numbers by columns."""
        self.issue("MultMatrix", *map(fixed, numbers))

    @contextlib.contextmanager
    def pushed(self):
        """`with client.pushed():` keeps the matrix."""
        self.push()
        yield self
        self.pop()

    def translate(self, x, y, z=0.0):
        self.multiply(translation(x, y, z))

    def scale(self, x, y, z=1.0):
        self.multiply(scaling(x, y, z))

    def rotate(self, degrees, x=0.0, y=0.0, z=1.0):
        """Around an axis, counterclockwise as seen from its end."""
        self.multiply(rotation(degrees, x, y, z))

    def project(self, numbers):
        """16 numbers as the projection; the modelview is meant behind it."""
        self.matrix_mode(PROJECTION)
        self.load_matrix(numbers)
        self.matrix_mode(MODELVIEW)

    def perspective(self, degrees, aspect, near, far):
        """The projection: so many degrees from the bottom to the top; aspect is width by height."""
        self.project(perspective_matrix(degrees, aspect, near, far))

    def frustum(self, left, right, bottom, top, near, far):
        """The projection of a frustum."""
        self.project(frustum_matrix(left, right, bottom, top, near, far))

    def orthographic(self, left, right, bottom, top, near=-1.0, far=1.0):
        """The projection of a box."""
        self.project(orthographic_matrix(left, right, bottom, top, near, far))

    def look_at(self, eye, centre, up=(0.0, 1.0, 0.0)):
        """The modelview times that of an eye at one point that looks at another one."""
        self.multiply(look_at_matrix(eye, centre, up))

    # state

    def enable(self, *capabilities):
        """SCISSOR, ALPHA, DEPTH, BLEND, CULL, TEXTURE."""
        for capability in capabilities:
            self.issue("Enable", capability)

    def disable(self, *capabilities):
        for capability in capabilities:
            self.issue("Disable", capability)

    # textures

    def tex_image(self, name, width, height, texels):
        """The image of private texture `name`, 1 to 64: bytes r, g, b, a, or (r, g, b[, a]) of
        bytes for each texel.
        """
        self.issue("TexImage", name, width, height, texels=texel_bytes(width, height, texels))

    def tex_part(self, name, x, y, width, height, texels):
        """A part of the image of private texture `name`."""
        self.issue("TexPart", name, x, y, width, height, texels=texel_bytes(width, height, texels))

    def shared_image(self, name, x, y, width, height, texels):
        """A part of shared texture `name`."""
        self.issue(
            "SharedImage", name, x, y, width, height, texels=texel_bytes(width, height, texels)
        )

    def bind_texture(self, name, kind=PRIVATE):
        """Which texture is drawn with: a PRIVATE one or a SHARED one."""
        self.issue("BindTexture", kind, name)

    # call lists: a scene of version 3

    @contextlib.contextmanager
    def recording(self, name):
        """`with client.recording(1):` records list 1. What is current when it is called isn't known
        while it is recorded.
        """
        self.issue("NewList", name)
        self.written = {}
        yield self
        self.issue("EndList")
        self.written = {}

    def call(self, name):
        """Calls a list."""
        self.issue("CallList", name)
        self.written = {}


gl_calls.add_calls(Client, {"fixed": fixed, "share": channel, "flag": int})


def judge_ranges(**quantities):
    """Quantities of a scene, by their names in docs/scene-format.md, lie in their ranges."""
    for name, value in quantities.items():
        plain = name.replace("_", " ")
        least, most = ranges.RANGES[plain]
        if not isinstance(value, int) or not least <= value <= most:
            raise ValueError(f"{plain} {value}: {ranges.told(plain)}")


class Scene:
    """A window, what its clients share, and their streams."""

    def __init__(self, width, height, version=2):
        if version not in (1, 2, 3):
            raise ValueError(f"version {version!r} isn't 1, 2 or 3")
        judge_ranges(width=width, height=height)
        self.width, self.height, self.version = width, height, version
        self.shared, self.barriers, self.semaphores, self.clients = [], [], [], []

    def client(self):
        """A new client."""
        judge_ranges(clients=len(self.clients) + 1)
        self.clients.append(Client(self))
        return self.clients[-1]

    def shared_texture(self, width, height):
        """Declares a shared texture, and gives its name."""
        judge_ranges(shared_side=width)
        judge_ranges(shared_side=height, shared_textures=len(self.shared) + 1)
        judge_ranges(shared_texels=width * height + sum(w * h for w, h in self.shared))
        self.shared.append((width, height))
        return len(self.shared)

    def barrier(self, count):
        """Declares a barrier of so many clients, and gives its name."""
        judge_ranges(barrier_count=count, barriers=len(self.barriers) + 1)
        self.barriers.append(count)
        return len(self.barriers)

    def semaphore(self, units=0):
        """Declares a semaphore with its first units, and gives its name."""
        judge_ranges(semaphores=len(self.semaphores) + 1)
        if not isinstance(units, int) or not 0 <= units <= 65535:
            raise ValueError(f"units {units}: 0 to 65535")
        self.semaphores.append(units)
        return len(self.semaphores)

    def spelled(self):
        """The scene as tools/scene_bytes.py has it, where its quantities are in their ranges."""
        for number, client in enumerate(self.clients):
            if client.shape is not None:
                raise ValueError(f"client {number} ends inside a block")
        streams = [client.commands for client in self.clients]
        made = Spelled(
            self.width,
            self.height,
            self.shared,
            self.barriers,
            self.semaphores,
            streams,
            self.version,
        )
        try:
            scene_forms.judge(made)
        except Refused as refused:
            raise ValueError(told_refusal(refused)) from None
        return made

    def bytes(self):
        """The scene's bytes."""
        return scene_forms.scene_bytes(self.spelled())

    def text(self, *comments):
        """The scene's text, with comments in front. One of version 3 is for tools/pack.py."""
        made = self.spelled()
        lines = [f"# {comment}" for comment in comments] + [
            f"scene {made.version} {made.width} {made.height}"
        ]
        lines += [f"shared {w} {h}" for w, h in made.shared] + [
            f"barrier {count}" for count in made.barriers
        ]
        lines += [f"semaphore {units}" for units in made.semaphores]
        for stream in made.streams:
            lines += ["client", *map(print_line, stream)]
        return "\n".join(lines) + "\n"

    def save(self, path):
        """Writes the scene: as bytes where the name ends with .rcs, else as text."""
        data = self.bytes() if str(path).endswith(".rcs") else self.text().encode()
        command.write_file(path, data)


def told_calls(kind):
    """The calls of a class, with what each takes and does."""
    for name, call in vars(kind).items():
        if not name.startswith("_") and inspect.isfunction(inspect.unwrap(call)):
            words = ", ".join(
                str(word) for word in list(inspect.signature(call).parameters.values())[1:]
            )
            page = inspect.getdoc(call) or ""
            yield f"    {f'{name}({words})':<52} {page}".rstrip()


def main():
    command.Words(__doc__).parse_args()
    for title, kind in (("a scene", Scene), ("a client", Client)):
        print(f"{title}:")
        print("\n".join(told_calls(kind)))


if __name__ == "__main__":
    command.run(main)
