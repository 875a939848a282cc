"""Vertices: between glBegin and glEnd, from arrays of the program's memory, and from buffers."""
import re
import struct

from .drawing import draw
from .faults import Refused
from .limits import MOST_BUFFER, MOST_GIVEN
from .shading import Run
from .texture_calls import as_bytes

TYPES = {"GL_FLOAT": "f", "GL_DOUBLE": "d", "GL_INT": "i", "GL_UNSIGNED_INT": "I", "GL_SHORT": "h",
         "GL_UNSIGNED_SHORT": "H", "GL_BYTE": "b", "GL_UNSIGNED_BYTE": "B"}
WHOLE = {"b": 127, "B": 255, "h": 32767, "H": 65535, "i": 2147483647, "I": 4294967295}
ELEMENTS = "GL_ELEMENT_ARRAY_BUFFER"
SCALED = ("GL_COLOR_ARRAY", "GL_NORMAL_ARRAY")
# What an element of an array has where the array gives fewer numbers.
FILLED = {"GL_VERTEX_ARRAY": (0.0, 0.0, 0.0, 1.0), "GL_COLOR_ARRAY": (0.0, 0.0, 0.0, 1.0),
          "GL_NORMAL_ARRAY": (0.0, 0.0, 1.0), "GL_TEXTURE_COORD_ARRAY": (0.0, 0.0, 0.0, 1.0)}
# What the letters of an interleaved form stand for: its arrays follow one another in its name.
ARRAYS = {"T": "GL_TEXTURE_COORD_ARRAY", "C": "GL_COLOR_ARRAY", "N": "GL_NORMAL_ARRAY",
          "V": "GL_VERTEX_ARRAY"}
INTERLEAVED = re.compile("([TCNV])([234])(F|UB)")


class VertexCalls:
    """What a machine does at these calls."""

    def begin_vertices(self):
        self.open, self.buffers, self.bound, self.client_unit = None, {}, {}, 0
        self.buffered, self.mapped = 0, {}

    # -- one by one --

    def do_Begin(self, mode):
        self.open = Run(mode) if self.wanted else None
        if self.open is not None:
            self.open.materials.append((0, self.values["front"], self.values["back"]))

    def do_Vertex(self, x, y, z=0.0, w=1.0):
        run = self.open
        if run is not None:
            values = self.values
            run.points.append((x, y, z, w))
            run.normals.append(values["normal"])
            run.colors.append(values["color"])
            run.coordinates.append(values["coordinate"])

    def do_End(self):
        run, self.open = self.open, None
        if run is not None and run.points:
            if len(run.materials) == 1:
                run.materials = []
            if run.mode == "GL_QUADS" and len(run.points) == 4 and self.values["shade"] != "GL_FLAT":
                run.mode = "GL_POLYGON"     # by which Mesa draws a single one
            self.draw_filled(run)

    def do_Rect(self, left, low, right, high):
        self.do_Begin("GL_POLYGON")
        for x, y in ((left, low), (right, low), (right, high), (left, high)):
            self.do_Vertex(x, y)
        self.do_End()

    def draw_run(self, run):
        """Draws a run of a list or of arrays. One of a list leaves its last values current; arrays
        leave what is current as it was, in a list too, as Mesa has it."""
        values = self.values
        if self.wanted:
            filled = Run(run.mode)
            filled.points = run.points
            filled.normals = filled_up(run.normals, values["normal"])
            filled.colors = filled_up(run.colors, values["color"])
            filled.coordinates = filled_up(run.coordinates, values["coordinate"])
            self.draw_filled(filled)
        if run.of_arrays:
            return
        for name, column in (("normal", run.normals), ("color", run.colors),
                             ("coordinate", run.coordinates)):
            if column[-1] is not None:
                values[name] = column[-1]

    def draw_filled(self, run):
        setting = self.now()
        if self.values["framebuffer"]:
            self.notes.weigh("left out", "what is drawn into a frame buffer object",
                             len(run.points))
        elif setting is not None:
            self.vertices += len(run.points)
            self.drawing, self.concerns = len(run.points), []
            for kind, what in setting.concerns(run.mode):
                self.concern(kind, what)
            draw(self, setting, run)

    # -- arrays --

    def pointer(self, name, size, kind, stride, data):
        blob = as_bytes(data)
        self.context.arrays[name] = (size, kind, stride, data if blob is None else blob,
                                     self.bound.get("GL_ARRAY_BUFFER", 0))

    def do_NormalPointer(self, *array):
        self.pointer("GL_NORMAL_ARRAY", 3, *array)

    def do_VertexPointer(self, *array):
        self.pointer("GL_VERTEX_ARRAY", *array)

    def do_ColorPointer(self, *array):
        self.pointer("GL_COLOR_ARRAY", *array)

    def do_TexCoordPointer(self, *array):
        if not self.client_unit:
            self.pointer("GL_TEXTURE_COORD_ARRAY", *array)

    def do_InterleavedArrays(self, form, stride, data):
        """The pointers of a form such as GL_T2F_C4UB_V3F, and which arrays are on."""
        parts = [INTERLEAVED.fullmatch(part).groups() for part in form[3:].split("_")]
        sizes = [int(count) * (1 if kind == "UB" else 4) for _, count, kind in parts]
        blob, at = as_bytes(data), 0
        for name in FILLED:
            self.do_EnableClientState(name, False)
        for (letter, count, kind), size in zip(parts, sizes):
            name = ARRAYS[letter]
            if not (self.client_unit and name == "GL_TEXTURE_COORD_ARRAY"):
                self.pointer(name, int(count), "GL_UNSIGNED_BYTE" if kind == "UB" else "GL_FLOAT",
                             stride or sum(sizes), data + at if blob is None else blob[at:])
                self.do_EnableClientState(name)
            at += size

    def do_ClientActiveTexture(self, name):
        self.client_unit = int(name != "GL_TEXTURE0")

    def do_EnableClientState(self, name, on=True):
        if not (self.client_unit and name == "GL_TEXTURE_COORD_ARRAY"):
            self.context.arrays["on", name] = on

    def do_DisableClientState(self, name):
        self.do_EnableClientState(name, False)

    def do_BindBuffer(self, target, name):
        self.bound[target] = name

    def do_BindVertexArray(self, name):
        context = self.context
        context.vertex_arrays[context.vertex_array] = (context.arrays, self.bound.get(ELEMENTS, 0))
        context.vertex_array = name
        context.arrays, self.bound[ELEMENTS] = context.vertex_arrays.get(name, ({}, 0))

    def do_BufferData(self, target, size, data, usage):
        name = self.bound.get(target, 0)
        self.buffered += size - len(self.buffers.get(name, b""))
        if not 0 <= self.buffered <= MOST_BUFFER:
            raise Refused(f"buffers of more than {MOST_BUFFER} bytes")
        self.buffers[name] = (as_bytes(data) or b"")[:size].ljust(size, b"\0")

    def do_BufferSubData(self, target, offset, size, data):
        name, data = self.bound.get(target, 0), as_bytes(data)
        whole = bytearray(self.buffers.get(name, b""))
        if data is None or not 0 <= offset <= offset + len(data) <= len(whole):
            self.notes.left_out("glBufferSubData")
            return
        whole[offset:offset + len(data)] = data
        self.buffers[name] = bytes(whole)

    # -- buffers as memory: apitrace writes what a program puts there as copies --

    def do_MapBuffer(self, target, access, place):
        self.do_MapBufferRange(target, 0, None, access, place)

    def do_MapBufferRange(self, target, offset, length, access, place):
        name = self.bound.get(target, 0)
        if isinstance(place, int) and place and name in self.buffers:
            size = len(self.buffers[name]) - offset if length is None else length
            self.mapped[target] = (name, place, offset, size)

    def do_UnmapBuffer(self, target):
        self.mapped.pop(target, None)

    def copy_memory(self, place, data, size):
        data = as_bytes(data)
        for name, start, offset, length in self.mapped.values():
            at = offset + place - start
            if data is not None and start <= place and place + len(data) <= start + length \
                    and at + len(data) <= len(self.buffers[name]):
                whole = self.buffers[name]
                self.buffers[name] = whole[:at] + data + whole[at + len(data):]
                return
        self.notes.left_out("a copy to memory that no buffer is mapped to")

    def column(self, name, indices):
        """An array's values at these indices; None for each where the array is off."""
        context = self.context
        if not context.arrays.get(("on", name)) or name not in context.arrays:
            return None
        size, kind, stride, data, buffer = context.arrays[name]
        start = 0
        if not isinstance(data, (bytes, bytearray)):
            start = data if isinstance(data, int) else 0
            data = self.buffers.get(buffer, b"")
        letter = TYPES[kind]
        layout = struct.Struct(f"<{min(4, int(size))}{letter}")
        stride, last = stride or layout.size, len(data) - layout.size
        scale = 1 / WHOLE[letter] if name in SCALED and letter in WHOLE else 1.0
        rest = FILLED[name][layout.size // struct.calcsize("<" + letter):]
        nothing = (0.0,) * (len(FILLED[name]) - len(rest))
        values = {}
        for i in set(indices):
            at = start + i * stride
            found = layout.unpack_from(data, at) if 0 <= at <= last else nothing
            values[i] = (*found, *rest) if scale == 1.0 else (*(x * scale for x in found), *rest)
        return [values[i] for i in indices]

    def draw_arrays(self, mode, indices):
        if len(indices) > MOST_GIVEN:
            raise Refused(f"a draw of {len(indices)} vertices; at most {MOST_GIVEN}")
        if not len(indices):
            return
        if self.recording is None and not self.wanted:
            return
        run = Run(mode)
        run.of_arrays = True
        run.points = self.column("GL_VERTEX_ARRAY", indices)
        if run.points is None:
            if self.values["program"] and self.wanted:
                self.notes.weigh("left out", "glUseProgram", len(indices))
            return
        nothing = [None] * len(indices)
        run.normals = self.column("GL_NORMAL_ARRAY", indices) or nothing
        run.colors = self.column("GL_COLOR_ARRAY", indices) or nothing
        run.coordinates = self.column("GL_TEXTURE_COORD_ARRAY", indices) or nothing
        if self.recording is not None:
            self.recording.calls.append((None, run))
            if self.recording.mode == "GL_COMPILE":
                return
        self.draw_run(run)

    def do_DrawArrays(self, mode, first, count):
        self.draw_arrays(mode, range(first, first + max(0, count)))

    def do_DrawElements(self, mode, count, kind, indices):
        data, start = as_bytes(indices), 0
        if data is None and isinstance(indices, int):
            data = self.buffers.get(self.bound.get(ELEMENTS, 0), b"")
            start = indices
        if not 0 <= count <= MOST_GIVEN:
            raise Refused(f"a draw of {count} vertices; at most {MOST_GIVEN}")
        if data is not None:
            indices = struct.unpack_from(f"<{count}{TYPES[kind]}", data, start)
        self.draw_arrays(mode, indices[:count])

    def do_DrawRangeElements(self, mode, low, high, count, kind, indices):
        self.do_DrawElements(mode, count, kind, indices)


def filled_up(column, current):
    """A column with what is current in place of None, which comes first alone."""
    if column[0] is not None:
        return column
    if column[-1] is None:
        return [current] * len(column)
    return [current if value is None else value for value in column]
