"""Follows the calls of one trace, and keeps the items of the frames that are asked for."""
import re
import struct

from .blocks import pixels_of
from .context import Context
from .faults import Refused
from .items import SWAP, Clear
from .limits import MOST_COMMANDS, MOST_STEPS
from .list_calls import ListCalls
from .matrix_calls import MatrixCalls
from .pixel_calls import PixelCalls
from .reading import WINDOW
from .setting import Setting
from .state_calls import StateCalls
from .texture_calls import TextureCalls
from .vertex_calls import VertexCalls
from .window_calls import WindowCalls

SUFFIX = re.compile(r"(.*?)([1234]?)(ub|us|ui|b|s|i|f|d)(v?)$")
SCALES = {"ub": 1 / 255, "us": 1 / 65535, "ui": 1 / 4294967295, "b": 1 / 127, "s": 1 / 32767,
          "i": 1 / 2147483647}
# Calls that draw nothing and set nothing that is drawn with.
QUIET = re.compile(
    r"gl(X|Get|Is|Flush|Finish|Hint|Gen|CheckFramebuffer|Delete(Buffers|Framebuffers|VertexArrays)|ReadBuffer|"
    r"DrawBuffer$|ReadPixels|InitNames|LoadName|PushName|PopName|FlushMappedBuffer|AreTextures|Prioritize|StringMarker|EdgeFlag)|egl|X")
# What makes shaders. Whatever is drawn by them is told with glUseProgram.
SHADERS = re.compile(
    r"gl(Create|Delete|Attach|Detach|Compile|Link|Validate)(Shader|Program|Object)|glShaderSource|"
    r"glBindAttribLocation|glUniform|gl(Enable|Disable)?VertexAttrib|glLinkProgram")
# What lists don't record. (A draw from arrays is recorded as the vertices that it gives.)
IMMEDIATE = re.compile(r"(NewList|EndList|Draw(?!Pixels).*|PixelStore|.*Pointer|.*Client.*|"
                       r"DeleteLists|InterleavedArrays|DeleteTextures|Bind(Buffer|VertexArray)|"
                       r"Buffer(Sub)?Data|(Unm|M)apBuffer.*)$")
TOLD_OF_EDGES = 0.005   # of a window's pixels, above which edges are told of
# What takes its numbers in a list though its name doesn't end in v.
SPREAD = {"Rect", "LoadMatrix", "MultMatrix", "LoadTransposeMatrix", "MultTransposeMatrix"}
# What sets nothing that a setting is made of.
OF_VERTICES = set("""Begin End Vertex Normal Color TexCoord MultiTexCoord Rect CallList CallLists
    NewList EndList DrawArrays DrawElements DrawRangeElements VertexPointer NormalPointer
    InterleavedArrays
    ColorPointer TexCoordPointer EnableClientState DisableClientState BindBuffer BindVertexArray
    BufferData
    BufferSubData MapBuffer MapBufferRange UnmapBuffer Bitmap DrawPixels RasterPos WindowPos
    PixelZoom Clear PushMatrix MatrixMode""".split())
FAULTS = (TypeError, ValueError, KeyError, IndexError, AttributeError, OverflowError,
          ZeroDivisionError, RecursionError, struct.error)


class Handler:
    """What a call is followed by: its base name, a method, whether its numbers stand in one list
    or singly, what they are multiplied with, and whether it changes settings."""

    __slots__ = ("base", "method", "spread", "scale", "immediate", "changes")

    def __init__(self, base, method, spread, scale):
        self.base, self.method, self.spread, self.scale = base, method, spread, scale
        self.immediate = IMMEDIATE.match(base) is not None
        self.changes = base not in OF_VERTICES


class Machine(WindowCalls, StateCalls, MatrixCalls, TextureCalls, ListCalls, VertexCalls,
              PixelCalls):
    """The contexts of a program, and the items that its frames give."""

    def __init__(self, frames, options, notes, pieces=None, progress=None):
        self.first, self.last, self.options, self.notes = *frames, options, notes
        self.pieces, self.progress = pieces, progress
        self.frame, self.items = 0, []
        self.wanted = self.first == 0
        self.vertices = self.commands = self.steps = 0
        self.contexts, self.handlers, self.setting = {}, {}, None
        self.lamps, self.concerns, self.drawing, self.filtered = {}, [], 0, [0]
        self.outlines = [0, 0.0]    # of a frame: vertices, and how long in pixels
        self.begin_windows(options.size)
        self.begin_lists()
        self.begin_textures()
        self.begin_vertices()
        self.use(None)

    def use(self, name):
        self.context = self.contexts.setdefault(name, Context())
        self.values = self.context.values
        self.setting = None

    # -- calls --

    def run(self, calls):
        """Follows calls to the end of the last frame that is wanted."""
        handlers, progress = self.handlers, self.progress
        for number, name, arguments in calls:
            if progress and not number & 1023:
                progress.at(number, self.frame)
            handler = handlers.get(name)
            try:
                if handler is None:
                    handler = handlers[name] = self.handler(name)
                self.carry_out(handler, arguments)
            except FAULTS as fault:
                kind = " ".join(str(fault).split()) or type(fault).__name__
                raise Refused(f"call {number}, {name}: arguments that it can't have "
                              f"({kind:.80})") from None
            if self.frame >= self.last:
                break
        else:
            raise Refused(f"the trace has {self.frame} whole frames, and --frames asks for "
                          f"{self.first}:{self.last}")
        if not self.pieces:
            self.note_beginning(self.first)
        self.note_windows()

    def note_beginning(self, frame):
        first = self.items[0] if self.items else None
        if not (isinstance(first, Clear) and first.mask & 1 and first.scissor is None):
            self.notes.approximated(f"frame {frame}, which begins without a clear of the whole "
                                    "window")

    def carry_out(self, handler, arguments):
        if handler.method is None:
            if handler.base is not None:
                self.notes.left_out(handler.base)
            return
        if handler.spread:
            arguments = spread_out(arguments)
        if handler.scale is not None:
            arguments = [x * handler.scale for x in arguments]
        if self.recording is not None and not handler.immediate:
            self.record(handler, arguments)
            if self.recording.mode == "GL_COMPILE":
                return
        if handler.changes:
            self.setting = None
        handler.method(*arguments)

    def handler(self, name):
        """What follows a call of this name; a quiet call has no method and no base."""
        if name.endswith("MakeCurrent") or name == "glXMakeContextCurrent":
            return Handler("Client MakeCurrent", self.make_current, False, None)
        if name.endswith("SwapBuffers"):
            return Handler("Client SwapBuffers", self.swap, False, None)
        if name == "memcpy":
            return Handler("Client memcpy", self.copy_memory, False, None)
        if name == WINDOW:
            return Handler("Client Window", self.do_Viewport, False, None)
        base = re.sub("(ARB|EXT)$", "", name[2:]) if name.startswith("gl") else ""
        method = getattr(self, "do_" + base, None)
        if method:
            return Handler(base, method, False, None)
        match = SUFFIX.match(base)
        method = match and getattr(self, "do_" + match[1], None)
        if method:
            scale = SCALES.get(match[3]) if match[1] in ("Color", "Normal") else None
            return Handler(match[1], method, match[4] == "v" or match[1] in SPREAD, scale)
        handler = Handler("", None, False, None)
        handler.base = None if QUIET.match(name) or SHADERS.match(name) else name
        return handler

    def note_outlines(self):
        """Tells of a frame's edges, where so many pixels are next to them that rounded places may
        show: an edge moves by a 64th of a pixel or so."""
        vertices, length = self.outlines
        self.outlines = [0, 0.0]
        if self.size and length / 64 > self.size[0] * self.size[1] * TOLD_OF_EDGES:
            self.notes.weigh("approximated", "edges, whose places are sixteenths of a pixel",
                             vertices, length / 64)

    def swap(self, *arguments):
        if self.wanted:
            self.settle_size(arguments[-1] if arguments else None)
            self.note_outlines()
            self.items.append(SWAP)
            if self.pieces and self.size:
                self.pieces.frame(self)
        self.frame += 1
        self.steps = 0
        self.lamps.clear()
        self.wanted = self.first <= self.frame < self.last

    def step(self, count):
        """Counts calls that lists give."""
        self.steps += count
        if self.steps > MOST_STEPS:
            raise Refused(f"display lists mean more than {MOST_STEPS} calls in frame {self.frame}")

    # -- drawing --

    def now(self):
        """The setting of this moment, or None where nothing can be drawn."""
        viewport = self.values["viewport"]
        if viewport is None or 0 in viewport[2:]:
            return None
        if self.setting is None:
            self.setting = Setting(self)
        return self.setting

    def concern(self, kind, what):
        """Keeps that a note is about what is drawn now, up to the next primitive."""
        self.concerns.append((kind, what))
        self.notes.weigh(kind, what, vertices=self.drawing)

    def concern_once(self, kind, what):
        """The same of what may be found several times in a primitive."""
        if (kind, what) not in self.concerns:
            self.concern(kind, what)

    def add(self, block, mode, places):
        """Keeps a block, unless the scene would have too many commands."""
        if block is None:
            return
        self.drawn_in.add(self.window)
        if self.concerns:
            pixels = pixels_of(block, mode, places)
            for kind, what in self.concerns:
                self.notes.weigh(kind, what, pixels=pixels)
        self.items.append(block)
        self.outlines[0] += block.vertices
        self.outlines[1] += block.outline
        self.commands += len(block.opcodes)
        if self.commands > MOST_COMMANDS:
            frames = self.frame - self.first + 1
            raise Refused(f"more than {MOST_COMMANDS} commands in {frames} frame"
                          f"{'s' * (frames > 1)}, and a scene has at most so many: choose fewer "
                          "frames, or a smaller program")

    def scissor(self):
        """The scissor box, or None where the test is off."""
        if not self.values["GL_SCISSOR_TEST"]:
            return None
        return self.values["scissor"] or (0, 0, *(self.size_now() or (0, 0)))


def spread_out(arguments):
    """Numbers that stand in lists one behind the other."""
    if len(arguments) == 1 and arguments[0].__class__ is list:
        return arguments[0]
    return [y for x in arguments for y in (x if x.__class__ in (list, tuple) else (x,))]
