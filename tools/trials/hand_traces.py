"""Traces written by hand, in the form of `apitrace pickle --symbolic`, and what comes of them."""
import collections
import pathlib
import pickle
import struct
import subprocess
import sys

from .scene_reading import Scene

TOOLS = pathlib.Path(__file__).resolve().parents[1]
COMMAND = [sys.executable, str(TOOLS / "from_apitrace.py")]
SECONDS = 60        # after which a conversion counts as one that hangs

# The status, the lines on standard error, and the scene or None.
Converted = collections.namedtuple("Converted", "status lines scene")

WINDOW = ("glViewport", 0, 0, 64, 64)
PLANE = ("glOrtho", 0.0, 64.0, 0.0, 64.0, -1.0, 1.0)
CLEAR = ("glClear", ["GL_COLOR_BUFFER_BIT", "GL_DEPTH_BUFFER_BIT"])
SWAP = ("glXSwapBuffers", 1, 2)
CORNERS = ((0, 0), (64, 0), (64, 64), (0, 64))
RED, GREEN, BLUE, WHITE = (255, 0, 0), (0, 255, 0), (0, 0, 255), (255, 255, 255)
SIX = [(1, 0, 0), (0, 1, 0), (0, 0, 1), (1, 1, 0), (0, 1, 1), (1, 0, 1)]


def pickled(*calls, results=None):
    """A stream of calls, each a name and its arguments, which all have the same result."""
    return b"".join(pickle.dumps((number, name, [(str(i), value) for i, value in enumerate(values)],
                                  results, 0), 2) for number, (name, *values) in enumerate(calls))


def converted(data, *words):
    """What the command makes of bytes on its standard input."""
    done = subprocess.run([*COMMAND, "-", *words], input=data, capture_output=True, timeout=SECONDS)
    lines = done.stderr.decode().splitlines()
    return Converted(done.returncode, lines, Scene(done.stdout) if done.stdout else None)


def scene(*calls, words=(), results=None):
    """The scene of a frame of these calls, in a window of 64 by 64 where a unit is a pixel."""
    plane = [("glMatrixMode", "GL_PROJECTION"), PLANE, ("glMatrixMode", "GL_MODELVIEW")]
    made = converted(pickled(WINDOW, CLEAR, *plane, *calls, SWAP, results=results), *words)
    if made.status:
        raise AssertionError(made.lines)
    return made.scene


def blob(layout, *numbers):
    """Numbers as a program's memory has them."""
    return struct.pack("<" + layout, *numbers).decode("latin1")


def vertices(*places):
    return [("glVertex2f", float(x), float(y)) for x, y in places]


def primitive(mode, *places, colors=()):
    """A primitive of vertices in the plane, with a colour before each where there are any."""
    calls = [("glBegin", mode)]
    for i, place in enumerate(places):
        if colors:
            calls.append(("glColor3f", *map(float, colors[i])))
        calls += vertices(place)
    return [*calls, ("glEnd",)]


def image(width, height, texels, form="GL_RGBA", internal="GL_RGBA", kind="GL_UNSIGNED_BYTE"):
    """Texture 1 with an image, sampled where it is nearest."""
    return [("glEnable", "GL_TEXTURE_2D"), ("glBindTexture", "GL_TEXTURE_2D", 1),
            ("glTexParameteri", "GL_TEXTURE_2D", "GL_TEXTURE_MIN_FILTER", "GL_NEAREST"),
            ("glTexParameteri", "GL_TEXTURE_2D", "GL_TEXTURE_MAG_FILTER", "GL_NEAREST"),
            ("glTexImage2D", "GL_TEXTURE_2D", 0, internal, width, height, 0, form, kind,
             texels.decode("latin1"))]


def textured(*corners):
    """A polygon of corners x, y, s, t."""
    calls = [("glBegin", "GL_POLYGON")]
    for x, y, s, t in corners:
        calls += [("glTexCoord2f", float(s), float(t)), ("glVertex2f", float(x), float(y))]
    return [*calls, ("glEnd",)]


def places(block):
    """The places of a block's vertices, in pixels."""
    return [(vertex.x / 16, vertex.y / 16) for vertex in block.vertices]


def colors(block):
    return [vertex.color[:3] for vertex in block.vertices]
