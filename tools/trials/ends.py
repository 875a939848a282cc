"""What is told, what is refused, and what hostile traces come to."""
import collections
import io
import os
import pathlib
import pickle
import random
import shutil
import subprocess
import sys
import tempfile
import unittest

from gl_trace import command_line, faults

from .following import Lists, Textures
from .hand_traces import (CLEAR, COMMAND, CORNERS, PLANE, SECONDS, SIX, SWAP, WINDOW, converted,
                          image, pickled, primitive, scene, vertices)



class Told(unittest.TestCase):
    def test_what_is_left_out_or_approximated_is_told_by_name_and_number(self):
        made = converted(pickled(WINDOW, CLEAR, PLANE, ("glUseProgram", 1), ("glUseProgram", 0),
                                 ("glEnable", "GL_STENCIL_TEST"),
                                 ("glEnable", "GL_POLYGON_SMOOTH"),
                                 ("glGetError",), SWAP))
        self.assertEqual(made.lines, [
            "from_apitrace: approximated glEnable(GL_POLYGON_SMOOTH) 1: 0 vertices, 0 pixels",
            "from_apitrace: left out glEnable(GL_STENCIL_TEST) 1: 0 vertices, 0 pixels",
            "from_apitrace: left out glUseProgram 2: 0 vertices, 0 pixels",
            "from_apitrace: 64x64, version 1, 1 clients, 2 items, 2 commands, 21 bytes"])

    def test_a_frame_that_begins_without_a_clear_is_told(self):
        made = converted(pickled(WINDOW, SWAP))
        self.assertIn("from_apitrace: approximated frame 0, which begins without a clear of the "
                      "whole window 1", made.lines)


class Limits(unittest.TestCase):
    def refusal(self, data, *words):
        """The one line of a conversion that ends with status 1."""
        made = converted(data, *words)
        self.assertEqual((made.status, made.scene), (1, None))
        self.assertEqual(len(made.lines), 1, made.lines)
        return made.lines[0].removeprefix("from_apitrace: ")

    def test_a_window_of_2049(self):
        self.assertEqual(self.refusal(pickled(("glViewport", 0, 0, 2049, 9), SWAP)),
                         "a viewport of 2049 by 9 pixels, and a scene's sides are at most 2048: "
                         "trace the program in a smaller window")

    def test_too_many_frames(self):
        self.assertEqual(self.refusal(pickled(WINDOW, CLEAR, SWAP), "--frames", "0:2"),
                         "the trace has 1 whole frames, and --frames asks for 0:2")

    def test_no_viewport(self):
        made = converted(pickled(CLEAR, SWAP))
        self.assertEqual((made.status, made.lines[-1]),
                         (1, "from_apitrace: -: no viewport is set: give --size"))

    def test_too_many_commands_are_refused_before_all_are_drawn(self):
        calls = [("glNewList", 1, "GL_COMPILE"), ("glBegin", "GL_TRIANGLES"),
                 *vertices(*[(0, 0), (9, 0), (0, 9)] * 3000), ("glEnd",), ("glEndList",),
                 *[("glCallList", 1)] * 200]
        line = self.refusal(pickled(WINDOW, CLEAR, PLANE, *calls, SWAP))
        self.assertIn("more than 1048576 commands in 1 frame, and a scene has at most so many",
                      line)

    def test_lists_that_mean_without_end(self):
        calls = [("glNewList", 1, "GL_COMPILE"), ("glCallList", 1), ("glCallList", 1),
                 ("glEndList",), ("glCallList", 1)]
        self.assertEqual(self.refusal(pickled(WINDOW, CLEAR, *calls, SWAP)),
                         "display lists mean more than 4194304 calls in frame 0")

    def test_too_many_pixels(self):
        calls = [("glViewport", 0, 0, 2048, 2048), *[CLEAR, SWAP] * 513]
        self.assertIn("pixels in all frames", self.refusal(pickled(*calls), "--frames", "0:513"))

    def test_nine_traces(self):
        made = subprocess.run([*COMMAND, *["a.trace"] * 9], capture_output=True, timeout=SECONDS)
        self.assertEqual((made.returncode, made.stderr.decode()), (1, "from_apitrace: 9 traces, "
                         "and a scene has at most 8 clients: give fewer\n"))

    def test_a_strip_of_more_vertices_than_a_block_has_becomes_triangles(self):
        zigzag = [(i / 512, 8 * (i % 2)) for i in range(16384)]
        made = scene(*primitive("GL_TRIANGLE_STRIP", *zigzag))
        self.assertEqual({block.mode for block in made.blocks}, {"TRIANGLES"})
        self.assertEqual(sum(len(block.vertices) for block in made.blocks), 3 * 16382)
        made = scene(*primitive("GL_TRIANGLE_STRIP", *zigzag[:16383]))
        self.assertEqual([(block.mode, len(block.vertices)) for block in made.blocks],
                         [("STRIP", 16383)])

    def test_a_draw_of_vertices_without_end(self):
        calls = [*Lists.ARRAY, ("glDrawArrays", "GL_TRIANGLES", 0, 2 ** 62)]
        self.assertIn("at most 4194304", self.refusal(pickled(WINDOW, CLEAR, *calls, SWAP)))

    def test_textures_and_buffers_without_end(self):
        picture = ("glTexImage2D", "GL_TEXTURE_2D", 0, "GL_RGBA", 16384, 16384, 0, "GL_RGBA",
                   "GL_UNSIGNED_BYTE", None)
        self.assertIn("texels", self.refusal(pickled(WINDOW, picture, SWAP)))
        buffer = ("glBufferData", "GL_ARRAY_BUFFER", 2 ** 40, None, "GL_STATIC_DRAW")
        self.assertIn("buffers of more than", self.refusal(pickled(WINDOW, buffer, SWAP)))


class Hostile(unittest.TestCase):
    def refused(self, data, *words):
        made = converted(data, *words)
        self.assertEqual((made.status, made.scene), (1, None))
        self.assertEqual(len(made.lines), 1, made.lines)
        self.assertTrue(made.lines[0].startswith("from_apitrace: "), made.lines)
        return made.lines[0]

    def test_a_pickle_makes_nothing_that_runs(self):
        with tempfile.TemporaryDirectory() as folder:
            mark = os.path.join(folder, "mark")
            for module, name in (("os", "system"), ("builtins", "eval"), ("unpickle", "Call"),
                                 ("builtins", "getattr"), ("subprocess", "Popen")):
                text = f"touch {mark}"
                data = b"\x80\x02c" + f"{module}\n{name}\n".encode() \
                    + b"X" + len(text).to_bytes(4, "little") + text.encode() + b"\x85R."
                self.assertIn(f"the trace names {module}.{name}", self.refused(data))
                self.assertFalse(os.path.exists(mark))

    def test_a_pointer_is_a_number_and_nothing_is_set_in_it(self):
        pointer = b"cunpickle\nPointer\n"
        self.refused(b"\x80\x02" + pointer + b"}U\x03reaK\x01sb.")
        self.refused(b"\x80\x02" + pointer + b"(U\x03abctR.")

    def test_bytes_that_are_no_calls(self):
        whole = pickled(WINDOW, CLEAR, PLANE, SWAP)
        for data in (b"", b"\0" * 100, b"RCS1", b"hello\n", whole[:-1], whole[:20],
                     pickle.dumps(1, 2), pickle.dumps((0, 1, [], None, 0), 2),
                     pickle.dumps((0, "glEnd", 3, None, 0), 2),
                     pickle.dumps((0, "glEnd", [3], None, 0), 2), pickle.dumps([[]] * 5, 2),
                     b"\x80\x02" + b"(" * 100000 + b".", b"\x80\x02" + b"]" * 9 + b"a" * 9 + b".",
                     b"\x80\x04\x8e" + b"\xff" * 8 + b".", b"\x80\x05\x96\x09" + bytes(7) + b"abc",
                     b"\x80\x05\x96\0\0\0\0\0\0\0\x7f" + b"."):
            self.refused(data)

    def test_arguments_that_a_call_can_not_have(self):
        face = [("glBegin", "GL_TRIANGLES"), *vertices((0, 0), (9, 0), (0, 9)), ("glEnd",)]
        for bad in (("glVertex3f", "a", 1.0, 2.0), ("glVertex3f",), ("glLoadMatrixf", [1.0]),
                    ("glTranslatef", None, 0.0, 0.0), ("glLightfv", 7, "GL_POSITION", [1.0]),
                    ("glMaterialfv", "GL_FRONT", "GL_NOTHING", [1.0]), ("glPushMatrix", 1, 2),
                    ("glViewport", "a", 0, 1, 1), ("glClearColor", [], 0, 0, 0),
                    ("glScissor", 10 ** 400, float("inf"), 1, 1), ("glBindTexture",
                                                                  "GL_TEXTURE_2D", []),
                    ("glCallLists", 10 ** 9, "GL_UNSIGNED_INT", "abc"), ("glNewList", [], 1, 2),
                    ("glDrawElements", "GL_TRIANGLES", 9, "GL_UNSIGNED_INT", "abc"),
                    ("glTexImage2D", "GL_TEXTURE_2D", 0, 4, "x", 1, 0, "GL_RGBA", "a", "b")):
            calls = [("glBegin", "GL_LINES"), bad, *vertices((0, 0), (1, 1)), ("glEnd",)] \
                if bad[0].startswith("glVertex") else [bad, *face]
            self.refused(pickled(WINDOW, CLEAR, PLANE, *calls, SWAP))

    def test_numbers_without_bounds(self):
        huge = [("glViewport", -2 ** 70, 2 ** 70, 64, 64), ("glLineWidth", 1e300),
                ("glPointSize", float("inf")), ("glPolygonOffset", 1e300, -1e300),
                ("glClearColor", float("nan"), float("inf"), -1e300, 0.0), CLEAR,
                ("glColor3f", float("nan"), float("inf"), -float("inf")),
                ("glDepthRange", float("nan"), 1e300), ("glTexCoord2f", float("nan"), 1e300),
                ("glFogf", "GL_FOG_DENSITY", 1e300), ("glEnable", "GL_FOG"), WINDOW,
                *image(2, 2, bytes(16)), ("glEnable", "GL_POLYGON_OFFSET_FILL"),
                *primitive("GL_TRIANGLES", (0, 0), (9e37, 0), (0, 9)),
                *primitive("GL_LINES", (0, 0), (9e37, 1e300)), *primitive("GL_POINTS", (0, 0))]
        made = converted(pickled(WINDOW, CLEAR, PLANE, *huge, SWAP))
        self.assertIn(made.status, (0, 1))
        self.assertFalse(any("Traceback" in line for line in made.lines))

    def test_changed_traces_end_in_a_scene_or_in_one_line(self):
        rng, ends = random.Random(7), collections.Counter()
        for number in range(300):
            calls = changed_calls(rng) if number % 3 else EVERY_KIND
            data = pickled(*calls, SWAP)
            if number % 3 == 0:
                data = changed_bytes(rng, data)
            ends[end_of(data, rng.choice(("1", "3")))] += 1
        self.assertEqual(set(ends), {"scene", "refused"})
        self.assertGreater(min(ends.values()), 30)

    @unittest.skipUnless(shutil.which("apitrace"), "apitrace isn't installed")
    def test_files_that_are_no_traces(self):
        with tempfile.TemporaryDirectory() as folder:
            path = os.path.join(folder, "a.trace")
            for data in (b"", b"hello", bytes(1000)):
                pathlib.Path(path).write_bytes(data)
                done = subprocess.run([*COMMAND, path], capture_output=True, timeout=SECONDS)
                self.assertEqual((done.returncode, done.stdout), (1, b""))
                self.assertEqual(len(done.stderr.splitlines()), 1, done.stderr)
            for path in (folder, os.path.join(folder, "none")):
                done = subprocess.run([*COMMAND, path], capture_output=True, timeout=SECONDS)
                self.assertEqual((done.returncode, len(done.stderr.splitlines())), (1, 1))

    def test_wrong_words_are_status_2(self):
        for words in ([], ["--frames", "2:1", "-"], ["--frames", "1", "-"], ["--clients", "9", "-"],
                      ["--size", "0x9", "-"], ["--texture-side", "257", "-"], ["--nothing", "-"],
                      ["--clients", "2", "a", "b"], ["--columns", "-1", "a"]):
            done = subprocess.run([*COMMAND, *words], capture_output=True, timeout=SECONDS,
                                  input=b"")
            self.assertEqual((done.returncode, done.stdout), (2, b""), words)
            self.assertNotIn(b"Traceback", done.stderr)

    def test_help_tells_each_word(self):
        done = subprocess.run([*COMMAND, "--help"], capture_output=True, timeout=SECONDS)
        self.assertEqual((done.returncode, done.stderr), (0, b""))
        for word in (b"--frames", b"--clients", b"--size", b"--columns", b"--texture-side",
                     b"--cut-textures", b"--nearest", b"--pieces", b"--to", b"--no-lists",
                     b"--by-depth", b"--version"):
            self.assertIn(word, done.stdout)

    def test_an_output_that_ends_early_is_quiet_and_a_full_one_is_told(self):
        noise = os.urandom(4 * 256 * 256)      # more than a pipe holds
        data = pickled(WINDOW, CLEAR, PLANE, *image(256, 256, noise), *Textures.FACE, SWAP)
        with subprocess.Popen([*COMMAND, "-"], stdin=subprocess.PIPE, stdout=subprocess.PIPE,
                              stderr=subprocess.PIPE) as child:
            child.stdout.close()
            child.stdin.write(data)
            child.stdin.close()
            lines = child.stderr.read().splitlines()
        self.assertEqual((child.returncode, len(lines)), (1, 1), lines)
        self.assertIn(b"bytes", lines[0])
        with open("/dev/full", "wb") as full:
            done = subprocess.run([*COMMAND, "-"], input=data, stdout=full, stderr=subprocess.PIPE)
        self.assertEqual((done.returncode, done.stderr.splitlines()[-1]),
                         (1, b"from_apitrace: standard output: No space left on device"))


# Calls of every kind, which the tests of hostile traces change.
EVERY_KIND = [
    WINDOW, CLEAR, PLANE, *Lists.ARRAY, ("glEnable", "GL_LIGHTING"), ("glEnable", "GL_LIGHT0"),
    ("glLightfv", "GL_LIGHT0", "GL_POSITION", [0.0, 0.0, 1.0, 0.0]), ("glEnable", "GL_FOG"),
    ("glMaterialfv", "GL_FRONT", "GL_DIFFUSE", [1.0, 0.5, 0.0, 1.0]),
    ("glClipPlane", "GL_CLIP_PLANE0", [1.0, 0.0, 0.0, 1.0]), ("glEnable", "GL_CLIP_PLANE0"),
    ("glPushAttrib", ["GL_CURRENT_BIT"]), ("glRotatef", 9.0, 0.0, 0.0, 1.0),
    ("glNewList", 1, "GL_COMPILE"), *primitive("GL_QUAD_STRIP", *CORNERS), ("glEndList",),
    ("glCallList", 1), ("glDrawArrays", "GL_TRIANGLES", 0, 3), *primitive("GL_LINES", *CORNERS),
    *image(4, 4, bytes(64)), *Textures.FACE, ("glBlendFunc", "GL_ONE", "GL_ZERO"),
    ("glEnable", "GL_BLEND"), *primitive("GL_QUADS", *CORNERS, colors=SIX[:4]), ("glPopAttrib",)]
ODD = [float("nan"), float("inf"), -1e300, 1e-300, 0, -1, 2 ** 31, 2 ** 63, 10 ** 30, "GL_NONE",
       "x", "", None, [], [1.0], (1, 2), {}, True, 65536, 0.5, "GL_TRIANGLES", "GL_LIGHT0"]


def changed_calls(rng):
    """Calls of every kind with one to four of them changed, left out or doubled."""
    calls = [list(call) for call in EVERY_KIND]
    for _ in range(rng.randrange(1, 5)):
        call = calls[rng.randrange(len(calls))]
        kind = rng.randrange(5)
        if kind < 3 and len(call) > 1:
            at = rng.randrange(1, len(call))
            if isinstance(call[at], list) and call[at] and kind:
                call[at] = list(call[at])
                call[at][rng.randrange(len(call[at]))] = rng.choice(ODD)
            else:
                call[at] = rng.choice(ODD)
        elif kind == 3:
            calls.remove(call)
        else:
            calls.insert(rng.randrange(len(calls)), list(call))
    return calls


def changed_bytes(rng, data):
    data = bytearray(data)
    for _ in range(rng.randrange(1, 4)):
        data[rng.randrange(len(data))] = rng.randrange(256)
    return bytes(data[:rng.randrange(len(data))] if rng.random() < 0.2 else data)


def end_of(data, clients):
    """How the conversion of bytes ends, in this process."""
    options = command_line.parser().parse_args(["-", "--clients", clients, "--cut-textures"])
    command_line.hold_memory()
    stdin, sys.stdin = sys.stdin, io.TextIOWrapper(io.BufferedReader(io.BytesIO(data)))
    try:
        command_line.converted(options, faults.Notes())
        return "scene"
    except faults.Refused as fault:
        return "refused" if "\n" not in str(fault) else "lines"
    finally:
        sys.stdin = stdin
