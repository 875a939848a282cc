"""Several clients, several traces, call lists: the picture stays the same."""
import os
import pathlib
import subprocess
import tempfile
import unittest

from .hand_traces import (CLEAR, COMMAND, CORNERS, PLANE, SECONDS, SIX, SWAP, WINDOW, converted,
                          pickled, places, primitive)
from .scene_reading import Scene


ROOT = pathlib.Path(__file__).resolve().parents[2]
PROGRAM = os.environ.get("RENDER_CLI", str(ROOT / "crates/render_cli/out/render_cli"))
BUILT = unittest.skipUnless(os.path.exists(PROGRAM), "the program isn't built")


class Clients(unittest.TestCase):
    def frames(self):
        """Two frames of overlapping triangles and quads, with state that changes."""
        calls = [("glEnable", "GL_DEPTH_TEST"), ("glBlendFunc", "GL_ONE", "GL_ONE")]
        number = 1
        for frame in range(2):
            calls += [CLEAR] + ([SWAP] if frame else [])
            for i in range(60):
                number = number * 1103515245 + 12345 & 0x7fffffff
                x, y = number % 56, number // 64 % 56
                calls.append(("glEnable" if i % 7 == 3 else "glDisable", "GL_BLEND"))
                calls += primitive("GL_TRIANGLES", (x, y), (x + 9, y), (x, y + 9),
                                   colors=[SIX[i % 6], SIX[i % 5], SIX[i % 4]])
        return pickled(WINDOW, PLANE, *calls, SWAP)

    def serial(self, data):
        done = subprocess.run([PROGRAM, "serial"], input=data, capture_output=True)
        self.assertEqual(done.returncode, 0)
        return done.stdout

    def test_clients_share_what_one_draws(self):
        one = converted(self.frames(), "--frames", "0:2").scene
        for clients in range(2, 9):
            made = converted(self.frames(), "--frames", "0:2", "--clients", str(clients)).scene
            self.assertEqual(len(made.clients), clients)
            self.assertEqual(sorted(block.vertices for block in made.blocks),
                             sorted(block.vertices for block in one.blocks))

    def test_no_two_clients_touch_a_pixel_between_two_barriers(self):
        made = converted(self.frames(), "--frames", "0:2", "--clients", "3").scene
        rounds = [[set()] for _ in made.clients]
        for number, items in enumerate(made.clients):
            for item in items:
                if item[0] in ("Barrier", "Swap"):
                    rounds[number].append(set())
                else:
                    rounds[number][-1] |= touched(item)
        self.assertEqual(len({len(found) for found in rounds}), 1)
        for sets in zip(*rounds):
            self.assertEqual(len(set().union(*sets)), sum(map(len, sets)))

    @BUILT
    def test_the_program_draws_the_same_picture_with_any_number_of_clients(self):
        one = self.serial(converted(self.frames(), "--frames", "0:2").scene.data)
        for clients in range(2, 9):
            words = ["--frames", "0:2", "--clients", str(clients)]
            data = converted(self.frames(), *words).scene.data
            self.assertEqual(self.serial(data), one, clients)
            done = subprocess.run([PROGRAM, "race"], input=data, capture_output=True)
            self.assertEqual((done.returncode, done.stderr.splitlines()[-1]), (0, b"race none"))
            done = subprocess.run([PROGRAM, "render", "--tiles", "4x3"], input=data,
                                  capture_output=True)
            self.assertEqual((done.returncode, done.stdout), (0, one))

    def still(self, *words):
        frame = [CLEAR, *primitive("GL_QUADS", *CORNERS, colors=SIX[:4]), SWAP]
        return converted(pickled(WINDOW, PLANE, *frame * 9), "--frames", "0:9", *words).scene

    def test_what_is_repeated_becomes_a_list_that_means_the_same(self):
        listed, plain = self.still(), self.still("--no-lists")
        self.assertEqual((listed.version, plain.version), (3, 1))
        self.assertEqual(listed.commands, plain.commands)
        self.assertLess(len(listed.data), len(plain.data))
        self.assertEqual(self.still("--no-lists", "--version", "2").version, 2)

    @BUILT
    def test_the_program_draws_lists_and_versions_alike(self):
        pictures = {self.serial(scene.data) for scene in
                    (self.still(), self.still("--no-lists"),
                     self.still("--no-lists", "--version", "2"))}
        self.assertEqual(len(pictures), 1)

    def test_several_traces_are_a_wall(self):
        with tempfile.TemporaryDirectory() as folder:
            fake = os.path.join(folder, "apitrace")
            pathlib.Path(fake).write_text("#!/bin/sh\nexec cat \"$3\"\n")
            os.chmod(fake, 0o755)
            paths = []
            for i, side in enumerate((64, 32, 64)):
                paths.append(os.path.join(folder, f"{i}.trace"))
                pathlib.Path(paths[-1]).write_bytes(pickled(
                    ("glViewport", 0, 0, side, side), CLEAR,
                    *primitive("GL_TRIANGLES", (-1, -1), (1, -1), (-1, 1)), SWAP))
            done = subprocess.run([*COMMAND, *paths], capture_output=True, timeout=SECONDS,
                                  env=dict(os.environ, PATH=folder + ":" + os.environ["PATH"]))
        self.check_wall(done)

    def check_wall(self, done):
        made = Scene(done.stdout)
        self.assertEqual((made.size, len(made.clients)), ((128, 128), 3))
        self.assertEqual([places(block)[0] for block in made.blocks], [(0, 64), (64, 64), (0, 0)])
        boxes = [item[2]["Scissor"] for items in made.clients for item in items
                 if item[0] == "Clear"]
        self.assertEqual(boxes, [(0, 64, 64, 64), (64, 64, 32, 32), (0, 0, 64, 64)])


def touched(item):
    """The pixels that a block's vertices lie around, or that a clear sets."""
    if item[0] == "Clear":
        return {(x, y) for x in range(64) for y in range(64)}
    xs, ys = ([getattr(v, axis) // 16 for v in item.vertices] for axis in "xy")
    return {(x, y) for x in range(max(0, min(xs)), min(63, max(xs)) + 1)
            for y in range(max(0, min(ys)), min(63, max(ys)) + 1)}
