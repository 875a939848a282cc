"""Scene after scene of one trace, and what is told while a trace is read."""
import io
import pathlib
import tempfile
import unittest
from unittest import mock

from gl_trace import command_line, faults, pieces

from .hand_traces import CLEAR, PLANE, SWAP, WINDOW, converted, pickled, primitive
from .scene_reading import Scene

FRAME = [CLEAR, *primitive("GL_TRIANGLES", (0, 0), (9, 0), (0, 9)), SWAP]


class Films(unittest.TestCase):
    def film(self, frames, *words):
        """Status, lines, and the scenes that are written, by their names."""
        with tempfile.TemporaryDirectory() as folder:
            made = converted(pickled(WINDOW, PLANE, *FRAME * 9), "--frames", frames, *words,
                             "--to", f"{folder}/film")
            scenes = {path.name: Scene(path.read_bytes())
                      for path in sorted(pathlib.Path(folder).iterdir())}
            return made.status, [line.replace(folder, "") for line in made.lines], scenes

    def test_a_trace_becomes_scene_after_scene(self):
        status, lines, scenes = self.film("2:7", "--pieces", "2")
        self.assertEqual((status, list(scenes)), (0, [f"film-000{i}.rcs" for i in range(3)]))
        self.assertEqual([(len(made.named("Swap")), len(made.blocks)) for made in scenes.values()],
                         [(2, 2), (2, 2), (1, 1)])
        self.assertEqual([line.split(",")[0] for line in lines],
                         ["from_apitrace: /film-0000.rcs: frames 2:4",
                          "from_apitrace: /film-0001.rcs: frames 4:6",
                          "from_apitrace: /film-0002.rcs: frames 6:7"])

    def test_a_scene_ends_early_where_it_is_full(self):
        # Begin, Color, three times Vertex and End are 6, so half of 20 is passed with two frames.
        options = command_line.parser().parse_args(["-", "--frames", "0:4"])
        options.pieces, made = 9, []
        with mock.patch.object(pieces, "MOST_COMMANDS", 20), \
                mock.patch.object(pieces.Pieces, "write", lambda self, size, items: made.append(
                    sum(item == "swap" for item in items))):
            writing = pieces.Pieces(options, print)
            machine = command_line.Machine((0, 4), options, faults.Notes(), writing)
            machine.run((number, name, list(values)) for number, (name, *values)
                        in enumerate([WINDOW, PLANE, *FRAME * 4]))
        self.assertEqual(made, [2, 2])

    def test_frames_that_are_not_there_leave_those_that_are(self):
        status, lines, scenes = self.film("7:12", "--pieces", "1")
        self.assertEqual((status, len(scenes), lines[-1]),
                         (1, 2, "from_apitrace: the trace has 9 whole frames, and --frames asks "
                                "for 7:12"))

    def test_words_that_do_not_go_together(self):
        for words in (["--pieces", "2"], ["--to", "a"], ["--pieces", "0", "--to", "a"]):
            self.assertEqual(converted(b"", *words).status, 2, words)

    def test_a_folder_that_is_not_there(self):
        made = converted(pickled(WINDOW, PLANE, *FRAME), "--pieces", "1", "--to", "/nowhere/film")
        self.assertEqual((made.status, made.lines),
                         (1, ["from_apitrace: /nowhere/film-0000.rcs: No such file or directory"]))

    def test_what_takes_long_is_told_every_ten_seconds(self):
        stream = io.StringIO()
        with mock.patch.object(command_line.time, "monotonic", side_effect=[0, 9.9, 10, 11, 20]):
            progress = command_line.Progress(stream, (60, 61))
            for call in (1024, 2048, 3072, 4096):
                progress.at(call, 7)
        self.assertEqual(stream.getvalue().splitlines(), [
            f"from_apitrace: call {call} of the trace is read, in frame 7; asked for are frames "
            "60:61" for call in (2048, 4096)])
