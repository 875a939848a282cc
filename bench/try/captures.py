#!/usr/bin/env python3
"""Traces real programs, converts a frame of each, and holds the picture of it against the
program's own frame. What the programs are is in docs/real-programs.md.

    captures.py [--frame N] [--seconds S] [--cache FOLDER] [--longest S] [NAME ..]
    captures.py --cache FOLDER --kept [--earlier] --document docs/real-programs.md

Without names these are all programs of capture_programs.py that are installed: the OpenGL programs
of xscreensaver-gl and xscreensaver-gl-extra, and games and demonstrations of Debian. apitrace and
Xvfb have to be there; Xvfb is started here. The program is built by
    cd crates/render_cli && rt run -- render < ../../examples/red.rcs > /dev/null

A frame that begins without a clear is drawn with all before it, and the last picture is taken.
Each line of the table has, of one frame (N, or where the program's own picture of that is nearly
black 4 or 16 N; the last but one where there are fewer):
drawn       the share of the program's own pixels that aren't black: near 0 a line says little
vertices    that the program draws, commands and bytes of the scene
seconds     of a processor for converting, without those of reading the trace
us          microseconds of those spent on the frame itself, a vertex that the program draws, and a
            vertex of the scene, where lines are quads and what is seen close is cut finer
serial      and render --tiles 4x3: milliseconds by the clock, the least of three
mean, off   the mean difference of a channel, and the share of pixels with one off by over 16
told        the heaviest notes of a picture that is off in more than half a percent of pixels
Behind the table stand how many are within half a percent of pixels, which aren't (and of these
which are off in more pixels than what is told of them is about), and what was left out or
approximated of each, by name, number and weight. The status is 1 where a conversion ended in
anything but a scene or a refusal of one line.

A FOLDER keeps traces, scenes, pictures and figures, and those that it has are taken as they are:
figures as long as the converter's text is the same, but for failures, which are tried again. So a
run that was broken off goes on where it was. With --kept nothing is traced, converted or drawn:
what the FOLDER has of this converter is printed, and with --earlier what it has of others too,
which are told apart. --document writes the table, its rows by what is off, and the paragraph that
counts them to a page in place of those that it has. No program is traced for more than S seconds,
and nothing else of it takes longer than the seconds of --longest; a trace that has 100 MB is ended.
"""
import argparse
import contextlib
import hashlib
import json
import math
import os
import pathlib
import re
import signal
import subprocess
import sys
import tempfile
import textwrap
import threading
import time

BENCH = pathlib.Path(__file__).resolve().parent.parent
TOOLS = BENCH.parent / "tools"
sys.path[:0] = [str(TOOLS), str(BENCH)]

import capture_programs
import pictures
from program import built

HEAD = ("program", "frame", "drawn %", "vertices", "commands", "bytes", "seconds", "us a vertex",
        "us a scene's", "serial ms", "render 4x3 ms", "mean", "off %", "what is told")
NEAR = 0.5          # a picture is near the program's own where no more of 100 pixels are off
EMPTY = 0.05        # and shows nothing where no more of 100 pixels aren't black


class Display:
    """An X server without a screen, for as long as this block of code runs."""

    def __enter__(self):
        reading, writing = os.pipe()
        self.server = subprocess.Popen(
            ["Xvfb", "-noreset", "-displayfd", str(writing), "-screen", "0", "1280x1024x24"],
            pass_fds=[writing], stdout=subprocess.DEVNULL, stderr=subprocess.DEVNULL)
        os.close(writing)
        number = b""
        while not number.endswith(b"\n"):
            more = os.read(reading, 16)
            if not more:
                sys.exit("captures.py: Xvfb doesn't start")
            number += more
        os.close(reading)
        return dict(os.environ, DISPLAY=f":{int(number)}", LIBGL_ALWAYS_SOFTWARE="1")

    def __exit__(self, *_):
        self.server.terminate()
        self.server.wait()


def swaps(path):
    """The numbers of the calls that end frames, which are kept beside a trace."""
    told = path.with_suffix(".swaps")
    if not told.exists() or told.stat().st_mtime < path.stat().st_mtime:
        lines = subprocess.run(["apitrace", "dump", "--calls=frame", "--color=never", str(path)],
                               stdout=subprocess.PIPE, stderr=subprocess.DEVNULL).stdout.decode()
        told.write_text("".join(line.split()[0] + "\n" for line in lines.splitlines()
                                if "SwapBuffers" in line))
    return list(map(int, told.read_text().split()))


def own_frame(program, path, calls, options, environment):
    """The program's own picture at the first of two calls that end frames, as apitrace draws it
    anew. The other picture comes behind it and pushes it out of apitrace's buffer; the rest of the
    trace needn't be drawn."""
    player = "eglretrace" if program.api == "egl" else "glretrace"
    wanted = ",".join(map(str, calls))
    with subprocess.Popen([player, "-s", "-", "-S", wanted, str(path)], env=environment,
                          stdout=subprocess.PIPE, stderr=subprocess.DEVNULL) as child:
        patience, data = threading.Timer(options.longest, child.kill), b""
        patience.start()
        while True:
            more = child.stdout.read1(1 << 20)
            data += more
            found = whole_picture(data)
            if found or not more:
                patience.cancel()
                child.kill()
                return found


def shown(program, path, ends, options, environment):
    """The frame that is judged, and the program's own picture of it: a later one, where the frame
    that is asked for is nearly black."""
    last = len(ends) - 2
    # apitrace sizes its window late, so its first frame may be nearly black.
    for frame in sorted({max(1, min(options.frame * times, last)) for times in (1, 4, 16)}):
        kept = path.with_name(f"{program.name}-{ends[frame]}.own.ppm")
        picture = whole_picture(kept.read_bytes()) if kept.exists() else \
            own_frame(program, path, ends[frame:frame + 2], options, environment)
        if picture:
            kept.write_bytes(as_ppm(picture))
            if pictures.difference(picture, picture).drawn > EMPTY:
                break
    return frame, picture


def as_ppm(picture):
    return f"P6\n{picture.width} {picture.height}\n255\n".encode() + picture.rgb


def whole_picture(data):
    """The picture that bytes begin with, or None where there is none yet."""
    try:
        return pictures.picture_at(data)[0]
    except ValueError:
        return None


class Timed:
    """Calls, with the seconds that reading them takes, until the machine is at a frame, and in
    that frame."""

    def __init__(self, calls, machine):
        self.calls, self.machine = iter(calls), machine
        self.reading = self.reading_frame = self.frame_began = 0.0

    def __iter__(self):
        while True:
            begun = time.process_time()
            call = next(self.calls, None)
            now = time.process_time()
            self.reading += now - begun
            if self.machine.wanted:
                self.frame_began = self.frame_began or begun
                self.reading_frame += now - begun
            if call is None:
                return
            yield call


def convert(path, first, last, out):
    """Converts frames of a trace as the command does, and prints figures."""
    from gl_trace import command_line, encoding, faults, machine, reading
    words = ["--frames", f"{first}:{last}", "--cut-textures", path]
    options, notes = command_line.parser().parse_args(words), faults.Notes()
    begun = time.process_time()
    try:
        followed = machine.Machine(options.frames, options, notes)
        calls = Timed(reading.calls_of(path), followed)
        followed.run(calls)
        data, commands = encoding.scene_bytes(followed.size, [followed.items], True, 1)
    except faults.Refused as fault:
        print(json.dumps({"refused": str(fault), "notes": notes.lines()}))
        return
    end = time.process_time()
    pathlib.Path(out).write_bytes(data)
    drawing = 1e6 * (end - calls.frame_began - calls.reading_frame)
    cut = sum(getattr(item, "vertices", 0) for item in followed.items)
    print(json.dumps({"seconds": end - begun - calls.reading, "vertices": followed.vertices,
                      "each": drawing / max(1, followed.vertices), "commands": commands,
                      "scene": drawing / max(1, cut), "bytes": len(data), "notes": notes.lines()}))


def clocked(command, scene, times=3):
    """The least of so many runs by the clock, in milliseconds, and what the last one wrote."""
    least, data = float("inf"), scene.read_bytes()
    for _ in range(times):
        begun = time.perf_counter()
        done = subprocess.run(command, input=data, stdout=subprocess.PIPE,
                              stderr=subprocess.DEVNULL)
        least = min(least, 1000 * (time.perf_counter() - begun))
        if done.returncode:
            raise SystemExit(f"captures.py: {' '.join(command)} ends with {done.returncode}")
    return least, done.stdout


def weight(note):
    """How many pixels a note is about: it may be all where what earlier frames left isn't there, or
    what shaders or frame buffer objects have drawn."""
    told = re.search(r": (\d+) vertices, (\d+) pixels$", note)
    if "begins without a clear" in note or re.match("left out (glUseProgram|what is drawn into)",
                                                    note) and told and int(told[1]):
        return math.inf
    return int(told[2]) if told else 0


def heaviest(notes, most=2):
    """The notes about most of the pixels; of none that are about any, the first ones."""
    found = [note for note in sorted(notes, key=weight, reverse=True) if weight(note)]
    return found[:most] or notes[:most]


class Row:
    """What one program comes to."""

    def __init__(self, name, frame, figures=None, failed=None, is_earlier=False):
        self.name, self.frame, self.figures, self.failed = name, frame, figures or {}, failed
        self.is_earlier = is_earlier    # whether an earlier converter was judged

    def shows(self):
        """Whether there is a picture of both, and something in the program's own."""
        return not self.failed and self.figures["drawn"] > EMPTY

    def is_off(self):
        return self.shows() and self.figures["off"] > NEAR

    def told(self):
        """Whether what is told of it is about as many pixels as are off, or of fewer; None where
        nothing is told."""
        if not self.figures["notes"]:
            return None
        off = self.figures["off"] / 100 * self.figures["pixels"]
        return sum(map(weight, self.figures["notes"])) >= off

    def cells(self):
        if self.failed:
            return [self.name, self.frame, self.failed]
        f = self.figures
        return [self.name, self.frame, f"{f['drawn']:.0f}", f["vertices"], f["commands"],
                f["bytes"], f"{f['seconds']:.2f}", f"{f['each']:.1f}", f"{f['scene']:.1f}",
                f"{f['serial']:.1f}", f"{f['render']:.1f}", f"{f['mean']:.2f}", f"{f['off']:.2f}",
                "; ".join(heaviest(f["notes"])) if f["off"] > NEAR else ""]


def counted(rows, chosen):
    """What a page says of these rows of the programs that are named: how many there are of how
    many, how many are near, and which are off, with what is told of them or without."""
    shown = [row for row in rows if row.shows()]
    off = [row for row in shown if row.is_off()]
    without = [f"`{row.name}`" for row in rows if not row.shows()]
    earlier = sum(row.is_earlier for row in rows)
    lines = [f"Of {len(chosen)} programs that the script names {len(rows) - earlier} were gone "
             "over with the converter as it is"
             + (f", and {earlier}, which have a star, with an earlier one." if earlier else ".")
             + (f" The other {len(chosen) - len(rows)} weren't, and nothing is said of them here."
                if len(rows) < len(chosen) else ""),
             f"{len(shown)} of the {len(rows)} show something: {len(shown) - len(off)} of these "
             f"are within half a percent of pixels, and {len(off)} aren't."]
    if without:
        lines.append(f"The others have no picture to judge, and the table says why: "
                     f"{', '.join(without)}.")
    for told, what in ((True, "Off, with what is told of them in the table"),
                       (False, "Off in more pixels than what is told is about"),
                       (None, "Off, and nothing is told of why")):
        names = [f"`{row.name}`" for row in off if row.told() is told]
        if names:
            lines.append(f"{what}: {', '.join(names)}.")
    return textwrap.fill(" ".join(lines), 160, break_long_words=False, break_on_hyphens=False)


def with_table(page, rows, chosen):
    """A page with these rows in its table of programs, and with what counts them before it."""
    shown = sorted((row for row in rows if row.shows()), key=lambda row: row.figures["off"])
    others = [row for row in rows if not row.shows()]
    lines = ["| program | frame | drawn % | vertices | commands | bytes | seconds | µs a vertex | "
             "µs a scene's | mean | off % | what is told |", "|---" * 12 + "|"]
    for row in shown:
        f = row.figures
        told = "; ".join(heaviest(f["notes"])) if f["off"] > NEAR else ""
        cells = (row.name + r"\*" * row.is_earlier, row.frame, f"{f['drawn']:.0f}",
                 f"{f['vertices']:,}",
                 f"{f['commands']:,}", f"{f['bytes']:,}", f"{f['seconds']:.2f}",
                 f"{f['each']:.0f}", f"{f['scene']:.0f}", f"{f['mean']:.2f}", f"{f['off']:.2f}",
                 told)
        lines.append("| " + " | ".join(map(str, cells)) + " |")
    for row in others:
        lines.append(f"| {row.name}" + r"\*" * row.is_earlier
                     + f" | {row.frame} | {row.failed or 'shows nothing'} |"
                     + " |" * 9)
    page = re.sub(r"Of \d+ programs that the script names (.+\n)+",
                  lambda _: counted(rows, chosen) + "\n", page)
    return re.sub(r"\| program \| frame \|[^\n]*\n(\|[^\n]*\n)*",
                  lambda _: "\n".join(lines) + "\n", page)


def converted(path, first, last, scene, options):
    """The figures of a conversion in a process of its own."""
    child = subprocess.run(
        [sys.executable, __file__, "--convert", str(path), str(first), str(last), str(scene)],
        stdout=subprocess.PIPE, stderr=subprocess.PIPE, timeout=options.longest)
    if child.returncode:
        raise ValueError(child.stderr.decode().splitlines()[-1])
    return json.loads(child.stdout)


def part_of(picture, width, height):
    """The part at the lower left of a picture, or all of one that has none of that size: apitrace
    makes its window as large as the viewports reach."""
    if picture.width < width or picture.height < height:
        return picture
    rows = range(picture.height - height, picture.height)
    rgb = b"".join(picture.rgb[3 * row * picture.width:][:3 * width] for row in rows)
    return pictures.Picture(width, height, rgb)


def judged(program, options, folder, environment):
    """Traces, converts, draws and compares a program's frame."""
    name = program.name
    path, scene = folder / f"{name}.trace", folder / f"{name}.rcs"
    if not path.exists():
        capture_programs.trace(program, path, options.seconds, environment)
    ends = swaps(path) if path.exists() else []
    if len(ends) < 3:
        return failed(name, "-", f"{len(ends)} frames in its trace" if path.exists()
                      else "no trace")
    frame, theirs = shown(program, path, ends, options, environment)
    row = Row(name, frame)
    try:
        row.figures = converted(path, frame, frame + 1, scene, options)
        if any("begins without a clear" in line for line in row.figures["notes"]):
            whole = converted(path, 0, frame + 1, scene.with_suffix(".whole"), options)
            if "refused" not in whole:
                row.figures, scene = whole, scene.with_suffix(".whole")
    except subprocess.TimeoutExpired:
        return failed(name, frame, f"FAILED: no end in {options.longest} seconds")
    except ValueError as fault:
        return failed(name, frame, f"FAILED: {fault}")
    if "refused" in row.figures:
        row.failed = row.figures["refused"].replace(str(folder) + "/", "")
        return row
    row.figures["serial"], data = clocked([options.program, "serial"], scene)
    row.figures["render"], _ = clocked([options.program, "render", "--tiles", "4x3"], scene)
    ours = pictures.pictures_of(data)[-1]
    theirs = theirs and part_of(theirs, *ours[:2])
    if theirs is None or theirs[:2] != ours[:2]:
        size = "none" if theirs is None else f"one of {theirs[0]}x{theirs[1]}"
        return failed(name, frame, f"of {ours[0]}x{ours[1]} here, and apitrace draws {size}")
    row.figures.update(pictures.difference(ours, theirs)._asdict(),
                       pixels=ours.width * ours.height)
    for whose, picture in (("ours", ours), ("own", theirs)):
        (folder / f"{name}-{whose}.ppm").write_bytes(as_ppm(picture))
    return row


def kept(program, options, folder, environment, mark):
    """What a program comes to, of an earlier run where that was made by the same converter; None
    of one that isn't there where no other is wanted."""
    path = folder / f"{program.name}.json"
    try:
        found = json.loads(path.read_text())
        is_earlier = found["mark"] != mark
        if options.kept and (options.earlier or not is_earlier) or not is_earlier \
                and (not found["failed"] or "refused" in found["figures"]):
            return Row(found["name"], found["frame"], found["figures"], found["failed"],
                       is_earlier)
    except (OSError, ValueError, KeyError):
        pass
    if options.kept:
        return None
    row = judged(program, options, folder, environment)
    path.write_text(json.dumps({"mark": mark, "name": row.name, "frame": row.frame,
                                "figures": row.figures, "failed": row.failed}))
    return row


def mark_of(options):
    """What figures are made by: the converter's text, and the frame that is asked for."""
    texts = [path.read_bytes() for path in sorted((TOOLS / "gl_trace").glob("*.py"))]
    return hashlib.sha256(b"".join(texts) + str(options.frame).encode()).hexdigest()


def failed(name, frame, why):
    return Row(name, frame, failed=why)


def words():
    parser = argparse.ArgumentParser(description=__doc__.splitlines()[0])
    parser.add_argument("names", nargs="*", metavar="NAME")
    parser.add_argument("--frame", type=int, default=60, metavar="N")
    parser.add_argument("--seconds", type=int, default=8, metavar="S")
    parser.add_argument("--longest", type=int, default=300, metavar="S")
    parser.add_argument("--cache", metavar="FOLDER")
    parser.add_argument("--program", help="a program other than the built one")
    parser.add_argument("--kept", action="store_true")
    parser.add_argument("--earlier", action="store_true")
    parser.add_argument("--document", type=pathlib.Path, metavar="PAGE")
    return parser.parse_args()


def main():
    if sys.argv[1:2] == ["--convert"]:
        convert(sys.argv[2], int(sys.argv[3]), int(sys.argv[4]), sys.argv[5])
        return 0
    options = words()
    options.program = None if options.kept else built(options.program)
    chosen = capture_programs.chosen(options.names)
    signal.signal(signal.SIGTERM, lambda *_: sys.exit(143))      # which ends the server too
    display = contextlib.nullcontext() if options.kept else Display()
    with tempfile.TemporaryDirectory() as made, display as environment:
        folder = pathlib.Path(options.cache or made)
        folder.mkdir(exist_ok=True)
        print("| " + " | ".join(HEAD) + " |\n" + "|---" * len(HEAD) + "|", flush=True)
        rows, mark = [], mark_of(options)
        for program in chosen:
            row = kept(program, options, folder, environment, mark)
            if row:
                rows.append(row)
                print("| " + " | ".join(map(str, row.cells())) + " |", flush=True)
    shown = [row for row in rows if row.shows()]
    off = sorted((row for row in shown if row.is_off()), key=lambda row: row.figures["off"])
    print(f"\n{len(shown) - len(off)} of {len(shown)} that show something are within {NEAR} % of "
          "pixels")
    for row in off:
        print(f"{row.name}: {row.figures['off']:.2f} % off"
              + {True: "", False: ", more than what is told is about",
                 None: ", and nothing is told of why"}[row.told()])
    if options.document:
        options.document.write_text(with_table(options.document.read_text(), rows, chosen))
    print("\n" + "\n".join(f"{row.name}: {line}" for row in rows
                           for line in row.figures.get("notes", [])))
    return 1 if any(row.failed and row.failed.startswith("FAILED") for row in rows) else 0


if __name__ == "__main__":
    sys.exit(main())
