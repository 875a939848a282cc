"""The words of from_apitrace.py, and what it writes."""
import argparse
import contextlib
import io
import math
import os
import re
import resource
import sys
import time

from .dealing import deal, wall
from .encoding import scene_bytes
from .faults import Notes, Refused
from .limits import MOST_CLIENTS, MOST_MEMORY, MOST_SIDE, MOST_TEXTURE_SIDE
from .machine import Machine
from .pieces import Pieces
from .reading import calls_of

NAME = "from_apitrace"
PATIENCE = 10       # seconds


def pair(between, holds, form):
    """A reader of a word of two numbers with this between them."""
    def read(word):
        match = re.fullmatch(rf"([0-9]{{1,9}}){between}([0-9]{{1,9}})", word)
        if not match or not holds(int(match[1]), int(match[2])):
            raise argparse.ArgumentTypeError(f"{word} isn't {form}")
        return int(match[1]), int(match[2])
    return read


def number(least, most, what):
    """A reader of a word of one number in this range."""
    def read(word):
        if not re.fullmatch("[0-9]{1,9}", word) or not least <= int(word) <= most:
            raise argparse.ArgumentTypeError(f"{word} isn't {what} from {least} to {most}")
        return int(word)
    return read


FRAMES = pair(":", lambda first, last: first < last, "A:B with A below B")
SIZE = pair("x", lambda w, h: 0 < min(w, h) and max(w, h) <= MOST_SIDE, "WxH, sides 1 to 2048")


def parser():
    words = argparse.ArgumentParser(
        prog=NAME + ".py", description="Writes frames of traced OpenGL 1.x programs as a scene "
        "to standard output.", epilog="What has no counterpart in a scene is told on standard "
        "error, by name and how often. docs/real-programs.md tells what comes out how.")
    words.add_argument("trace", nargs="+", help="a trace of apitrace, or - for what `apitrace "
                       "pickle --symbolic` writes; several are a wall, one client each")
    words.add_argument("--frames", type=FRAMES, default=(0, 1), metavar="A:B",
                       help="frames A to B - 1, counted from 0 (0:1)")
    words.add_argument("--clients", type=number(1, MOST_CLIENTS, "a number"), default=1,
                       metavar="N", help="deal the blocks of one trace to N clients; the picture "
                       "stays that of one")
    words.add_argument("--pieces", type=number(1, 10 ** 8, "a number"), metavar="N",
                       help="write scene after scene of at most N frames each, NAME-0000.rcs and "
                       "on, while the trace is read once")
    words.add_argument("--to", metavar="NAME", help="how the files of --pieces begin")
    words.add_argument("--by-depth", action="store_true", help="let opaque blocks of several "
                       "clients overlap: right but where two have one depth")
    words.add_argument("--size", type=SIZE, metavar="WxH",
                       help="the window, where it isn't that of the context that swaps first")
    words.add_argument("--columns", type=number(1, MOST_CLIENTS, "a number"), metavar="C",
                       help="columns of a wall of several traces")
    words.add_argument("--texture-side", type=number(1, MOST_TEXTURE_SIDE, "a side"),
                       default=MOST_TEXTURE_SIDE, metavar="T",
                       help="textures are boxed down to sides of at most T (256)")
    words.add_argument("--cut-textures", action="store_true", help="cut larger textures into parts "
                       "of that size instead, and polygons with them")
    words.add_argument("--nearest", action="store_true", help="sample textures at their nearest "
                       "texels where a program has a linear filter: smaller scenes")
    words.add_argument("--no-lists", action="store_true", help="write no call lists")
    words.add_argument("--version", type=number(1, 2, "a version"), default=1, metavar="V",
                       help="of a scene without call lists (1)")
    return words


class Progress:
    """Tells behind ten seconds, and every ten from then on, how far a trace is read."""

    def __init__(self, stream, frames):
        self.stream, self.frames, self.due = stream, frames, time.monotonic() + PATIENCE

    def at(self, call, frame):
        now = time.monotonic()
        if now >= self.due:
            self.due = now + PATIENCE
            told([f"call {call} of the trace is read, in frame {frame}; asked for are frames "
                  "{}:{}".format(*self.frames)], self.stream)


def followed(options, notes, stream):
    """Size and items of each trace."""
    programs = []
    for path in options.trace:
        progress = Progress(stream, options.frames)
        pieces = Pieces(options, lambda line: told([line], stream)) if options.pieces else None
        machine = Machine(options.frames, options, notes, pieces, progress)
        machine.run(calls_of(path))
        if machine.size is None:
            raise Refused(f"{path}: no viewport is set: give --size")
        programs.append((machine.size, machine.items))
    return programs


def converted(options, notes):
    """The bytes of the scene that the words ask for, and a line about it."""
    if len(options.trace) > MOST_CLIENTS:
        raise Refused(f"{len(options.trace)} traces, and a scene has at most {MOST_CLIENTS} "
                      "clients: give fewer")
    # Of a pickle that asks for more memory than there is, Python tells in lines of its own.
    stream = sys.stderr
    with contextlib.redirect_stderr(io.StringIO()):
        programs = followed(options, notes, stream)
    if options.pieces:
        return b"", None
    if len(programs) == 1:
        size, items = programs[0]
        streams = deal(items, options.clients, options.by_depth, size[0])
    else:
        columns = options.columns or math.ceil(math.sqrt(len(programs)))
        size, streams = wall(programs, columns)
    data, commands = scene_bytes(size, streams, not options.no_lists, options.version)
    items = sum(map(len, streams))
    return data, (f"{size[0]}x{size[1]}, version {data[3:4].decode()}, {len(streams)} clients, "
                  f"{items} items, {commands} commands, {len(data)} bytes")


def told(lines, stream=None):
    """Lines on standard error, if that takes them."""
    stream = stream or sys.stderr
    try:
        for line in lines:
            print(f"{NAME}: {line}", file=stream)
        stream.flush()
    except OSError:
        pass


def written(data):
    """Writes the scene, and gives the status: a reader that ends early is no news."""
    try:
        sys.stdout.buffer.write(data)
        sys.stdout.buffer.flush()
        return 0
    except OSError as fault:
        # What is left in the buffer goes nowhere, or Python would tell of it at its end.
        os.dup2(os.open(os.devnull, os.O_WRONLY), 1)
        if not isinstance(fault, BrokenPipeError):
            told([f"standard output: {fault.strerror}"])
        return 1


def hold_memory():
    """Lets the process have so much memory and no more, so that a trace can't take all."""
    _, hard = resource.getrlimit(resource.RLIMIT_AS)
    most = MOST_MEMORY if hard == resource.RLIM_INFINITY else min(hard, MOST_MEMORY)
    resource.setrlimit(resource.RLIMIT_AS, (most, hard))


def main(words=None):
    """Converts as the words say. The status is 0, 1 with a line that says why, or 2 for words."""
    options = parser().parse_args(words)
    if len(options.trace) > 1 and options.clients > 1:
        parser().error("several traces are one client each: --clients is for one trace")
    if bool(options.pieces) != (options.to is not None):
        parser().error("--pieces N and --to NAME go together")
    if options.pieces and len(options.trace) > 1:
        parser().error("--pieces is for one trace")
    notes = Notes()
    hold_memory()
    try:
        data, line = converted(options, notes)
    except Refused as fault:
        told([*notes.lines(), str(fault)])
        return 1
    except MemoryError:
        told([*notes.lines(), "out of memory: choose fewer frames"])
        return 1
    except KeyboardInterrupt:
        return 1
    told([*notes.lines(), line] if line else notes.lines())
    return written(data)
