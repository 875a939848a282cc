#!/usr/bin/env python3
"""Runs the program on scenes at the edge of each limit, and one past it.

    limits.py [PROGRAM]

Prints a Markdown table, the one of docs/limits.md: for each limit that is a matter of size the scene at its edge; status, seconds by the clock and greatest
resident size of `render` on it (with the words that stand behind the scene) and of `serial`; and the line with which one past the edge is refused. Seconds
depend on the machine and on what else it does. The status is 1 where a scene at an edge isn't carried out, or one past it isn't refused.
"""
import multiprocessing
import os
import pathlib
import subprocess
import sys
import tempfile
import time

sys.path.insert(0, str(pathlib.Path(__file__).resolve().parent.parent))
sys.path.append(str(pathlib.Path(__file__).resolve().parents[2] / "tools"))

from command import Words
from list_scenes import costing
from program import built
from scene_forms import LONGEST, MOST_COMMANDS, Scene, command, scene_bytes
from scene_lists import MOST_COST

SWAP, CLEAR = command("Swap"), command("Clear", 3)
ONE = 65536
CORNERS = ((-ONE, -ONE), (3 * ONE, -ONE), (-ONE, 3 * ONE))


def full():
    """A triangle over the whole window."""
    return [command("Begin", 0), *(command("Vertex", x, y, 0, ONE) for x, y in CORNERS), command("End")]


def one_client(width, height, commands, shared=(), barriers=(), semaphores=()):
    return Scene(width, height, shared, barriers, semaphores, [commands])


# ---- the scenes, by a number that is at its edge or one more


def width(side):
    return one_client(side, 2048, [command("Color", 200, 90, 20, 255), *full(), SWAP])


def height(side):
    return one_client(2048, side, [command("Color", 200, 90, 20, 255), *full(), SWAP])


def clients(count):
    """All clients clear and meet in each of four frames."""
    frame = [command("ClearColor", 9, 8, 7, 6), CLEAR, command("Barrier", 1), SWAP]
    return Scene(256, 256, [], [min(count, 8)], [], [frame * 4] * count)


def shared_textures(count):
    writes = [command("SharedImage", name, 0, 0, 256, 256, texels=bytes(4 << 16)) for name in range(1, count + 1)]
    return one_client(64, 64, writes + [SWAP], shared=[(256, 256)] * count)


def shared_texels(count):
    """One shared texture of so many texels, which is written whole in rows."""
    rows = count // 32768 if count % 32768 == 0 else 1
    shared = [(32768, rows)] if rows > 1 else [(32768, 32), (1, 1)]
    writes = [command("SharedImage", 1, 0, y, 32768, 1, texels=bytes(4 * 32768)) for y in range(shared[0][1])]
    return one_client(64, 64, writes + [SWAP], shared=shared)


def barriers(count):
    """Eight clients meet at each barrier in turn, and draw between."""
    stream = [c for name in range(1, count + 1) for c in (*full(), command("Barrier", name))]
    return Scene(64, 64, [], [8] * count, [], [stream + [SWAP]] * 8)


def semaphores(count):
    """Eight clients give and take a unit of each semaphore in turn."""
    stream = [c for name in range(1, count + 1) for c in (command("SemV", name), command("SemP", name), *full())]
    return Scene(64, 64, [], [], [65535] * count, [stream + [SWAP]] * 8)


def commands(count):
    """One client's commands, most of which set a colour."""
    return one_client(64, 64, [command("Color", 1, 2, 3, 4)] * (count - 6) + full() + [SWAP])


def operations(count):
    """One client gives and takes a unit over and over."""
    pairs = [command("SemV", 1), command("SemP", 1)] * (count // 2)
    return one_client(64, 64, pairs[:count - 1] + [SWAP], semaphores=[1])


def vertices(count):
    """One block of so many vertices."""
    strip = [command("Vertex", -ONE + 8 * i, ONE if i % 2 else -ONE, 0, ONE) for i in range(count)]
    return one_client(1024, 768, [command("Begin", 1), *strip, command("End"), SWAP])


def pixels(frames):
    return one_client(2048, 2048, [c for i in range(frames) for c in (command("ClearColor", 30 * i % 256, 40, 200, 255), CLEAR, SWAP)])


def scene_of_size(size):
    """A scene of so many bytes: parts of a shared texture of 1,024 by 1,024 texels, and commands of one byte each."""
    whole = [command("SharedImage", 1, 0, 0, 1024, 1024, texels=bytes(4 << 20))] * 7
    part = command("SharedImage", 1, 0, 0, 1024, 1023, texels=bytes(4 * 1024 * 1023))
    base = one_client(64, 64, [*whole, part, SWAP], shared=[(1024, 1024)])
    left = size - len(scene_bytes(base))
    # Each packet of 1,024 commands has two bytes more than commands without payload.
    plain = next(n for n in range(left, 0, -1) if len(scene_bytes(one_client(1, 1, [SWAP] * (n + 9)))) - len(scene_bytes(one_client(1, 1, [SWAP] * 9))) == left)
    base.streams[0] += [command("LoadIdentity")] * plain
    return base


def expansion(cost):
    """A scene with lists of so much cost: a picture that a list gives over and over."""
    return Scene(64, 64, [], [], [], [costing(cost)], 3)


# What is limited, the scene at its edge in words, the function that makes it, the number at the edge, and the words of `render`.
EDGES = (
    ("width 2048", "2048 by 2048, a triangle over the whole window", width, 2048, "--tiles 4x4"),
    ("height 2048", "the same", height, 2048, "--tiles 4x4"),
    ("8 clients", "four frames, a barrier and a clear of each client in each", clients, 8, "--tiles 4x4"),
    ("16 shared textures", "of 256 by 256 texels, each written once", shared_textures, 16, "--tiles 4x4"),
    ("1,048,576 shared texels", "one texture of 32,768 by 32, written row by row", shared_texels, 1_048_576, "--tiles 4x4"),
    ("64 barriers", "of eight clients, who meet at each and draw between", barriers, 64, "--tiles 4x4"),
    ("64 semaphores", "eight clients who give and take a unit of each and draw between", semaphores, 64, "--tiles 4x4"),
    ("1,048,576 commands", "one client, all but six of them set a colour", commands, MOST_COMMANDS, "--tiles 4x4"),
    ("1,048,576 commands", "one client, all but one of them give or take a unit", operations, MOST_COMMANDS, "--tiles 4x4"),
    ("16,383 vertices in a block", "a strip over a window of 1024 by 768", vertices, 16_383, "--tiles 4x4"),
    ("33,554,432 held pixels", "8 frames of 2048 by 2048, each cleared", pixels, 8, "--tiles 4x4"),
    ("2,147,483,648 pixels", "512 frames of 2048 by 2048, each cleared", pixels, 512, "--tiles 4x4"),
    ("67,108,864 of costs", "a list with a picture of 256 by 256 texels, called 255 times", expansion, MOST_COST, "--tiles 4x4"),
    ("33,554,432 input bytes", "eight writes of a shared texture of 1024 by 1024", scene_of_size, LONGEST, "--tiles 4x4"),
)
# `serial` holds all frames at once, and takes fewer of them.
PAST_SERIAL = ("2,147,483,648 pixels",)
# The same for words: words at the edge, and words past it, on this scene.
WORDS = (
    ("8 columns of tiles", "--tiles 8x1", "--tiles 9x1"),
    ("8 rows of tiles", "--tiles 1x8", "--tiles 1x9"),
    ("32 tiles", "--tiles 8x4", "--tiles 7x5"),
    ("depth 16", "--tiles 8x4 --depth 16", "--tiles 8x4 --depth 17"),
)


def write(path, make, number):
    path.write_bytes(scene_bytes(make(number)))


def made(path, make, number):
    """The scene in a file. Another process makes it: the greatest size of a process counts from that of the one that started it."""
    maker = multiprocessing.Process(target=write, args=(path, make, number))
    maker.start()
    maker.join()
    return path


def run(program, words, path):
    """Status, seconds by the clock, greatest resident size in MB, and the notes."""
    with open(path, "rb") as source, tempfile.TemporaryFile() as notes:
        begun = time.perf_counter()
        child = subprocess.Popen([program, *words], stdin=source, stdout=subprocess.DEVNULL, stderr=notes)
        _, status, usage = os.wait4(child.pid, 0)
        seconds = time.perf_counter() - begun
        notes.seek(0)
        return os.waitstatus_to_exitcode(status), seconds, usage.ru_maxrss / 1024, notes.read(100_000).decode()


def cells(program, words, path):
    """The cells of a run, and whether it was carried out."""
    status, seconds, size, _ = run(program, words, path)
    return f"{status} | {seconds:.2f} s | {size:.0f} MB", status == 0


def main():
    parser = Words(__doc__)
    parser.add_argument("program", metavar="PROGRAM", nargs="?", help="the built program (crates/render_cli/out/render_cli)")
    program = built(parser.parse_args().program)
    right = True
    print("| limit | scene at the edge | `render` | | | `serial` | | | one past it |\n|---|---|---|---|---|---|---|---|---|")
    with tempfile.TemporaryDirectory() as work:
        path = pathlib.Path(work) / "scene.rcs"
        for name, scene, make, edge, words in EDGES:
            made(path, make, edge)
            render, drawn = cells(program, ["render", *words.split()], path)
            serial, done = ("| |", True) if name in PAST_SERIAL else cells(program, ["serial"], path)
            status, _, _, notes = run(program, ["serial"], made(path, make, edge + 1))
            line = notes.splitlines()[0]
            right = right and drawn and done and (status == 4 or "fault" in line)
            print(f"| {name} | {scene}; `{words}` | {render} | {serial} | `{line}` |", flush=True)
        made(path, clients, 8)
        for name, words, past in WORDS:
            render, drawn = cells(program, ["render", *words.split()], path)
            status, _, _, notes = run(program, ["render", *past.split()], path)
            right = right and drawn and status == 4
            print(f"| {name} | that of 8 clients; `{words}` | {render} | | | | `{notes.splitlines()[0]}` |", flush=True)
    sys.exit(0 if right else 1)


if __name__ == "__main__":
    main()
