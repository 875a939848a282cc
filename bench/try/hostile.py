#!/usr/bin/env python3
"""Gives the program hostile input and looks how it ends.

    hostile.py [PROGRAM] [--seeds 1,2,3] [--inputs 20000] [--jobs J] [--keep FOLDER] [--only SEED:N]

A seed makes inputs out of sound scenes and texts: those of examples/ that are small, some that the program makes by `gen`, the ones below, and these with call
lists. In bytes, bits are flipped, bytes set, put in and taken out, spans doubled and moved, counts and lengths set to edge values, scenes cut off and spliced;
in the commands of a scene, commands are dropped, doubled, moved, taken from another scene, recorded and called, and their numbers set to edge values; in texts also
words and lines.
Input N of a seed is the same at each run.

Each run of the program has at most 10 seconds and 2 GB of address space, which is ample (but C's malloc reserves 64 MB for each of many threads, so it is
told to do so for two). It has to end by itself with a status that its job has.
- What the bytes of a scene spell, what its call lists mean, and with which line other bytes are refused, is read off by scene_forms.py and scene_lists.py, and
  `render`, `simulate`, `serial`, `check` and `unpack` have to agree with it: the status, the one line, and an empty image. So has `pack` of a text: the line, or the
  bytes.
- A sound scene with call lists has the runs of its expansion as a scene of version 2, behind the lines of its refused list commands. `serial` draws both. One of
  more than 20,000 commands, or with much to draw, is given to `check` alone.
- Of a sound scene `unpack` has to write its text, and `pack` of that the scene's bytes in packets of 1,024 commands; each report is a report and tells the
  refused commands that scene_faults.py finds, each image has the size of the frames that its report tells, and `check` tells what `serial` does. Where
  `render`, `simulate` and `serial` all end with 0, their reports agree, and so they do where one client takes from each semaphore and no barrier is named by
  more clients than it counts. Where no client takes a unit and each barrier that is named counts all clients, the
  ends of all three and the last lines of their reports are computed. Where the frames are more than `serial` and `simulate` hold, these two have to say so,
  and `render` isn't run.
- Where the scene is ordered, `render`, `simulate` and `serial` give one image.

Ordered is judged by conditions that are sufficient, and not necessary: the scene has one client; or no client takes a unit, each barrier that is named
counts all clients, and no two clients draw, clear or write a shared texture between the same two meetings; or one client alone does that and all three end
with 0; or nobody contends and `race` ends with 0. The clauses `serial_image` and `foreseen_image` of `run` and docs/synchronisation.md say why.

For each seed a line tells how many inputs it made, how many of them ended with each status (scenes by `render`, texts by `pack`), of how many the images
were compared as those of an ordered scene, and the seconds. At the first difference the input is written to FOLDER (hostile-found), the command that
shows it is printed, and the status is 1. `--only SEED:N` makes this one input again and judges it alone.
"""
import argparse
import collections
import itertools
import multiprocessing
import os
import pathlib
import random
import re
import resource
import signal
import subprocess
import sys
import tempfile
import time

sys.path.insert(0, str(pathlib.Path(__file__).resolve().parent.parent))
sys.path.append(str(pathlib.Path(__file__).resolve().parents[2] / "tools"))

import list_scenes
import scene_faults
import scene_forms
import scene_lists
from command_table import BY_OPCODE
from program import EXAMPLES, built
from scene_forms import ALL_COMMANDS, DRAWN_VERSIONS, PICTURES, Refused

SECONDS, MEMORY = 10, 2 << 30
MEETINGS = ("Barrier", "Swap")
LARGEST_EXAMPLE = 4000
# What lists may give to a job that draws: so many commands, so many times the window's pixels, and so many bytes of texels.
MOST_GIVEN, MOST_DRAWN, MOST_TEXELS = 20_000, 1 << 28, 1 << 22

# A `;` stands for the end of a line.
FULL = "Begin 0;Vertex -65536 -65536 0 65536;Vertex 196608 -65536 0 65536;Vertex -65536 196608 0 65536;End"
STRIP = "Begin 1;TexCoord 0 0;Vertex -65536 -65536 0 65536;TexCoord 65536 0;Vertex 65536 -65536 0 65536;Color 9 200 30 128;TexCoord 0 65536;" \
    "Vertex -65536 65536 0 65536;TexCoord 131072 -65536;Vertex 65536 65536 -9000 65536;End"
FAN = "Begin 2;Vertex 0 0 0 65536;Vertex 60000 0 100 65536;Color 255 0 0 255;Vertex 30000 50000 0 65536;Vertex -30000 50000 0 70000;End"
MATRIX = "65536 0 0 0 0 32768 0 0 0 0 65536 0 1000 -2000 0 65536"
TINY = (
    # every command that sets state, and every command that draws
    "scene 1 9 7;client;Enable 0;Scissor 1 1 6 5;Viewport -1 0 9 8;DepthRange 100 60000;ClearColor 20 40 60 80;ClearDepth 50000;Clear 3;Enable 2;"
    f"DepthFunc 3;{STRIP};DepthMask 0;Enable 4;CullFace 1;FrontFace 1;{FAN};Disable 4;Enable 3;BlendFunc 6 7;ColorMask 1 1 0 1;Enable 1;AlphaFunc 4 20;{STRIP};"
    f"MatrixMode 1;LoadMatrix {MATRIX};PushMatrix;MultMatrix {MATRIX};{FAN};PopMatrix;MatrixMode 0;LoadIdentity;Color 1 2 3 4;{FULL};Swap;Disable 0;{FULL};"
    "Swap",
    # private textures
    f"scene 1 8 8;client;TexImage 1 2 2 ff0000ff00ff00ff0000ffffffffff80;TexPart 1 1 0 1 1 10203040;Enable 5;TexEnv 1;TexWrap 0 1;{STRIP};"
    f"TexImage 64 1 3 0102030405060708090a0b0c;BindTexture 0 64;TexEnv 0;TexWrap 1 0;Enable 3;BlendFunc 8 5;{STRIP};Swap;TexPart 64 0 0 0 0;{FULL};Swap",
    # a shared texture that is written and read on both sides of a barrier
    f"scene 1 8 2;shared 2 1;shared 3 2;barrier 2;client;SharedImage 1 0 0 2 1 ff0000ff00ff00ff;Barrier 1;Swap;SharedImage 2 1 1 1 1 01020304;Swap;"
    f"client;Barrier 1;BindTexture 1 1;Enable 5;TexEnv 1;TexCoord -1 0;{FULL};Swap;Swap",
    # a shared texture that is passed on by units
    f"scene 1 6 4;shared 1 1;semaphore 0;semaphore 0;client;SharedImage 1 0 0 1 1 ff0000ff;SemV 1;SemP 2;SharedImage 1 0 0 1 1 00ff00ff;SemV 1;Swap;"
    f"client;Enable 5;BindTexture 1 1;TexEnv 1;SemP 1;{STRIP};SemV 2;Viewport 3 0 3 4;SemP 1;{STRIP};Swap",
    # clients who take turns, with units that nobody takes
    f"scene 1 7 5;barrier 3;barrier 3;semaphore 0;client;Color 9 8 7 6;{FULL};Barrier 1;SemV 1;Barrier 2;Swap;Clear 1;Barrier 1;Swap;client;Barrier 1;Enable 3;"
    f"BlendFunc 6 7;Color 90 80 70 60;{FULL};SemV 1;Barrier 2;Swap;Barrier 1;{FAN};Swap;client;Barrier 1;Barrier 2;{STRIP};Swap;Barrier 1;Swap",
    # four clients who take turns in drawing over each other
    "scene 1 5 6;barrier 4" + "".join(f";client;Enable 3;BlendFunc 6 {k}" + "".join(
        (f";Color {60 * k} {200 - 50 * k} 30 {90 + k};{FULL}" if turn == k else "") + ";Barrier 1" for turn in range(4)) + ";Swap" for k in range(4)),
    # a lock
    f"scene 1 2 1;semaphore 1;client;Enable 3;BlendFunc 6 7;Color 255 0 0 128;SemP 1;{FULL};SemV 1;Swap;client;Enable 3;BlendFunc 6 7;Color 0 0 255 128;"
    f"SemP 1;{FULL};SemV 1;Swap",
    # one client draws, and three give and take units and meet by twos
    f"scene 1 4 4;barrier 2;semaphore 1;semaphore 0;client;SemP 1;{FULL};SemV 1;Barrier 1;SemP 2;Clear 1;Swap;client;SemP 1;SemV 1;SemV 2;Barrier 1;Swap;"
    "client;SemV 1;SemP 1;Swap",
    # two clients who wait for each other
    "scene 1 3 3;semaphore 0;semaphore 0;client;ClearColor 240 180 60 255;Clear 1;Swap;SemP 1;SemV 2;Swap;client;Swap;SemP 2;SemV 1;Swap",
    # commands that are refused
    "scene 1 3 2;barrier 1;semaphore 3;client;Vertex 1 2 3 4;End;PopMatrix;Begin 3;Begin 0;Clear 1;Swap;Barrier 1;SemP 1;End;Clear 4;Barrier 2;SemV 0;Enable 6;"
    "TexPart 1 0 0 1 1 01020304;TexImage 65 1 1 01020304;TexImage 1 0 1;SharedImage 1 0 0 0 0;Scissor 0 0 -1 0;Viewport 0 0 2049 1;Swap",
    # triangles of version 2 that the near plane cuts: a corner in the eye, one behind it, both by strips, and one that is culled
    f"scene 2 8 6;client;Begin 0;Vertex -65536 -65536 0 65536;Vertex 196608 -65536 0 65536;Vertex -65536 196608 0 0;End;Enable 3;BlendFunc 6 7;Color 200 40 9 90;"
    "Begin 1;Vertex -65536 -65536 0 65536;Vertex 65536 -65536 0 40000;Vertex -65536 65536 0 -300;Vertex 65536 65536 9 255;Vertex 0 3 0 256;Vertex 9 0 0 -65536;"
    f"End;Enable 4;FrontFace 1;{STRIP};{FAN};Swap",
    # and clients of version 2 who take turns
    f"scene 2 5 4;shared 2 2;barrier 2;client;{STRIP};Barrier 1;SharedImage 1 0 0 1 2 0102030405060708;Barrier 1;Swap;client;Barrier 1;Barrier 1;Enable 5;"
    "BindTexture 1 1;Begin 2;TexCoord 0 0;Vertex 0 0 0 65536;TexCoord 65536 9;Vertex 60000 0 0 -9000;Vertex 0 60000 0 65536;Vertex -60000 0 0 300;End;Swap",
    # eight clients, most of them with little
    f"scene 1 16 9;barrier 8;client;{FULL};Barrier 1;Swap" + ";client;Barrier 1;Swap" * 6 + f";client;Barrier 1;{FAN};Swap",
)
# And each command that none of them names.
UNNAMED = [row for row in BY_OPCODE if not re.search(rf"\b{row.name}\b", ";".join(TINY))]
TINY += tuple(f"scene 1 9 7;client;{' '.join([row.name, *['1'] * len(row.fields)])};{STRIP};Swap" for row in UNNAMED)

BYTES = (0, 1, 2, 3, 8, 9, 0x1E, 0x20, 0x21, 0x22, 0x23, 0x24, 0x25, 0x26, 0x27, 0x40, 0x41, 0x7F, 0x80, 0xFE, 0xFF)
NUMBERS = {1: BYTES, 2: (0, 1, 2, 3, 8, 255, 256, 1023, 1024, 1025, 2047, 2048, 2049, 32767, 32768, 65535),
           4: (0, 1, 2, 3, 255, 65535, 65536, 0x7FFFFFFF, 0x80000000, 0xFFFFFFFE, 0xFFFFFFFF)}
WORDS = (-2147483648, -2147483647, -1048577, -65537, -65536, -65535, -32769, -32768, -1, 0, 1, 15, 16, 32767, 32768, 65535, 65536, 65537, 131072, 1048576,
         16777215, 2147483647)
TEXT_NUMBERS = (b"-0", b"-1", b"00", b"01", b"255", b"256", b"65535", b"65536", b"2147483647", b"2147483648", b"-2147483648", b"-2147483649",
                b"9999999999", b"10000000000", b"00000000001", b"+1", b"1.", b"0x1", b"-", b"--1", b"1e3", b"18446744073709551616")
TEXT_PIECES = (b"", b" ", b"   ", b"#", b"# x", b" #", b"\r", b"\t", b"\x00", b"\x7f", b"\xc3\xa9", b"scene 1 2 2", b"shared 1 1", b"barrier 1",
               b"semaphore 9", b"client", b"Client", b"End", b"Swap", b"SWAP", b"Clear 1", b"Begin", b"SharedImage 1 0 0 1 1 0102030g",
               b"TexImage 1 1 1 01020304 0", b"Vertex 1 2 3")

# ---- inputs


def span(rng, size, most=24):
    """The ends of a part of so many bytes, words, lines or commands."""
    first = rng.randrange(size + 1)
    return first, min(size, first + rng.randint(1, most))


def change_bytes(rng, data, others):
    """One change of bytes."""
    kind = rng.randrange(12)
    first, last = span(rng, len(data))
    if kind <= 1 and data:
        at = rng.randrange(len(data))
        return data[:at] + bytes([data[at] ^ 1 << rng.randrange(8)]) + data[at + 1:]
    if kind == 2 and data:
        at = rng.randrange(len(data))
        return data[:at] + bytes([rng.choice(BYTES)]) + data[at + 1:]
    if kind == 3:
        return data[:first] + bytes(rng.choice(BYTES) if rng.randrange(2) else rng.randrange(256) for _ in range(rng.randint(1, 4))) + data[first:]
    if kind == 4:
        return data[:first] + data[last:]
    if kind == 5:
        return data[:last] + data[first:]
    if kind == 6:
        rest = data[:first] + data[last:]
        to = rng.randrange(len(rest) + 1)
        return rest[:to] + data[first:last] + rest[to:]
    if kind == 7:
        other = rng.choice(others)
        return data[:first] + other[rng.randrange(len(other)):]
    if kind == 8:
        return data[:first]
    return change_count(rng, data, kind == 9)


def change_count(rng, data, anywhere):
    """A number of one, two or four bytes is set to an edge value, or to one more or less: a count or a length, or any."""
    counts = scene_forms.places(data)
    at, size = (rng.randrange(len(data) + 1), rng.choice((1, 2, 4))) if anywhere or not counts else rng.choice(counts)
    number = int.from_bytes(data[at:at + size], "little") + rng.choice((-1, 1)) if rng.randrange(2) else rng.choice(NUMBERS[size])
    return data[:at] + (number % (1 << 8 * size)).to_bytes(size, "little") + data[at + size:]


def change_numbers(rng, command):
    """One number of a command is set to an edge value; the texels of a picture follow its sides where these are small."""
    opcode, numbers, texels = command
    if not numbers:
        return command
    layout, numbers, at = ALL_COMMANDS[opcode][1], list(numbers), rng.randrange(len(numbers))
    if layout.endswith("i"):
        numbers[at] = rng.choice(WORDS) if rng.randrange(2) else max(-2147483648, min(2147483647, numbers[at] + rng.randint(-70000, 70000)))
    elif layout.endswith("H") and at > 0:
        numbers[at] = rng.choice((0, 1, 2, 3, 5, 255, 256, 257, 65535)) if rng.randrange(4) == 0 else rng.randrange(4)
    else:
        numbers[at] = rng.choice(BYTES) if rng.randrange(2) else rng.randrange(10)
    if opcode in PICTURES:
        area = numbers[-2] * numbers[-1]
        texels = (texels * (area + 1) or bytes(rng.randrange(256) for _ in range(4 * area)))[:4 * area] if area <= 1024 else texels
    return opcode, tuple(numbers), texels


def change_stream(rng, scene, other):
    """One change of a stream."""
    commands = rng.choice(scene.streams)
    if scene.version == 3 and rng.randrange(3) == 0:
        list_scenes.change_lists(rng, commands)
        return
    kind = rng.randrange(7)
    first, last = span(rng, len(commands), 6)
    if kind == 0:
        del commands[first:last]
    elif kind == 1:
        commands[first:first] = commands[first:last]
    elif kind == 2:
        moved = commands[first:last]
        del commands[first:last]
        target = rng.choice(scene.streams)
        at = rng.randrange(len(target) + 1)
        target[at:at] = moved
    elif kind == 3:
        theirs = rng.choice(other.streams)
        start, end = span(rng, len(theirs), 12)
        commands[first:first] = theirs[start:end]
    elif commands:
        at = rng.randrange(len(commands))
        commands[at] = change_numbers(rng, commands[at])


def change_scene(rng, scene, other):
    """One change of a scene that is spelled again."""
    kind = rng.randrange(12)
    if kind == 0:
        scene.width, scene.height = rng.choice((1, 2, 3, 7, 31, 64, scene.height)), rng.choice((1, 2, 5, 16, 33, scene.width))
    elif kind == 1 and len(scene.streams) < 8:
        scene.streams.insert(rng.randrange(len(scene.streams) + 1), list(rng.choice(other.streams)))
    elif kind == 2 and len(scene.streams) > 1:
        scene.streams.pop(rng.randrange(len(scene.streams)))
    elif kind == 3:
        changed = rng.choice((scene.barriers, scene.semaphores))
        if changed and rng.randrange(2):
            changed[rng.randrange(len(changed))] = rng.choice((1, 2, len(scene.streams), 8))
        else:
            changed.append(rng.choice((1, len(scene.streams))))
    elif kind == 4 and len(scene.shared) < 16:
        scene.shared.append((rng.choice((1, 2, 3, 300)), rng.choice((1, 2, 5))))
    else:
        change_stream(rng, scene, other)


def change_text(rng, text, others):
    """One change of a text."""
    lines = text.split(b"\n")
    at = rng.randrange(len(lines))
    words = lines[at].split(b" ")
    word = rng.randrange(len(words))
    first, last = span(rng, len(lines), 5)
    kind = rng.randrange(12)
    if kind == 0:
        return change_bytes(rng, text, others)
    if kind == 1:
        lines[first:last] = []
    elif kind == 2:
        lines[first:first] = lines[first:last]
    elif kind == 3:
        to = rng.randrange(len(lines))
        lines[at], lines[to] = lines[to], lines[at]
    elif kind == 4:
        lines.insert(at, rng.choice(TEXT_PIECES))
    elif kind == 5:
        other = rng.choice(others).split(b"\n")
        start, end = span(rng, len(other), 12)
        lines[at:at] = other[start:end]
    elif kind == 6:
        lines[at] += rng.choice(TEXT_PIECES)
    else:
        to = rng.randrange(len(words))
        if kind == 7:
            words[word], words[to] = words[to], words[word]
        elif kind == 8:
            words.insert(to, words[word])
        elif kind == 9:
            words.pop(word)
        elif kind == 10:
            words[word] = rng.choice(TEXT_NUMBERS)
        else:
            words[word] = str(rng.choice(WORDS) if rng.randrange(3) == 0 else rng.randrange(8)).encode()
        lines[at] = b" ".join(words)
    return b"\n".join(lines)


def make_input(seed, number, scenes, texts):
    """An input of a seed, and whether it is a text."""
    rng = random.Random(f"{seed}:{number}")
    changes = rng.choice((1, 1, 1, 2, 2, 3, 5))
    if rng.randrange(4) == 0:
        data = rng.choice(texts)
        for _ in range(changes):
            data = change_text(rng, data, texts)
        return data, True
    data = rng.choice(scenes)
    if rng.randrange(4):
        scene, other = (scene_forms.read(one, DRAWN_VERSIONS) for one in (data, rng.choice(scenes)))
        if rng.randrange(12) == 0:
            scene.version = rng.choice(DRAWN_VERSIONS)
        for _ in range(changes):
            change_scene(rng, scene, other)
        data = scene_forms.scene_bytes(scene, rng.choice((1, 2, 7, 1024)))
        changes = rng.choice((0, 0, 0, 0, 1))
    for _ in range(changes):
        data = change_bytes(rng, data, scenes)
    return data, False


# ---- what is due for a scene


def walk(scene, commands):
    """Of a stream: the faults, by place and name; the operations, as place, name and numbers; and between which meetings something may be drawn."""
    meetings, faults, operations, rounds = 0, [], [], set()
    for place, name, numbers, fault in scene_faults.issue(scene, commands):
        if fault:
            faults.append((place, fault))
        elif name in ("End", "Clear", "SharedImage"):
            rounds.add(meetings)
        elif name in ("Barrier", "SemP", "SemV", "Swap"):
            operations.append((place, name, numbers))
            meetings += name in MEETINGS
    return faults, operations, rounds


class Due:
    """What can be told of a scene's runs from its streams alone."""

    def __init__(self, scene):
        walks = [walk(scene, commands) for commands in scene.streams]
        self.faults = "".join(f"client {client} fault {name} at {place}\n" for client, (faults, _, _) in enumerate(walks) for place, name in faults)
        clients, operations = len(walks), [operation for _, own, _ in walks for operation in own]
        # No client takes a unit, and each barrier that is named counts all clients.
        self.is_full = all(name != "SemP" and (name != "Barrier" or scene.barriers[n[0] - 1] == clients) for _, name, n in operations)
        meetings = [[operation for operation in own if operation[1] in MEETINGS] for _, own, _ in walks]
        met = sum(1 for _ in itertools.takewhile(lambda row: len({operation[1:] for operation in row}) == 1, zip(*meetings)))
        self.lines = last_lines(walks, meetings, met)
        rounds = [{r for r in drawn if r <= met} for _, _, drawn in walks]
        self.is_ordered = clients == 1 or self.is_full and sum(map(len, rounds)) == len(set().union(*rounds))
        self.draws_alone = sum(1 for _, _, drawn in walks if drawn) <= 1
        # One client takes from each semaphore, and no barrier is named by more clients than it counts; besides, one client gives each unit that is taken.
        takers, givers, naming = (clients_by(walks, name) for name in ("SemP", "SemV", "Barrier"))
        self.takes_alone = all(len(c) == 1 for c in takers.values()) and all(len(c) <= scene.barriers[b - 1] for b, c in naming.items())
        self.is_uncontended = self.takes_alone and all(len(givers.get(semaphore, ())) <= 1 for semaphore in takers)


def clients_by(walks, name):
    """The clients whose streams have this operation, by the number of what it names."""
    clients = collections.defaultdict(set)
    for client, (_, operations, _) in enumerate(walks):
        for _, other, numbers in operations:
            if other == name:
                clients[numbers[0]].add(client)
    return clients


def last_lines(walks, meetings, met):
    """The lines behind those of tiles of a full scene, of whose meetings so many come about."""
    gives = 0
    for (_, operations, _), own in zip(walks, meetings):
        end = own[met][0] if met < len(own) else float("inf")
        gives += sum(1 for place, name, _ in operations if name == "SemV" and place < end)
    lines = [f"journal {met + gives}", f"frames {sum(1 for _, name, _ in meetings[0][:met] if name == 'Swap')}"]
    waiting = [(client, own[met]) for client, own in enumerate(meetings) if met < len(own)]
    for client, (place, name, numbers) in waiting:
        lines.append(f"stuck client {client} at {place} " + " ".join([name, *map(str, numbers)]))
    return lines + (["rc: stuck"] if waiting else [])


# ---- judging

LIST_FAULT = r"client [0-7] list fault (INVALID_VALUE|INVALID_OPERATION) at \d+\n"
FAULT = r"client [0-7] fault (INVALID_ENUM|INVALID_VALUE|INVALID_OPERATION|STACK_OVERFLOW|STACK_UNDERFLOW) at \d+\n"
STUCK = r"(stuck client [0-7] at \d+ (Swap|(Barrier|SemP) \d+)\n)+rc: stuck\n"
REPORT = re.compile(rf"(?P<lists>({LIST_FAULT})*)(?P<faults>({FAULT})*)(?P<tiles>(tile \d+ parcels \d+ sets \d+ looks \d+\n)*)"
                    rf"(?P<last>journal \d+\nframes (?P<frames>\d+)\n)(?P<orders>(order \d+ [0-7] \d+\n)*)(?P<stuck>({STUCK})?)")


class Difference(Exception):
    """A run that isn't as it has to be: what is wrong, the words of the program and its input."""

    def __init__(self, why, words, data):
        super().__init__(why, words, data)
        self.why, self.words, self.data = why, words, data


def out_of_time(*_):
    raise TimeoutError


def run(words, data):
    """Status, image and notes of a run of the program."""
    for name, content in (("in", data), ("out", b""), ("notes", b"")):
        (WORK / name).write_bytes(content)
    with open(WORK / "in", "rb") as source, open(WORK / "out", "wb") as image, open(WORK / "notes", "wb") as notes:
        child = subprocess.Popen([PROGRAM, *words], stdin=source, stdout=image, stderr=notes)
    signal.setitimer(signal.ITIMER_REAL, SECONDS)
    try:
        status = child.wait()
    except TimeoutError:
        child.kill()
        child.wait()
        raise Difference(f"it didn't end within {SECONDS} seconds", words, data) from None
    finally:
        signal.setitimer(signal.ITIMER_REAL, 0)
    if status < 0:
        raise Difference(f"it was ended by signal {-status}", words, data)
    return status, (WORK / "out").read_bytes(), (WORK / "notes").read_bytes()


def demand(holds, why, words, data):
    if not holds:
        raise Difference(why, words, data)


def expect(due, words, data):
    """A run has to end with this status, image and notes."""
    end = run(words, data)
    for name, value, wanted in zip(("status", "image", "notes"), end, due):
        shown, meant = (v if isinstance(v, int) or len(v) < 200 else f"{len(v)} bytes" for v in (value, wanted))
        demand(value == wanted, f"{name} {shown!r} for {meant!r} (status {end[0]}, notes {end[2][:200]!r})", words, data)


def judge_run(words, data, scene, tiles, due, list_lines):
    """A job that draws a sound scene: its status, its image, and its report by parts."""
    statuses = (5 if due.lines[-1] == "rc: stuck" else 0,) if due.is_full else (0, 5)
    status, image, notes = run(words, data)
    told = REPORT.fullmatch(notes.decode("latin-1"))
    demand(status in statuses and told, f"status {status}, notes {notes[:300]!r}", words, data)
    demand((status == 5) == bool(told["stuck"]), f"status {status} with these notes: {notes[:300]!r}", words, data)
    demand(told["lists"] == list_lines, f"it tells the list faults {told['lists'][:300]!r} for {list_lines[:300]!r}", words, data)
    demand(told["faults"] == due.faults, f"it tells the faults {told['faults'][:300]!r} for {due.faults[:300]!r}", words, data)
    demand(told["tiles"].count("\n") == tiles, f"the report doesn't tell of {tiles} tiles", words, data)
    head = f"P6\n{scene.width} {scene.height}\n255\n".encode()
    size = len(head) + 3 * scene.width * scene.height
    frames = [image[at:at + size] for at in range(0, len(image), size)]
    demand(len(frames) == int(told["frames"]), f"an image of {len(image)} bytes for {told['frames']} frames", words, data)
    demand(all(len(frame) == size and frame.startswith(head) for frame in frames), "an image that isn't one frame behind the other", words, data)
    return status, image, told


def choose_words(rng, scene):
    """The words of `render` and of `simulate`, with the same tiles."""
    columns, rows = rng.randint(1, min(4, scene.width)), rng.randint(1, min(3, scene.height))
    if rng.randrange(8) == 0:
        columns, rows = min(8, scene.width), min(4, scene.height)
    tiles = ["--tiles", f"{columns}x{rows}"]
    render = ["render", *tiles, "--depth", str(rng.choice((1, 1, 2, 8)))] + (["--order"] if rng.randrange(4) == 0 else [])
    return render, ["simulate", "--seed", str(rng.randrange(1 << 64)), *tiles, "--depth", str(rng.choice((1, 2, 3)))], columns * rows


def judge_sound(rng, data, scene, list_lines=""):
    """A sound scene: the status of `render`, and whether the images were compared. Of one with call lists the scene is its expansion."""
    due = Due(scene)
    if data[3:4] == b"3" and is_large(scene):
        status, image, notes = run(["check"], data)
        told = REPORT.fullmatch(notes.decode("latin-1"))
        demand(status in (0, 5) and image == b"" and told, f"status {status}, notes {notes[:300]!r}", ["check"], data)
        demand((told["lists"], told["faults"]) == (list_lines, due.faults), "it tells other faults", ["check"], data)
        return status, False
    render, simulate, tiles = choose_words(rng, scene)
    if scene.pixels() > scene_forms.MOST_HELD:
        # What holds all frames at once refuses them, and to write them takes long.
        for words in (simulate, ["serial"]):
            expect((4, b"", f"rc: limit held pixels {scene.pixels()}\n".encode()), words, data)
        return 4, False
    ends = [judge_run(words, data, scene, count, due, list_lines) for words, count in ((render, tiles), (simulate, tiles), (["serial"], 0))]
    (status, image, told), (_, stepped, steps), (ended, drawn, serial) = ends
    expect((ended, b"", serial[0].encode()), ["check"], data)
    all_done = all(end[0] == 0 for end in ends)
    if all_done or due.takes_alone:
        for words, (_, _, other) in ((render, ends[0]), (simulate, ends[1])):
            same = all(other[part] == serial[part] for part in ("last", "stuck"))
            demand(same, f"its report isn't that of `serial`: {other[0][:300]!r} and {serial[0][:300]!r}", words, data)
        demand(told["tiles"] == steps["tiles"], "`render` and `simulate` tell the tiles otherwise", render, data)
    if due.is_full:
        demand((serial["last"] + serial["stuck"]).splitlines() == due.lines, f"{serial[0][-300:]!r} for {due.lines}", ["serial"], data)
    compared = due.is_ordered or due.draws_alone and all_done or due.is_uncontended and run(["race"], data)[0] == 0
    if compared:
        demand(image == drawn, "the scene is ordered, and the image isn't that of `serial`", render, data)
        demand(stepped == drawn, "the scene is ordered, and the image isn't that of `serial`", simulate, data)
    text, plain = scene_forms.scene_text(scene), scene_forms.scene_bytes(scene)
    expect((0, plain, b""), ["pack"], text)
    if data[3:4] == b"3":
        expect((ended, drawn, serial[0].removeprefix(list_lines).encode()), ["serial"], plain)
    else:
        expect((0, text, b""), ["unpack"], data)
    return status, compared


def is_large(scene):
    """An expansion that may take long to draw, or is too long for a text."""
    given = sum(map(len, scene.streams))
    texels = sum(len(texels) for stream in scene.streams for _, _, texels in stream)
    return given > MOST_GIVEN or given * scene.width * scene.height > MOST_DRAWN or texels > MOST_TEXELS


def judge_scene(rng, data):
    """Bytes that may spell a scene: the status of `render`, and whether images were compared."""
    try:
        scene_forms.read(data)
    except Refused as refused:
        expect((refused.status, b"", refused.line), ["unpack"], data)
    try:
        scene, list_lines = scene_lists.read(data)
    except Refused as refused:
        for words in (["render", "--tiles", "2x2"], ["simulate", "--seed", "1", "--depth", "2"], ["serial"], ["check"]):
            expect((refused.status, b"", refused.line), words, data)
        return refused.status, False
    return judge_sound(rng, data, scene, list_lines)


def judge_text(rng, text):
    """A text: the status of `pack`, and whether images were compared."""
    try:
        scene = scene_forms.read_text(text)
    except Refused as refused:
        expect((refused.status, b"", refused.line), ["pack"], text)
        return refused.status, False
    data = scene_forms.scene_bytes(scene)
    expect((0, data, b""), ["pack"], text)
    return 0, judge_sound(rng, data, scene)[1]


# ---- runs


def begin(program, folder, scenes, texts):
    """What a worker needs: what inputs are made of, a folder of its own, and limits, which its runs take over."""
    global PROGRAM, WORK, SCENES, TEXTS
    PROGRAM, WORK, SCENES, TEXTS = program, pathlib.Path(tempfile.mkdtemp(dir=folder)), scenes, texts
    os.environ["MALLOC_ARENA_MAX"] = "2"
    resource.setrlimit(resource.RLIMIT_AS, (MEMORY, MEMORY))
    resource.setrlimit(resource.RLIMIT_CORE, (0, 0))
    signal.signal(signal.SIGALRM, out_of_time)
    signal.signal(signal.SIGINT, signal.SIG_IGN)


def judge(name):
    """The status of an input, whether images were compared, and what was different."""
    seed, number = name
    data, is_text = make_input(seed, number, SCENES, TEXTS)
    rng = random.Random(f"{seed}:{number}:words")
    try:
        return name, *(judge_text if is_text else judge_scene)(rng, data), None
    except Difference as difference:
        return name, None, False, difference


def sources(program):
    """Scenes and texts to begin with."""
    scenes = [path.read_bytes() for path in sorted(EXAMPLES.glob("*.rcs")) if path.stat().st_size <= LARGEST_EXAMPLE]
    texts = [path.read_bytes() for path in sorted(EXAMPLES.glob("*.txt")) if path.stat().st_size <= LARGEST_EXAMPLE]
    tiny = [text.replace(";", "\n").encode() + b"\n" for text in TINY]
    made = [["pack"]] * len(tiny) + [["gen", "--seed", str(seed), "--size", str(size)] for seed, size in ((1, 1), (2, 2), (3, 4))]
    for words, text in itertools.zip_longest(made, tiny, fillvalue=b""):
        done = subprocess.run([program, *words], input=text, capture_output=True, check=False)
        if done.returncode != 0:
            sys.exit(f"hostile.py: `{' '.join(words)}` of {text!r} ends with status {done.returncode}, {done.stderr!r}")
        scenes.append(done.stdout)
    rng = random.Random(1)
    lists = [scene_forms.scene_bytes(list_scenes.with_lists(rng, scene_forms.read_text(text), rng.randint(1, 6))) for text in tiny]
    # The tiny ones reach the most in the least time, so they stand twice as often.
    return scenes + scenes[-len(made):] + lists, texts + 2 * tiny


def show(name, difference, program, keep):
    """Keeps the input of a difference, and prints the command that shows it."""
    keep.mkdir(parents=True, exist_ok=True)
    path = keep / f"seed-{name[0]}-input-{name[1]}-{difference.words[0]}"
    path.write_bytes(difference.data)
    print(f"input {name[1]} of seed {name[0]}: `{' '.join(difference.words)}`: {difference.why}")
    print(f"    {program} {' '.join(difference.words)} < {path} > image")
    sys.exit(1)


def main():
    parser = argparse.ArgumentParser(description=__doc__, formatter_class=argparse.RawDescriptionHelpFormatter)
    parser.add_argument("program", nargs="?", type=pathlib.Path, help="the built program (crates/render_cli/out/render_cli)")
    parser.add_argument("--seeds", default="1,2,3", type=lambda text: [int(word) for word in text.split(",")], help="seeds of inputs (1,2,3)")
    parser.add_argument("--inputs", default=20_000, type=int, help="how many inputs in all (20000)")
    parser.add_argument("--jobs", default=os.cpu_count(), type=int, help="how many inputs at once (as there are processors)")
    parser.add_argument("--keep", default="hostile-found", type=pathlib.Path, help="where an input that shows something is written")
    parser.add_argument("--only", metavar="SEED:N", help="judge this input alone")
    args = parser.parse_args()
    program = built(args.program)
    scenes, texts = sources(program)
    each, more = divmod(args.inputs, len(args.seeds))
    names = {seed: [(seed, number) for number in range(each + (i < more))] for i, seed in enumerate(args.seeds)}
    if args.only:
        seed, number = map(int, args.only.split(":"))
        names = {seed: [(seed, number)]}
    with tempfile.TemporaryDirectory(dir="/dev/shm" if os.path.isdir("/dev/shm") else None) as folder, \
            multiprocessing.Pool(args.jobs, begin, (program, folder, scenes, texts)) as pool:
        for seed, inputs in names.items():
            begun, statuses, compared = time.monotonic(), collections.Counter(), 0
            for name, status, was_compared, difference in pool.imap(judge, inputs, 8):
                if difference:
                    pool.terminate()
                    show(name, difference, program, args.keep)
                statuses[status] += 1
                compared += was_compared
            ends = ", ".join(f"{times} with {status}" for status, times in sorted(statuses.items()))
            print(f"seed {seed}: {len(inputs)} inputs, {ends}; {compared} compared as ordered; {time.monotonic() - begun:.0f} s", flush=True)


if __name__ == "__main__":
    main()
