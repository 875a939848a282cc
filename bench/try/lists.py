#!/usr/bin/env python3
"""Holds call lists and filters against what they mean, scene by scene.

    lists.py [PROGRAM] [--scenes 400] [--chains 200] [--seed 1]
    lists.py --alone        looks through the meanings that stand here, one against the other, without a program

1. The rows that docs/scene-format.md and docs/drawing.md promise: small scenes with their whole report, words that are refused, limits at their edge and one past
   it, and lists that call each other until the costs pass the limit, which has to be told within ten seconds.
2. Random scenes with call lists against their own expansion, written by scene_lists.py as a scene of version 2. `check`, `serial`, `race`, `last` and
   `simulate` have to end with the same status, image and notes but for the lines of refused list commands, which stand in front; and `render` where nothing is left
   to chance.
3. Chains of up to sixteen filters against their members one by one: `unpack` writes the scene's text, each member is applied to its lines here, `pack` makes the
   next scene, and the last one is given to the job without filters. Image and status have to be the same, and so the report but for the lines `filter K count N`.

A line tells how much was compared; at the first difference the input is kept in FOLDER (lists-found) and the status is 1.
"""
import argparse
import pathlib
import random
import subprocess
import sys
import time

sys.path.insert(0, str(pathlib.Path(__file__).resolve().parent.parent))
sys.path.append(str(pathlib.Path(__file__).resolve().parents[2] / "tools"))

import list_scenes
import scene_forms
import scene_lists
from hostile import FULL, TINY, Due
from list_scenes import IDLE, MADE, PICTURE, calls, costing, giving, recorded
from program import EXAMPLES, built
from scene_forms import COMMANDS, MOST_COMMANDS, Refused, Scene, command, scene_bytes

SECONDS = 10
STEPPED = ["simulate", "--seed", "5", "--tiles", "2x2", "--depth", "2"]
JOBS = (["check"], ["serial"], ["race"], ["last"], STEPPED)
DRAWN = ["render", "--tiles", "2x2", "--depth", "2"]


class Difference(Exception):
    """What is wrong, the words and the input."""

    def __init__(self, why, words, data):
        super().__init__(why, words, data)
        self.why, self.words, self.data = why, words, data


def run(words, data):
    """Status, image and notes."""
    try:
        done = subprocess.run([PROGRAM, *words], input=data, capture_output=True, timeout=SECONDS, check=False)
    except subprocess.TimeoutExpired:
        raise Difference(f"it didn't end within {SECONDS} seconds", words, data) from None
    return done.returncode, done.stdout, done.stderr.decode("latin-1")


def expect(due, words, data):
    end = run(words, data)
    for name, value, wanted in zip(("status", "image", "notes"), end, due):
        if value != wanted:
            raise Difference(f"{name} {shown(value)} for {shown(wanted)} (status {end[0]}, notes {end[2][:200]!r})", words, data)
    return end


def shown(value):
    return repr(value) if isinstance(value, int) or len(value) < 300 else f"{len(value)} bytes, {value[:200]!r} .."


def commands_of(text):
    """Commands by their words, parted by `;`."""
    lines = [line.split() for line in text.replace("FULL", FULL).split(";") if line]
    return [command(name, *map(int, numbers)) for name, *numbers in lines]


def lists_of(*texts, side=1, version=3):
    """A scene without declarations, a client for each text or list of commands."""
    return Scene(side, side, [], [], [], [commands_of(text) if isinstance(text, str) else text for text in texts], version)


# ---- rows

ONE_PIXEL = b"P6\n1 1\n255\n"
RED_LIST = "NewList 1;Color 255 0 0 255;FULL;EndList;CallList 1;Swap"
# Commands of one client of a window of one pixel, words, status, image and notes.
ROWS = (
    (RED_LIST, "render", 0, ONE_PIXEL + b"\xff\0\0", "tile 0 parcels 3 sets 0 looks 1\njournal 1\nframes 1\n"),
    (RED_LIST, "check", 0, b"", "journal 1\nframes 1\n"),
    (RED_LIST, "race", 0, b"", "journal 1\nframes 1\nrace none\n"),
    ("EndList;NewList 65;CallList 2;Swap", "check", 0, b"",
     "client 0 list fault INVALID_OPERATION at 0\nclient 0 list fault INVALID_VALUE at 1\njournal 1\nframes 1\n"),
    # a list that its recording's end doesn't reach, and one that stands only later
    ("CallList 1;NewList 1;ClearColor 0 255 0 255;EndList;CallList 1;Clear 1;NewList 2;Swap;Swap", "serial", 0, b"", "journal 0\nframes 0\n"),
    ("NewList 2;CallList 1;EndList;NewList 1;ClearColor 0 255 0 255;EndList;CallList 2;Clear 1;Swap", "serial", 0, ONE_PIXEL + b"\0\xff\0", "journal 1\nframes 1\n"),
    # a list that is made anew is what later calls mean
    ("NewList 1;ClearColor 9 9 9 9;EndList;NewList 2;CallList 1;EndList;NewList 1;ClearColor 0 255 0 255;EndList;CallList 2;Clear 1;Swap", "serial", 0,
     ONE_PIXEL + b"\0\xff\0", "journal 1\nframes 1\n"),
    # places are those of what lists give: the Clear in the block is the second command
    ("NewList 64;Begin 0;Clear 1;End;EndList;EndList;CallList 64;Swap", "serial", 0, ONE_PIXEL + b"\0\0\0",
     "client 0 list fault INVALID_OPERATION at 5\nclient 0 fault INVALID_OPERATION at 1\njournal 1\nframes 1\n"),
    # a recording refuses another one, and goes on
    ("NewList 1;NewList 0;NewList 2;CallList 0;Clear 1;EndList;CallList 1;Swap", "check", 0, b"",
     "client 0 list fault INVALID_OPERATION at 1\nclient 0 list fault INVALID_OPERATION at 2\nclient 0 list fault INVALID_VALUE at 3\njournal 1\nframes 1\n"),
    # filters
    ("Color 200 100 50 255;FULL;Swap", "recolour 128 255 255 255 count render", 0, ONE_PIXEL + b"\x64\x64\x32",
     "tile 0 parcels 3 sets 0 looks 1\njournal 1\nframes 1\nfilter 1 count 7\n"),
    ("Color 200 100 50 255;FULL;Swap", "count drop Color count serial", 0, ONE_PIXEL + b"\xff\xff\xff", "journal 1\nframes 1\nfilter 0 count 7\nfilter 2 count 6\n"),
    ("Color 200 100 50 255;FULL;Swap", "drop Begin check", 0, b"",
     "".join(f"client 0 fault INVALID_OPERATION at {place}\n" for place in (1, 2, 3, 4)) + "journal 1\nframes 1\n"),
    ("Enable 4;CullFace 2;Disable 4;Color 200 100 50 255;FULL;Swap", "cull serial", 0, ONE_PIXEL + b"\0\0\0", "journal 1\nframes 1\n"),
    (RED_LIST, "count drop Swap race", 0, b"", "journal 0\nframes 0\nfilter 0 count 7\nrace none\n"),
    (RED_LIST, "drop Swap render", 0, b"", "tile 0 parcels 2 sets 0 looks 1\njournal 0\nframes 0\n"),
    ("FULL;Swap", "count last", 12, b"", "rc: not for last 0 4\n"),
    ("Enable 2;Color 1 2 3 4;FULL;Swap", "drop Color last", 0, ONE_PIXEL + b"\xff\xff\xff", "journal 1\nframes 1\n"),
    ("Enable 3;Enable 2;FULL;Swap", "drop Enable last", 12, b"", "rc: not for last 0 4\n"),
)

# Words that are no command line.
NO_WORDS = ("recolour 1 2 render", "recolour 1 2 3 256 check", "recolour 1 2 3 04 check", "recolour 1 2 3", "drop check", "drop swap check", "drop NewList check",
            "drop Swap", "count", "cull", "count " * 17 + "check", "count " * 16 + "drop check", "check count", "Count check", "recolor 1 2 3 4 check")


def try_rows():
    for text, words, *due in ROWS:
        scene = lists_of(text)
        for version in (3, 2) if "List" not in text else (3,):
            scene.version = version
            expect(tuple(due), words.split(), scene_bytes(scene))
    red = scene_bytes(lists_of("Color 255 0 0 255;FULL;Swap", version=2))
    for words in NO_WORDS:
        expect((1, b"", "rc: usage\n"), words.split(), red)
    expect((0, b"", "journal 1\nframes 1\n" + "".join(f"filter {k} count 7\n" for k in range(16))), ["count"] * 16 + ["check"], red)
    lists = scene_bytes(lists_of(RED_LIST))
    for words in (["unpack"], ["count", "unpack"]):
        expect((3, b"", "rc: malformed BadMagic at 3\n"), words, lists)
    return len(ROWS) + len(NO_WORDS) + 3


def try_other_jobs():
    """In front of jobs that neither draw nor judge a scene filters do nothing."""
    text = b"scene 1 2 2\nclient\nColor 9 9 9 9\nClear 1\nSwap\n"
    data = run(["pack"], text)[1]
    for job, source in ((["pack"], text), (["unpack"], data), (["gen", "--seed", "3", "--size", "2"], b"")):
        expect(run(job, source), ["drop", "Swap", "recolour", "1", "2", "3", "4", "cull", "count", *job], source)
    status, image, notes = run(["count", "drop", "Swap", "demo", "--seed", "3", "--size", "2"], b"")
    told = [line for line in notes.splitlines() if line.startswith(("frames ", "filter "))]
    plain = [line for line in run(["demo", "--seed", "3", "--size", "2"], b"")[2].splitlines() if line.startswith("frames ")]
    if status != 0 or told != plain or not image:
        raise Difference(f"status {status}, {told} for {plain}", ["count", "drop", "Swap", "demo"], b"")


# ---- limits and costs

SWAP = command("Swap")


def ring(calls_each):
    """A list that calls itself."""
    return recorded(1, calls(1, calls_each)) + calls(1, 1)


def wide(calls_each, inner):
    """Eight lists, each of which calls the next one so many times; the last one has these commands."""
    lists = [c for name in range(1, 8) for c in recorded(name, calls(name + 1, calls_each))]
    return lists + recorded(8, inner) + calls(1, 1)


def try_limits():
    """Scenes with lists at the edge of a limit, which are carried out, and past it."""
    most = scene_lists.MOST_COST
    sound = (
        ("costs", lists_of(costing(most)), ["check"]),
        ("costs of two clients", lists_of(costing(most // 2), costing(most // 2)), ["check"]),
        ("commands", lists_of(giving(MOST_COMMANDS)), ["check"]),
        ("frames", lists_of(recorded(1, [SWAP] * 512) + calls(1, 1), side=2048), ["check"]),
        ("depth", lists_of(wide(1, [IDLE] * 5)), ["check"]),
    )
    for name, scene, words in sound:
        meant, _ = scene_lists.meaning(scene)
        frames = meant.frames()
        expect((0, b"", f"journal {frames}\nframes {frames}\n"), words, scene_bytes(scene))
        print(f"    at the edge: {name}", flush=True)
    every = [c for name in range(1, 9) for c in calls(name, 1)]
    past = (
        ("costs", lists_of(costing(most + 1))),
        ("costs of two clients", lists_of(costing(most // 2), costing(most // 2 + 1))),
        ("a picture too often", lists_of(recorded(1, [PICTURE]) + calls(1, 257))),
        ("commands", lists_of(giving(MOST_COMMANDS + 1))),
        ("some fifty million commands", lists_of(wide(6, [IDLE] * 200))),
        ("commands of two clients", lists_of(giving(MOST_COMMANDS // 2), giving(MOST_COMMANDS // 2 + 1))),
        ("commands that are read", lists_of(recorded(1, [IDLE] * (MOST_COMMANDS - 1)))),
        ("a width of 0 before costs", lists_of(ring(9), side=0)),
        ("costs before frames", lists_of(recorded(1, [SWAP] * 600) + calls(1, 1) + ring(9), side=2048)),
        ("frames", lists_of(recorded(1, [SWAP] * 513) + calls(1, 1), side=2048)),
        ("a ring of nine calls", lists_of(ring(9))),
        ("a ring of a thousand calls", lists_of(ring(1000))),
        ("eight deep and ten wide", lists_of(wide(10, calls(64, 9)))),
        ("eight deep and eight wide, and Swaps", lists_of(wide(8, [SWAP] * 30))),
        ("eight deep and a hundred wide, of nothing", lists_of(wide(100, []))),
        ("eight lists, each of which calls all of them", lists_of([c for n in range(1, 9) for c in recorded(n, every)] + calls(3, 2))),
        ("many calls of a ring", lists_of(ring(2) + calls(1, 200_000))),
    )
    for name, scene in past:
        data = scene_bytes(scene)
        try:
            scene_lists.read(data)
        except Refused as refused:
            line = refused.line.decode()
        else:
            raise AssertionError(name)
        begun = time.perf_counter()
        for words in (["render"], ["simulate", "--seed", "1"], ["serial"], ["check"], ["race"], ["last"], ["count", "drop", "Swap", "check"]):
            expect((4, b"", line), words, data)
        print(f"    past it: {name}: {line.strip()}, {(time.perf_counter() - begun) / 7:.2f} s a job", flush=True)
    # Limits are judged before the filters.
    held = scene_bytes(lists_of(recorded(1, [SWAP] * 9) + calls(1, 1), side=2048))
    for job in (["serial"], ["last"], ["simulate", "--seed", "1"]):
        expect((4, b"", "rc: limit held pixels 37748736\n"), ["drop", "Swap", *job], held)
    expect((4, b"", "rc: limit depth 17\n"), ["drop", "Swap", "render", "--depth", "17"], held)
    return len(sound) + len(past) + 4


# ---- random scenes


def scenes_with_lists(seed):
    """Random scenes, each with its meaning and the lines of its refused list commands. Those with much to draw are left out."""
    rng = random.Random(seed)
    texts = [text.replace(";", "\n").encode() + b"\n" for text in TINY]
    while True:
        scene = list_scenes.with_lists(rng, scene_forms.read_text(rng.choice(texts)), rng.randint(1, 8))
        try:
            meant, lines = scene_lists.meaning(scene)
        except Refused:
            continue
        if sum(map(len, meant.streams)) <= 5_000 and meant.pixels() <= scene_forms.MOST_HELD:
            yield scene, meant, lines


def try_scenes(count, seed):
    statuses, faulty = {}, 0
    for number, (scene, meant, lines) in zip(range(count), scenes_with_lists(seed)):
        data, plain = scene_bytes(scene, random.Random(number).choice((1, 3, 1024))), scene_bytes(meant)
        faulty += lines != ""
        for words in JOBS:
            status, image, notes = run(words, plain)
            # A scene that isn't for the job, or whose tiles are past their limit, doesn't reach its report.
            expect((status, image, notes if status in (4, 12) else lines + notes), words, data)
            statuses[status] = statuses.get(status, 0) + 1
        due = Due(meant)
        if due.is_full and due.is_ordered:
            status, image, notes = run(DRAWN, plain)
            expect((status, image, lines + notes), DRAWN, data)
    ends = ", ".join(f"{times} with {status}" for status, times in sorted(statuses.items()))
    print(f"{count} scenes with lists, {faulty} of them with refused list commands; runs: {ends}", flush=True)


# ---- chains


def any_filter(rng):
    kind = rng.choice(("recolour", "cull", "drop", "count", "count"))
    if kind == "recolour":
        return [kind, *(str(rng.choice((0, 1, 127, 128, 254, 255, rng.randrange(256)))) for _ in range(4))]
    if kind == "drop":
        return [kind, rng.choice([name for name, _ in COMMANDS.values()] + ["Color", "Enable", "Begin", "TexCoord", "Vertex"])]
    return [kind]


def line_behind(kind, values, line):
    """What a filter leaves of a line of a scene's text, or None."""
    name, *numbers = line.split(" ")
    if kind == "drop" and name == values[0]:
        return None
    if kind == "cull" and line == "Disable 4":
        return "Enable 4"
    if kind == "recolour" and name == "Color":
        return " ".join([name, *(str((int(channel) * int(tint) + 127) // 255) for channel, tint in zip(numbers, values))])
    return line


def text_behind(kind, values, text):
    """The text of a scene behind one filter, and how many commands came to it."""
    lines = text.splitlines()
    begins = lines.index("client") if "client" in lines else len(lines)
    kept, came = lines[:begins], 0
    for line in lines[begins:]:
        came += line != "client"
        made = line if line == "client" else line_behind(kind, values, line)
        kept += [] if made is None else [made]
    return "".join(line + "\n" for line in kept), came


def told_with(notes, lines):
    """The notes with the lines of filters behind `frames N`."""
    whole = notes.splitlines(keepends=True)
    at = [number for number, line in enumerate(whole) if line.startswith("frames ")]
    return "".join(whole[:at[0] + 1]) + lines + "".join(whole[at[0] + 1:]) if at else notes


def behind_each(filters, plain):
    """The bytes of a scene behind all filters, made one after the other by `unpack` and `pack`, and the lines of those that count."""
    lines = ""
    for number, (kind, *values) in enumerate(filters):
        text, came = text_behind(kind, values, expect((0, run(["unpack"], plain)[1], ""), ["unpack"], plain)[1].decode())
        lines += f"filter {number} count {came}\n" if kind == "count" else ""
        status, plain, notes = run(["pack"], text.encode())
        if status != 0:
            raise Difference(f"status {status}, {notes!r}", ["pack"], text.encode())
    return plain, lines


def try_chains(count, seed):
    rng = random.Random(seed)
    statuses, members = {}, 0
    for _, (scene, meant, list_lines) in zip(range(count), scenes_with_lists(seed + 1)):
        filters = [any_filter(rng) for _ in range(rng.choice((1, 2, 3, 5, 16)))]
        words = [word for one in filters for word in one]
        members += len(filters)
        plain, lines = behind_each(filters, scene_bytes(meant))
        last = scene_forms.read(plain)
        for job in (["check"], ["serial"], ["race"], ["last"], STEPPED):
            status, image, notes = run(job, plain)
            due = notes if status == 12 else told_with(notes, lines)
            expect((status, image, due), words + job, scene_bytes(meant))
            expect((status, image, due if status in (4, 12) else list_lines + due), words + job, scene_bytes(scene))
            statuses[status] = statuses.get(status, 0) + 1
        due = Due(last)
        if due.is_full and due.is_ordered:
            status, image, notes = run(DRAWN, plain)
            expect((status, image, told_with(notes, lines)), words + DRAWN, scene_bytes(meant))
    ends = ", ".join(f"{times} with {status}" for status, times in sorted(statuses.items()))
    print(f"{count} chains of {members} filters, each by its members one by one; runs: {ends}", flush=True)


# ---- the meanings alone


def walked(stream, spent, most):
    """The meaning of a stream by going through each list each time: its commands, its refused list commands, and the costs or the sum that passes the limit."""
    lists, recording, commands, faults = {}, None, [], []

    def meet(one, depth):
        nonlocal spent
        spent += scene_lists.cost_of(one)
        if spent > most:
            raise scene_lists.TooLong(spent)
        if one[0] in COMMANDS:
            commands.append(one)
        elif one[0] == scene_lists.CALL_LIST and depth < 8:
            for inner in lists.get(one[1][0], ()):
                meet(inner, depth + 1)

    for place, one in enumerate(stream):
        makes, ends, inside = one[0] == scene_lists.NEW_LIST, one[0] == scene_lists.END_LIST, recording is not None
        if not inside or ends:
            meet(one, 0)
        if makes and inside or ends and not inside:
            faults.append((place, "INVALID_OPERATION"))
        elif one[0] not in COMMANDS and not ends and not 1 <= one[1][0] <= 64:
            faults.append((place, "INVALID_VALUE"))
        elif makes:
            recording = one[1][0], []
        elif ends:
            lists[recording[0]], recording = recording[1], None
        elif inside:
            recording[1].append(one)
    return commands, faults, spent


def end_of(meaning_of, *arguments):
    try:
        return meaning_of(*arguments)
    except scene_lists.TooLong as too_long:
        return too_long.spent


def summed(stream, spent):
    made = scene_lists.expand(stream, spent)
    assert made.count == len(made.commands)
    return made.commands, made.faults, made.spent


def alone(scenes, chains, seed):
    """The meanings of scene_lists.py against others that stand here."""
    rng = random.Random(seed)
    texts = [text.replace(";", "\n").encode() + b"\n" for text in TINY]
    too_long = refused = 0
    for _ in range(scenes):
        scene = list_scenes.with_lists(rng, scene_forms.read_text(rng.choice(texts)), rng.randint(1, 12))
        assert scene_bytes(scene_forms.read(scene_bytes(scene), (3,))) == scene_bytes(scene)
        whole = [end_of(walked, stream, 0, 1 << 18) for stream in scene.streams]
        for stream, end in zip(scene.streams, whole):
            if not isinstance(end, int):
                assert summed(stream, 0) == end
                refused += len(end[1])
                # With less left of the limit the sum passes it somewhere on the way.
                spent = scene_lists.MOST_COST - rng.randrange(end[2] + 1)
                assert end_of(summed, stream, spent) == end_of(walked, stream, spent, scene_lists.MOST_COST)
                too_long += isinstance(end_of(summed, stream, spent), int)
    members = 0
    for _, (_, meant, _) in zip(range(chains), scenes_with_lists(seed)):
        filters = [any_filter(rng) for _ in range(rng.randint(1, 16))]
        read, rest = scene_lists.read_filters([word for one in filters for word in one] + ["check"])
        members += len(filters)
        behind, lines = scene_lists.filtered(read, meant)
        text, told = scene_forms.scene_text(meant).decode(), ""
        for number, (kind, *values) in enumerate(filters):
            text, came = text_behind(kind, values, text)
            told += f"filter {number} count {came}\n" if kind == "count" else ""
        assert (rest, lines, scene_forms.scene_text(behind).decode()) == (["check"], told, text)
    for words in NO_WORDS:
        try:
            _, rest = scene_lists.read_filters(words.split())
        except scene_lists.BadWords:
            continue
        assert len(rest) != 1 or rest[0] not in scene_lists.FILTERED_JOBS, words
    for text, words, status, _, notes in ROWS:
        filters, _ = scene_lists.read_filters(words.split())
        meant, lines = scene_lists.read(scene_bytes(lists_of(text)))
        behind, told = scene_lists.filtered(filters, meant)
        assert status == 12 or notes.startswith(lines + Due(behind).faults) and told in notes, (text, words)
    for name, cost in (("edge", 0), ("past", 1)):
        end = end_of(lambda more=cost: scene_lists.expand(costing(scene_lists.MOST_COST + more)).spent)
        assert end == scene_lists.MOST_COST + cost, (name, end)
    for count in (MOST_COMMANDS, MOST_COMMANDS + 1):
        assert scene_lists.expand(giving(count)).count == count
    print(f"{scenes} scenes, {refused} refused list commands, {too_long} sums that pass; {chains} chains of {members} filters: the meanings agree")


def main():
    parser = argparse.ArgumentParser(description=__doc__, formatter_class=argparse.RawDescriptionHelpFormatter)
    parser.add_argument("program", nargs="?", type=pathlib.Path, help="the built program (crates/render_cli/out/render_cli)")
    parser.add_argument("--scenes", default=400, type=int, help="how many random scenes with lists (400)")
    parser.add_argument("--chains", default=200, type=int, help="how many chains of filters (200)")
    parser.add_argument("--seed", default=1, type=int, help="the seed of both (1)")
    parser.add_argument("--keep", default="lists-found", type=pathlib.Path, metavar="FOLDER", help="where an input that shows something is written")
    parser.add_argument("--alone", action="store_true", help="without a program")
    args = parser.parse_args()
    if args.alone:
        alone(args.scenes, args.chains, args.seed)
        return
    global PROGRAM
    PROGRAM = built(args.program)
    try:
        print(f"{try_rows()} small scenes and words: as they have to be", flush=True)
        try_other_jobs()
        print(f"{try_limits()} limits: as they have to be", flush=True)
        try_scenes(args.scenes, args.seed)
        try_chains(args.chains, args.seed)
    except Difference as difference:
        args.keep.mkdir(parents=True, exist_ok=True)
        path = args.keep / f"{difference.words[-1] if difference.words else 'none'}.in"
        path.write_bytes(difference.data)
        sys.exit(f"lists.py: `{' '.join(difference.words)}` of {path}: {difference.why}")


if __name__ == "__main__":
    main()
