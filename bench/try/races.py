#!/usr/bin/env python3
"""Holds `race` against the definition on random small scenes, by going through every permitted order.

    races.py [PROGRAM] [COUNT] [SEED]

Each scene has two or three clients and a window of two pixels, which they clear, a shared texture, which they write and draw with, barriers of two clients
and a semaphore. An order is permitted where it has each command below its client's reach, and each behind those that precede it. Two commands of
different clients that conflict are ordered where they stand in one sequence in all permitted orders. So `race none` has to come exactly where each two
that conflict are; what each pixel sees of its commands, and what each drawing reads, has then to be the same in all of them. Otherwise the line has to
name the first race of the default order, and of the two commands that it names some permitted order has to have either first.
"""
import itertools
import pathlib
import random
import subprocess
import sys

sys.path.append(str(pathlib.Path(__file__).resolve().parents[2] / "tools"))

from command import Words, number_in
from program import built

FULL = ["Begin 0", "Vertex -65536 -65536 0 65536", "Vertex 196608 -65536 0 65536", "Vertex -65536 196608 0 65536", "End"]
LONGEST = 9


class Command:
    """One command: its line, and what it touches, samples, writes and waits for."""

    def __init__(self, line, pixels=(), samples=None, writes=None, waits=None):
        self.line, self.pixels, self.samples, self.writes, self.waits = line, frozenset(pixels), samples, writes, waits


def stream(random, places):
    """A client's commands: pieces until the places are used up, and perhaps a Swap."""
    commands = []
    while len(commands) < places:
        kind = random.randrange(9)
        if kind < 2:
            commands += [Command("Clear 1", [(0, 0), (1, 0)])]
        elif kind == 2:
            commands += [Command("SharedImage 1 0 0 1 1 ff0000ff", writes=1)]
        elif kind == 3:
            commands += [Command("SharedImage 1 0 0 0 1", waits=None)]
        elif kind in (4, 5):
            barrier = random.choice((1, 2))
            commands += [Command(f"Barrier {barrier}", waits=("B", barrier))]
        elif kind == 6:
            commands += [Command("SemV 1", waits=("V", 1))]
        elif kind == 7:
            commands += [Command("SemP 1", waits=("P", 1))]
        else:
            commands += [Command("Color 1 2 3 4")]
    if random.random() < 0.7:
        commands += [Command("Swap", waits=("S", 0))]
    return commands


def prepared(random, commands):
    """Sometimes a scissor box, or drawing with the texture, is set up in front; then a Clear touches one column, and a drawing stands for one."""
    kind = random.randrange(4)
    if kind == 0:
        box = random.choice((0, 1))
        for command in commands:
            if command.line == "Clear 1":
                command.pixels = frozenset([(box, 0)])
        return [Command("Enable 0"), Command(f"Scissor {box} 0 1 1")] + commands
    if kind == 1:
        drawing = [Command(line) for line in FULL]
        drawing[-1] = Command("End", [(0, 0), (1, 0)], samples=1)
        at = [place for place, command in enumerate(commands) if command.line == "Clear 1"]
        if at:
            place = random.choice(at)
            return [Command("BindTexture 1 1"), Command("Enable 5")] + commands[:place] + drawing + commands[place + 1:]
    return commands


def journal_of(streams, counts, units):
    """The default journal: each entry as its kind, its name, and the place of each member's operation. And what each client reaches."""
    waits = [[(place, command.waits) for place, command in enumerate(commands) if command.waits] for commands in streams]
    used, units, journal = [0] * len(streams), dict(units), []

    def head(client):
        return waits[client][used[client]] if used[client] < len(waits[client]) else None

    def members(kind):
        return [client for client in range(len(streams)) if head(client) and head(client)[1] == kind]

    def step():
        for client in range(len(streams)):
            if head(client) and head(client)[1][0] == "V":
                units[head(client)[1][1]] += 1
                return "V", head(client)[1][1], [client]
        for client in range(len(streams)):
            if head(client) and head(client)[1][0] == "P" and units[head(client)[1][1]]:
                units[head(client)[1][1]] -= 1
                return "P", head(client)[1][1], [client]
        for barrier, count in counts.items():
            if len(members(("B", barrier))) >= count:
                return "B", barrier, members(("B", barrier))[:count]
        if len(members(("S", 0))) == len(streams):
            return "S", 0, list(range(len(streams)))
        return None

    while entry := step():
        kind, name, who = entry
        journal.append((kind, name, {client: head(client)[0] for client in who}))
        for client in who:
            used[client] += 1
    reach = [head(client)[0] if head(client) else len(streams[client]) for client in range(len(streams))]
    return journal, reach


def preceding(journal, reach, units):
    """All pairs of names of which the first precedes the second."""
    names = [(client, place) for client, end in enumerate(reach) for place in range(end)]
    pairs = {(a, b) for a in names for b in names if a[0] == b[0] and a[1] < b[1]}
    for name, first in units.items():
        gave = [(client, place) for kind, at, places in journal if kind == "V" and at == name for client, place in places.items()]
        took = [(client, place) for kind, at, places in journal if kind == "P" and at == name for client, place in places.items()]
        pairs |= set(zip(gave, took[first:]))
    for kind, _, places in journal:
        if kind in "BS":
            pairs |= {(a, b) for a in names for b in names if a[0] in places and b[0] in places and a[1] < places[a[0]] and places[b[0]] < b[1]}
    return names, pairs


def default_order(journal, reach, streams):
    """Each client's names up to its first operation, and then, entry by entry, the operations and each member's names up to its next one."""
    order, done = [], [0] * len(streams)
    waits = [[place for place, command in enumerate(commands) if command.waits] for commands in streams]
    used = [0] * len(streams)

    def add(client, end):
        order.extend((client, place) for place in range(done[client], end))
        done[client] = max(done[client], end)

    def stop(client):
        return waits[client][used[client]] if used[client] < len(waits[client]) else len(streams[client])

    for client in range(len(streams)):
        add(client, stop(client))
    for _, _, places in journal:
        for client in sorted(places):
            add(client, places[client] + 1)
        for client in sorted(places):
            used[client] += 1
        for client in sorted(places):
            add(client, stop(client))
    return order


def orders(names, pairs, reach):
    """Every permitted order."""
    before = {b: {a for a, c in pairs if c == b} for b in names}
    order, done, next_place = [], set(), [0] * len(reach)

    def rest():
        if len(order) == len(names):
            yield list(order)
            return
        for client, end in enumerate(reach):
            name = (client, next_place[client])
            if name[1] < end and before[name] <= done:
                order.append(name)
                done.add(name)
                next_place[client] += 1
                yield from rest()
                next_place[client] -= 1
                done.remove(name)
                order.pop()

    yield from rest()


def spots(a, b):
    """Where two commands conflict: textures by their names, and then pixels, rows rising and in a row columns rising."""
    shared = {t for one, other in ((a, b), (b, a)) if (t := one.writes) is not None and t in (other.writes, other.samples)}
    return [("shared", t) for t in sorted(shared)] + [("pixel", x, y) for y, x in sorted((y, x) for x, y in a.pixels & b.pixels)]


def seen(order, command):
    """What each pixel sees of an order, and what each drawing reads of the texture."""
    pixels, texture, read = {}, [], {}
    for name in order:
        use = command(name)
        if use.writes is not None:
            texture.append(name)
        if use.samples is not None:
            read[name] = tuple(texture)
        for pixel in use.pixels:
            pixels.setdefault(pixel, []).append(name)
    return pixels, read, texture


def told(line_of_spot):
    kind, *numbers = line_of_spot
    return " ".join([kind] + [str(number) for number in numbers])


def any_scene(random):
    """A scene: its text, its streams, the counts of its barriers and the units of its semaphore."""
    clients = random.choice((2, 2, 3))
    streams = [prepared(random, stream(random, random.randrange(1, 4))) for _ in range(clients)]
    counts, units = {1: 2, 2: 2}, {1: random.choice((0, 0, 1))}
    text = "scene 1 2 1\nshared 1 1\n" + "".join(f"barrier {count}\n" for count in counts.values()) + f"semaphore {units[1]}\n"
    text += "".join("client\n" + "".join(one.line + "\n" for one in commands) for commands in streams)
    return text, streams, counts, units


def compare(program, random):
    """One scene: whether it is small enough, and then whether it has a race."""
    text, streams, counts, units = any_scene(random)
    clients = len(streams)
    journal, reach = journal_of(streams, counts, units)
    if sum(reach) > LONGEST:
        return None
    command = lambda name: streams[name[0]][name[1]]
    names, pairs = preceding(journal, reach, units)
    every = list(orders(names, pairs, reach))
    first = default_order(journal, reach, streams)
    assert first in every, (first, journal)
    stands = [{name: index for index, name in enumerate(order)} for order in every]
    conflicts = [(a, b) for a, b in itertools.permutations(names, 2) if a[0] != b[0] and spots(command(a), command(b))]
    unordered = {(a, b) for a, b in conflicts if any(at[a] < at[b] for at in stands) and any(at[b] < at[a] for at in stands)}
    want = "race none"
    for index, second in enumerate(first):
        racing = [name for name in first[:index] if (name, second) in unordered]
        if racing:
            lowest = min(client for client, _ in racing)
            told_first = max(name for name in racing if name[0] == lowest)
            want = f"race {told_first[0]} {told_first[1]} {second[0]} {second[1]} " + told(spots(command(told_first), command(second))[0])
            break
    else:
        assert all(seen(order, command) == seen(first, command) for order in every), text
    scene = subprocess.run([program, "pack"], input=text.encode(), capture_output=True, check=True).stdout
    run = subprocess.run([program, "race"], input=scene, capture_output=True, check=False)
    lines = run.stderr.decode().splitlines()
    line = [line for line in lines if line.startswith("race")]
    waits = any(reach[client] < len(streams[client]) for client in range(clients))
    status = 5 if waits else 0 if want == "race none" else 11
    if line != [want] or run.returncode != status:
        print(text)
        sys.exit(f"wanted {want} and status {status}, found {lines} and status {run.returncode}")
    return want != "race none"


def main():
    parser = Words(__doc__)
    parser.add_argument("program", metavar="PROGRAM", nargs="?", help="the built program (crates/render_cli/out/render_cli)")
    parser.add_argument("count", metavar="COUNT", nargs="?", type=number_in(0, 999_999_999), default=300, help="how many scenes (300)")
    parser.add_argument("seed", metavar="SEED", nargs="?", type=int, default=1, help="the number that they follow from (1)")
    args = parser.parse_args()
    program, source = built(args.program), random.Random(args.seed)
    found = {False: 0, True: 0}
    while sum(found.values()) < args.count:
        race = compare(program, source)
        if race is not None:
            found[race] += 1
    print(f"{args.count} scenes, {found[True]} with a race")


if __name__ == "__main__":
    main()
