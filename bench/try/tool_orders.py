"""The part of try_tools.py for both_orders.py and all_races.py: orders are held against all
permitted ones of random small scenes, which races.py goes through, and pictures against those of
runs that recorded such an order.
"""
import io
import random
import re

import png_reader
import races
from tool_calls import EXAMPLES, check, drawn, image, picture, refuses, run, same

import all_races
import orders
import ppm
import program
import scene_bytes
import scene_forms
import scene_text

FILTERED = {
    "barrier": ["", "drop Barrier"],
    "producer-consumer": ["", "drop SemP drop SemV"],
    "day-and-night": ["", "drop Viewport"],
    "shared-texture": [""],
    "stuck": ["", "drop SemP"],
    "links": [""],
    "orrery": [""],
}


def behind(stem, filters):
    """An example behind filters: its scene, and its bytes with the words in front of a job."""
    data = (EXAMPLES / f"{stem}.rcs").read_bytes()
    read = scene_bytes.filter_words(filters) if filters else []
    return scene_text.read_any(data, read)[0], data, filters.split()


# ---- by the definition, without the program


class Small:
    """A random small scene with all its permitted orders, as races.py finds them."""

    def __init__(self, pick):
        self.names = None
        text, self.streams, counts, units = races.any_scene(pick)
        self.journal, self.reach = races.journal_of(self.streams, counts, units)
        if sum(self.reach) > races.LONGEST:
            return
        self.scene = scene_text.read(text.encode()).scene
        self.names, pairs = races.preceding(self.journal, self.reach, units)
        self.every = list(races.orders(self.names, pairs, self.reach))
        self.stands = [{name: at for at, name in enumerate(order)} for order in self.every]

    def is_before(self, a, b):
        return all(at[a] < at[b] for at in self.stands)

    def command(self, name):
        return self.streams[name[0]][name[1]]

    def race(self, a, b):
        """Whether two commands conflict and nothing orders them."""
        meet = a[0] != b[0] and races.spots(self.command(a), self.command(b))
        return bool(meet) and not self.is_before(a, b) and not self.is_before(b, a)

    def has_race(self):
        return any(self.race(a, b) for a in self.names for b in self.names)


def smalls(seed, count, racing=0):
    """Small scenes, of which at least so many have a race."""
    pick, made, left = random.Random(seed), [], racing
    while len(made) < count:
        small = Small(pick)
        if small.names and (len(made) < count - left or small.has_race()):
            made.append(small)
            left -= left > 0 and small.has_race()
    return made


def wrong_of(small):
    """What of a scene's journal, of what is before what, and of both orders isn't as defined."""
    found = orders.Run(small.scene)
    kinds = {"Barrier": "B", "SemP": "P", "SemV": "V", "Swap": "S"}
    entries = [(kinds[entry.kind], dict(entry.members)) for entry in found.entries]
    if entries != [(kind, places) for kind, _, places in small.journal]:
        return "journal"
    if found.reach != small.reach:
        return "reach"
    for a in small.names:
        for b in small.names:
            if a != b and found.is_before(a, b) != small.is_before(a, b):
                return f"before {a} {b}"
            if small.race(a, b) and (wrong := wrong_orders(small, found, a, b)):
                return wrong
    return None


def wrong_orders(small, found, a, b):
    """Both orders are those of the drawings in permitted ones, and differ in two neighbours."""
    both = orders.both_orders(found, a, b)
    drawings = set(found.drawings())
    permitted = {tuple(name for name in order if name in drawings) for order in small.every}
    if any(tuple(order) not in permitted for order in both):
        return f"an order that isn't permitted of {a} {b}"
    at = both[0].index(a)
    turned = both[0][:at] + [b, a] + both[0][at + 2 :]
    return None if both[1] == turned else f"orders that differ elsewhere, of {a} {b}"


def try_definition(seed, count=150):
    found = smalls(seed, count, count // 3)
    wrong = [(wrong, small.scene.streams) for small in found if (wrong := wrong_of(small))]
    same(f"both_orders.py: {count} small scenes, by their definition", wrong, [])


# ---- by the program


def try_recorded():
    """The order that a run recorded draws that run's image, and has no race."""
    for stem, chains in FILTERED.items():
        for filters in chains:
            scene, data, words = behind(stem, filters)
            for seed in ("1", "2", "3"):
                schedule = ["simulate", "--seed", seed, "--depth", "1", "--order"]
                made, notes = drawn(data, *words, *schedule)
                names = [
                    tuple(map(int, line.split()[2:]))
                    for line in notes.splitlines()
                    if line.startswith("order 0 ")
                ]
                found = orders.Run(scene)
                drawings = set(found.drawings())
                order = [name for name in names if name in drawings]
                what = f"both_orders.py: {stem} {filters}, by simulate {seed}"
                same(f"{what}: its drawings", sorted(order), sorted(drawings))
                spelled = scene_forms.scene_bytes(orders.scene_of(found, order))
                same(f"{what}: the image", drawn(spelled, "serial")[0], made)
                told = drawn(spelled, "race")[1].splitlines()
                check(f"{what}: no race", "race none" in told, told)


def try_all_small(seed, count=25):
    """What all_races.py tells are races of the scene, each once, and it ends with none left."""
    wrong = []
    for small in smalls(seed, count, count - 3):
        found, rest = all_races.races(str(program.PROGRAM), small.scene, 50, print_=lambda _: None)
        pairs = []
        for line in found:
            a, b, c, d, *spot = line.split()[1:]
            pairs.append(((int(a), int(b)), (int(c), int(d))))
            spots = races.spots(small.command(pairs[-1][0]), small.command(pairs[-1][1]))
            if not small.race(*pairs[-1]) or " ".join(spot) not in map(races.told, spots):
                wrong.append((line, small.scene.streams))
        is_whole = "none is left" in rest or "another journal" in rest
        if len(set(pairs)) != len(pairs) or not is_whole or bool(found) != small.has_race():
            wrong.append((found, rest))
    same(f"all_races.py: {count} small scenes, by their definition", wrong, [])


RACES = {
    ("barrier", "drop Barrier"): ["race 0 15 1 7 pixel 52 20"],
    ("producer-consumer", "drop SemP drop SemV"): ["race 0 2 1 13 shared 1"],
    ("red", ""): [],
}


def try_told(folder):
    for (stem, filters), due in RACES.items():
        data = (EXAMPLES / f"{stem}.rcs").read_bytes()
        got = run("all_races.py", "--filters", filters, data=data, cwd=folder)
        last = f"races {len(due)}, and with these in order none is left" if due else "race none"
        same(f"all_races.py: {stem}", got, (0, "\n".join([*due, last, ""]).encode(), []))
        if due:
            # a told race comes first there too
            told = drawn(data, *filters.split(), "race")[1].splitlines()
            check(f"all_races.py: {stem}, as `race` tells it", due[0] in told, told)
    data = (EXAMPLES / "links.rcs").read_bytes()
    got = run("all_races.py", "--most", "1", data=data, cwd=folder)[1].decode().splitlines()
    check("all_races.py: --most", len(got) == 2 and "and more" in got[1], got)


def parts_of(path, count, gap=8):
    """The images that stand beside each other in a picture."""
    ((width, height, rgb),), _ = png_reader.read(path.read_bytes())
    side = (width + gap) // count - gap
    rows = [rgb[3 * width * y : 3 * width * (y + 1)] for y in range(height)]
    for number in range(count):
        at = 3 * number * (side + gap)
        yield side, height, b"".join(row[at : at + 3 * side] for row in rows)


def frames_of(data):
    return list(ppm.frames(io.BytesIO(data)))


def below_labels(picture_, rows=30):
    """An image without its first rows, where labels stand."""
    width, _, rgb = picture_
    return rgb[3 * width * rows :]


def try_both(folder):
    """The two pictures are those of two scenes without a race, and what differs is marked."""
    for stem, filters, frame in (
        ("barrier", "drop Barrier", 0),
        ("cube", "drop Barrier", 0),
        ("links", "", 0),
    ):
        data = (EXAMPLES / f"{stem}.rcs").read_bytes()
        words = ["both", "--scenes", "--filters", filters]
        status, out, err = run("both_orders.py", *words, data=data, cwd=folder)
        lines = out.decode().splitlines()
        names = ["both-1.rcs", "both-2.rcs", "both.png"]
        got = status, [lines[1], lines[2], lines[4]], err
        same(f"both_orders.py: {stem}", got, (0, names, []))
        told = drawn(data, *filters.split(), "race")[1].splitlines()
        check(f"both_orders.py: {stem}, the race", lines[0] in told, lines)
        scenes = [(folder / name).read_bytes() for name in names[:2]]
        for scene in scenes:
            verdict = drawn(scene, "race")[1].splitlines()
            check(f"both_orders.py: {stem}, no race in a scene", "race none" in verdict, verdict)
        first, second = (frames_of(drawn(scene, "serial")[0])[frame] for scene in scenes)
        left, right, marked = parts_of(folder / "both.png", 3)
        same(f"both_orders.py: {stem}, left", below_labels(left), below_labels(first))
        same(f"both_orders.py: {stem}, right", below_labels(right), below_labels(second))
        pixels = [
            (first[2][at : at + 3] != second[2][at : at + 3], marked[2][at : at + 3])
            for at in range(3 * 30 * first[0], len(first[2]), 3)
        ]
        wrong = [rgb for differs, rgb in pixels if differs != (rgb == b"\xff\0\xff")]
        same(f"both_orders.py: {stem}, the marks", wrong, [])
        count = sum(
            first[2][at : at + 3] != second[2][at : at + 3] for at in range(0, len(first[2]), 3)
        )
        whole = f"frame {frame}: {count} of {len(first[2]) // 3} pixels differ: "
        check(f"both_orders.py: {stem}, the count", count and lines[3].startswith(whole), lines[3])


def try_wrong_races(folder):
    data = (EXAMPLES / "barrier.rcs").read_bytes()
    refuses("no race", 1, "both_orders.py", "both", data=data, cwd=folder)
    wrongs = {
        "commands that are ordered": "0 15 1 8",
        "a command that draws nothing": "0 0 1 8",
        "a client that isn't there": "0 15 4 0",
        "a place that isn't there": "0 15 1 999",
    }
    for what, word in wrongs.items():
        words = ["both", "--race", word]
        refuses(what, 1, "both_orders.py", *words, data=data, cwd=folder)
    refuses("no numbers", 2, "both_orders.py", "both", "--race", "0 15 1", data=data, cwd=folder)


def try_difference(folder):
    """pair.py --difference of two images that differ in three pixels."""
    width, height = 9, 7
    first = bytearray(image(width, height)[-3 * width * height :])
    second = bytearray(first)
    for x, y, channel in ((2, 1, 0), (5, 1, 2), (3, 6, 1)):
        second[3 * (y * width + x) + channel] ^= 1
    data = picture(width, height, bytes(first)) + picture(width, height, bytes(second))
    words = ["pair", "--difference", "--left", "", "--right", ""]
    status, out, err = run("pair.py", *words, data=data, cwd=folder)
    told = "3 of 63 pixels differ: columns 2 to 5, rows 1 to 6 from the top"
    got = status, out.decode().splitlines(), err
    same("pair.py: --difference", got, (0, [told, "pair.png"], []))
    words = ["pair", "--difference", "--scale", "3"]
    same_ = picture(width, height, bytes(first)) * 2
    out = run("pair.py", *words, data=same_, cwd=folder)[1].decode()
    check("pair.py: no difference", out.startswith("0 of 63 pixels differ\n"), out)


def try_table():
    """docs/program.md has a line for each tool."""
    text = (EXAMPLES.parent / "docs" / "program.md").read_text()
    named = set(re.findall(r"(?m)^\| `tools/(\w+\.py)` \|", text))
    paths = (EXAMPLES.parent / "tools").glob("*.py")
    tools = {path.name for path in paths if path.read_text().startswith("#!")}
    tools -= {name for name in tools if name.startswith("test_")}
    same("docs/program.md: the table of tools", named, tools)


def try_all(folder, seed):
    try_definition(seed)
    try_difference(folder)
    try_table()


def try_by_program(folder, seed):
    try_recorded()
    try_all_small(seed)
    try_told(folder)
    try_both(folder)
    try_wrong_races(folder)
