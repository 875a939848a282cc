"""The part of try_tools.py for cut.py: frames of what was cut are held against those of the whole,
byte for byte, for the examples and for random films.
"""
import io
import random

from tool_calls import EXAMPLES, SCENE, check, drawn, refuses, run, same

import contexts
import cut
import orders
import ppm
import scene_bytes
import scene_forms
import scene_text
from command_table import BY_OPCODE
from scene_bytes import Scene

# Examples with several frames, each behind these filters.
FILMS = {
    "cube": ["", "drop Barrier", "drop Clear"],
    "day-and-night": ["", "drop Viewport"],
    "glxgears": ["", "drop Clear"],
    "orrery": ["", "drop Clear"],
    "voronoi": [""],
    "wheel": ["", "drop Clear"],
}
# Of a longer film each of the first frames is cut out, and the last one.
MOST_CUTS = 5


def frames_of(data):
    return list(ppm.frames(io.BytesIO(data))) if data else []


def serial(scene):
    """The images and the notes of a scene."""
    made, notes = drawn(scene_forms.scene_bytes(scene), "serial")
    return frames_of(made), notes


def try_films():
    """Frame k of the frames from A on is frame A + k of the whole."""
    films = {path.stem for path in EXAMPLES.glob("*.rcs") if is_film(path)}
    same("cut.py: the examples of several frames", films, set(FILMS))
    for stem, chains in FILMS.items():
        for filters in chains:
            data = (EXAMPLES / f"{stem}.rcs").read_bytes()
            read = scene_bytes.filter_words(filters) if filters else []
            scene = scene_text.read_any(data, read)[0]
            found, whole = orders.Run(scene), frames_of(drawn(data, *filters.split(), "serial")[0])
            firsts = [*range(min(MOST_CUTS, len(whole))), len(whole) - 1]
            for first in dict.fromkeys(firsts):
                end = min(first + 2, len(whole))
                made = serial(cut.cut_frames(found, first, end)[0])[0]
                due = whole[first:end]
                check(f"cut.py: {stem} {filters}, frames {first} to {end - 1}", made == due)


# A shared texture that is written in frame 0 and drawn over the window in frame 1, for a unit that
# was given in frame 0 and one of frame 1.
HANDED_ON = """scene 1 4 4
shared 1 1
semaphore 0
client
SharedImage 1 0 0 1 1 ff8000ff
SemV 1
Swap
Clear 3
SemV 1
Swap
client
Enable 5
BindTexture 1 1
TexEnv 1
Swap
SemP 1
SemP 1
Begin 0
Vertex -65536 -65536 0 65536
Vertex 196608 -65536 0 65536
Vertex -65536 196608 0 65536
End
Swap
"""


def try_handed_on():
    found = orders.Run(scene_text.read(HANDED_ON.encode()).scene)
    made, notes = serial(cut.cut_frames(found, 1, 2)[0])
    due = [(4, 4, b"\xff\x80\0" * 16)]
    check("cut.py: a shared texture and a unit of the frame before", made == due, notes)


def is_film(path):
    return "frames 1\n" not in drawn(path.read_bytes(), "check")[1]


# ---- random films


def texels(pick, w, h):
    return pick.randbytes(4 * w * h)


def matrix(pick):
    return [65536 if at % 5 == 0 else pick.choice((0, 0, 9000, -20000)) for at in range(16)]


def block(pick):
    made = [contexts.placed("Begin", pick.randrange(3))]
    for _ in range(pick.randrange(3, 7)):
        made.append(contexts.placed("Color", *(pick.randrange(256) for _ in range(4))))
        made.append(contexts.placed("TexCoord", *(pick.randrange(131072) for _ in range(2))))
        place = [pick.randrange(-80000, 80000) for _ in range(3)]
        made.append(contexts.placed("Vertex", *place, 65536))
    return made + [contexts.placed("End")]


def sides(pick):
    return *(pick.randrange(-3, 6) for _ in range(2)), *(pick.randrange(1, 14) for _ in range(2))


# Commands that aren't drawn by lot here, and what makes the numbers of those whose numbers aren't
# any: the last two are refused, for no such barrier and no such code.
APART = "End Vertex Clear TexImage TexPart SharedImage SemP SemV Swap".split()
NUMBERS = {
    "TexCoord": lambda pick: [pick.randrange(99999) for _ in range(2)],
    "LoadMatrix": matrix,
    "MultMatrix": matrix,
    "Viewport": sides,
    "Scissor": sides,
    "AlphaFunc": lambda pick: [pick.choice((4, 6, 7, 7)), pick.randrange(200)],
    "ColorMask": lambda pick: [pick.randrange(4) > 0 for _ in range(4)],
    "ClearDepth": lambda pick: [pick.choice((65536, 30000, 70000))],
    "BindTexture": lambda pick: [pick.randrange(2), pick.randrange(1, 3)],
    "Barrier": lambda pick: [9],
    "Begin": lambda pick: [7],
}
RANGES = {"byte": 256, "half": 65536, "whole": 65536, "fixed": 65537, "share": 256, "flag": 2}


def any_numbers(row):
    """What makes numbers of a command's fields."""
    ranges = [RANGES.get(field.kind) or len(field.names) for field in row.fields]
    return lambda pick: [pick.randrange(count) for count in ranges]


# Commands that set something, with what makes their numbers.
SETTING = {
    row.name: NUMBERS.get(row.name) or any_numbers(row)
    for row in BY_OPCODE
    if row.name not in APART
}


def piece(pick):
    """Some commands of a client."""
    kind = pick.randrange(12)
    if kind < 4:
        return block(pick)
    if kind == 4:
        return [contexts.placed("Clear", pick.choice((1, 2, 3, 3)))]
    if kind == 5:
        w, h = pick.randrange(1, 4), pick.randrange(1, 4)
        return [contexts.placed("TexImage", pick.randrange(1, 3), w, h, texels=texels(pick, w, h))]
    if kind == 6:
        name, part = pick.randrange(1, 3), texels(pick, 1, 1)
        return [contexts.placed("TexPart", name, 0, 0, 1, 1, texels=part)]
    if kind == 7:
        name, x, y = pick.randrange(1, 3), pick.randrange(2), pick.randrange(2)
        return [contexts.placed("SharedImage", name, x, y, 1, 1, texels=texels(pick, 1, 1))]
    name = pick.choice(list(SETTING))
    return [contexts.placed(name, *map(int, SETTING[name](pick)))]


def any_film(pick):
    """A film of one to three clients, with meetings and units that are handed on."""
    clients, frames = pick.choice((1, 2, 3)), pick.randrange(2, 6)
    streams = [[] for _ in range(clients)]
    for _ in range(frames):
        for _ in range(pick.randrange(1, 4)):
            for stream in streams:
                for _ in range(pick.randrange(5)):
                    stream += piece(pick)
            kind = pick.randrange(4)
            if kind == 0:
                for stream in streams:
                    stream.append(contexts.placed("Barrier", 1))
            elif kind == 1:
                streams[0] += [contexts.placed("SemV", 1)] * pick.randrange(1, 3)
                streams[-1].append(contexts.placed("SemP", 1))
        if pick.randrange(3) == 0:
            streams[0].append(contexts.placed("Clear", 3))
        for stream in streams:
            stream.append(contexts.placed("Swap"))
    barriers = [clients] if pick.randrange(2) else [clients, 8]
    return Scene(12, 9, [(2, 2), (3, 2)], barriers, [pick.randrange(2)], streams, 2)


def behind(found, client, place):
    """The scene of all drawings up to a command, in one order, and a Swap: what `cut_behind` has to
    show is its last frame.
    """
    ends, names = cut.ends_behind(found, client, place), []
    names = [name for name in found.drawings() if name[1] < ends[name[0]]]
    made, last = orders.Ordered(found), found.frame_of(client, place)
    for frame in range(last + 1):
        made.draw([name for name in names if found.frame_of(*name) == frame])
        if frame < last:
            made.swap(frame)
    streams = [[*stream, contexts.placed("Swap")] for stream in made.streams]
    scene = found.scene
    units = [0] * len(streams)
    return Scene(scene.width, scene.height, scene.shared, [], units, streams, scene.version)


def wrong_of(pick, scene):
    """What of a film isn't cut rightly."""
    found, (whole, _) = orders.Run(scene), serial(scene)
    count = len(found.swaps[0])
    if len(whole) != count:
        return f"{len(whole)} frames of {count}"
    for first in range(count):
        end = pick.randrange(first + 1, count + 1)
        made, notes = serial(cut.cut_frames(found, first, end)[0])
        if made != whole[first:end]:
            return f"frames {first} to {end - 1}: {notes}"
    for _ in range(3):
        client = pick.randrange(len(scene.streams))
        place = pick.randrange(found.reach[client])
        made, notes = serial(cut.cut_behind(found, client, place)[0])
        if scene.streams[client][place][0] == scene_bytes.SWAP:
            due = [whole[found.frame_of(client, place)]]
        else:
            due = serial(behind(found, client, place))[0][-1:]
        if made != due:
            return f"behind {client} {place}: {notes}"
    return None


def try_random(seed, count=30):
    pick, wrong = random.Random(seed), []
    for number in range(count):
        scene = any_film(pick)
        told = wrong_of(pick, scene)
        wrong += [(number, told)] if told else []
    same(f"cut.py: {count} random films", wrong, [])


# ---- the first frames


def try_fronts(seed, count=30):
    """The first frames are each stream up to its Swap there, as it was declared: the `front` of
    docs/synchronisation.md.
    """
    pick, wrong = random.Random(seed), []
    scenes = [scene_text.read_any(path.read_bytes(), [])[0] for path in EXAMPLES.glob("*.rcs")]
    for number, scene in enumerate(scenes + [any_film(pick) for _ in range(count)]):
        found = orders.Run(scene)
        for end in range(1, len(found.swaps[0]) + 1):
            made = cut.cut_frames(found, 0, end)[0]
            pairs = zip(scene.streams, found.swaps)
            streams = [stream[: swaps[end - 1] + 1] for stream, swaps in pairs]
            if made.streams != streams or declared(made) != declared(scene):
                wrong.append((number, end))
    same("cut.py: the first frames are the streams up to there", wrong, [])


def declared(scene):
    window = scene.version, scene.width, scene.height
    return window, scene.shared, scene.barriers, scene.semaphores


# ---- words


def try_words(folder):
    """What is cut, by the tool: bytes and text say one scene; what is wrong is told."""
    data = (EXAMPLES / "cube.rcs").read_bytes()
    words = ["--frames", "3:5"]
    status, made, err = run("cut.py", *words, data=data, cwd=folder)
    same("cut.py: status", (status, err), (0, []))
    text = run("cut.py", *words, "--text", data=data, cwd=folder)[1]
    same("cut.py: its text", run("pack.py", data=text, cwd=folder)[1], made)
    check("cut.py: what is set is told", b"# client 1: what is set so far\n" in text)
    by_text = run("cut.py", *words, data=(EXAMPLES / "cube.txt").read_bytes(), cwd=folder)[1]
    same("cut.py: of a text", by_text, made)
    one = run("cut.py", "--frames", "3", data=data, cwd=folder)[1]
    same("cut.py: one frame", one, run("cut.py", "--frames", "3:4", data=data, cwd=folder)[1])
    text = run("cut.py", "--text", "--filters", "drop Vertex", data=SCENE.encode(), cwd=folder)[1]
    due = [line for line in SCENE.splitlines() if line and "Vertex" not in line and line[0] != "#"]
    same("cut.py: the text behind filters", text.decode().splitlines(), due)
    wrongs = {
        "frames behind the last one": ["--frames", "24:25"],
        "a client that isn't there": ["--until", "2 0"],
        "a command that isn't there": ["--until", "1 99999"],
    }
    for what, words in wrongs.items():
        refuses(what, 1, "cut.py", *words, data=data, cwd=folder)
    stuck = (EXAMPLES / "stuck.rcs").read_bytes()
    refuses("a command that isn't come to", 1, "cut.py", "--until", "1 1", data=stuck, cwd=folder)


def try_all(folder):
    try_words(folder)
    try_fronts(7)


def try_by_program(_, seed):
    try_handed_on()
    try_random(seed)
    try_films()
