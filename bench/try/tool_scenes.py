"""The part of try_tools.py for pack.py, where.py, gl.py and examples/cube.py: texts are packed as
the program packs them, and numbers are those computed by hand.
"""
import random
import re

import refusals
import scene_forms
from tool_calls import EXAMPLES, SCENE, changed, check, drawn, packed, refuses, run, same

import command
import gl
import ranges
import reasons
import scene_text


def verdict(data):
    """What pack.py makes of a text: its bytes, or its first fault as the program tells it."""
    try:
        return scene_forms.scene_bytes(scene_text.read(data).scene)
    except command.Wrong as wrong:
        told = str(wrong)
    if match := re.match(r"line (\d+): ([A-Z]\w+): ", told):
        return f"rc: malformed {match[2]} at {match[1]}"
    match = re.search(r"limit ([a-z ]+) (\d+)", told)
    return f"rc: limit {match[1]} {match[2]}" if match else told


# ---- pack.py


def try_packed():
    """The texts of examples/, and all refused ones of docs/scene-format.md."""
    for path in sorted(EXAMPLES.glob("*.txt")):
        got = run("pack.py", data=path.read_bytes())
        same(f"pack.py: {path.name}", got, (0, path.with_suffix(".rcs").read_bytes(), []))
    rows = [rows for head, rows in refusals.tables() if head == ("text", "line", "why")]
    check("pack.py: the table of refused texts is there", sum(map(len, rows)) > 20)
    for cell, line, _ in (row for table in rows for row in table):
        # version 3 has no text in the program
        if not (line == "rc: malformed BadNumber at 1" and "scene 3" in cell):
            same(f"pack.py: {cell}", verdict(refusals.text_of(cell)), line)


WRONG_TEXTS = {
    "a near name": ("scene 1 2 2\n\n# x\nclient\nVertx 0 0 0 65536\n", "line 5: ", "Vertex?"),
    "a code's name": ("scene 1 2 2\nclient\nEnable GL_DEPTH\n", "line 3: ", "DEPTH is 2"),
    "a broken number": ("scene 1 2 2\nclient\nVertex -0.5 0 0 1\n", "line 3: ", "-32768"),
    "a number too few": ("scene 1 2 2\nclient\nColor 1 2 3\n", "line 3: ", "4 numbers (r g b a)"),
    "a comment": ("scene 1 2 2\nclient\nSwap # all\n", "line 3: ", "a line of its own"),
    "a window too wide": ("# x\nscene 1 4096 2160\nclient\n", "line 2: ", "limit width 4096"),
    "a tab": ("scene 1 2 2\nclient\n\tSwap\n", "line 3: ", "a tab in column 1"),
    "a list in version 2": ("scene 2 2 2\nclient\nNewList 1\n", "line 3: ", "version 3"),
    "no line": ("# nothing\n", "line 1: ", "NoScene"),
    "nothing": ("", "line 1: ", "NoScene"),
}


def try_wrong_texts():
    for what, (text, place, words) in WRONG_TEXTS.items():
        line = refuses(what, 1, "pack.py", data=text.encode())
        check(
            f"pack.py: what is told of {what}", f"pack.py: {place}" in line and words in line, line
        )


def list_text(data):
    """The text of a scene with call lists."""
    scene = scene_forms.read(data, (3,))
    lines = [f"scene 3 {scene.width} {scene.height}"]
    lines += [f"barrier {count}" for count in scene.barriers]
    for stream in scene.streams:
        lines.append("client")
        for opcode, numbers, texels in stream:
            words = [scene_forms.ALL_COMMANDS[opcode][0], *map(str, numbers)]
            lines.append(" ".join(words + [texels.hex()] * bool(texels)))
    return "\n".join(lines).encode()


def try_lists():
    # by hand from docs/scene-format.md
    text = b"scene 3 2 2\nclient\nNewList 1\nClear 1\nEndList\nCallList 1\nSwap\n"
    due = "52435333" "02000200" "01000000" "0a000000" "0500" "2518262724" "010101"
    same("pack.py: call lists", run("pack.py", data=text)[1].hex(), due)
    calls = "CallList 1\n" * 9
    text = f"scene 3 1 1\nclient\nNewList 1\n{calls}EndList\n{calls}"
    line = refuses("lists without end", 1, "pack.py", data=text.encode())
    check("pack.py: what is told of these", "limit expansion" in line, line)
    forest = (EXAMPLES / "forest.rcs").read_bytes()
    same("pack.py: the text of the forest", verdict(list_text(forest)), forest)


def second_verdict(text):
    """What the second reader makes of a text, to which hostile.py holds the program."""
    try:
        return scene_forms.scene_bytes(scene_forms.read_text(text))
    except scene_forms.Refused as refused:
        return refused.line.decode().strip()


def is_third(text, due):
    """Version 3 has no text in the program, nor in the second reader."""
    return bool(re.search(rb"scene +0*3", text)) and due == "rc: malformed BadNumber at 1"


def try_by_reader(seed, rounds=3000):
    """Changed texts have to be judged as the second reader judges them."""
    pick, differ, refused = random.Random(seed), [], 0
    texts = [path.read_bytes() for path in sorted(EXAMPLES.glob("*.txt"))] + [SCENE.encode()]
    texts = [text for text in texts if len(text) < 8000]
    for _ in range(rounds):
        text = changed(pick, pick.choice(texts))
        got, due = verdict(text), second_verdict(text)
        refused += isinstance(due, str)
        if got != due and not is_third(text, due):
            differ.append((text, got, due))
    what = f"{rounds} changed texts, {refused} of them refused"
    check(f"pack.py: {what}, as the second reader judges them", not differ and refused, differ[:1])
    print(f"pack.py: {what}, compared with the second reader")


def try_by_program(seed, rounds=400):
    """Texts of examples/, and changed ones, have to be judged as the program judges them."""
    pick = random.Random(seed)
    paths = sorted(EXAMPLES.glob("*.txt"))
    for path in paths:
        text = path.read_bytes()
        same(f"pack.py: {path.name}, by the program", verdict(text), packed(text))
    texts = [path.read_bytes() for path in paths if path.stat().st_size < 8000] + [SCENE.encode()]
    differ, refused = [], 0
    for _ in range(rounds):
        text = changed(pick, pick.choice(texts))
        got, due = verdict(text), packed(text)
        refused += isinstance(due, str)
        if got != due and not is_third(text, due):
            differ.append((text, got, due))
    what = f"{rounds} changed texts, {refused} of them refused"
    check(f"pack.py: {what}, as the program judges them", not differ and refused, differ[:1])
    print(f"pack.py: {what}, compared with the program")


# ---- where.py

FOREIGN = "this isn't the place of such a command: had the run filters? (--filters tells them)"
SAID = {
    "client 0 fault INVALID_VALUE at 0": ["scene.txt:7: ClearColor 255 0 0 255", FOREIGN],
    "race 0 6 1 0 pixel 3 0": [
        "scene.txt:9-13: Begin 0 (TRIANGLES) .. End, 3 vertices",
        "scene.txt:17: Barrier 1",
        FOREIGN,
        "in an image viewer: column 3, row 1 from the top",
    ],
    "race 0 6 0 1 pixel 4 0": [
        "scene.txt:9-13: Begin 0 (TRIANGLES) .. End, 3 vertices",
        "scene.txt:8: Clear 1 (COLOR)",
        "the window of this text is 4 by 2",
    ],
    "stuck client 1 at 0 Barrier 1": ["scene.txt:17: Barrier 1", "scene.txt:4: barrier 2"],
    "stuck client 0 at 6 Swap": [
        "scene.txt:9-13: Begin 0 (TRIANGLES) .. End, 3 vertices",
        FOREIGN,
    ],
    "race 0 1 1 1 shared 1": [
        "scene.txt:8: Clear 1 (COLOR)",
        "scene.txt:18: Swap",
        FOREIGN,
        "scene.txt:3: shared 1 1",
    ],
    "rc: limit width 4": ["scene.txt:2: scene 1 4 2", "width: 1 to 2048"],
    "rc: limit held pixels 4": [
        "held pixels: 0 to 33554432 in all frames of `serial`, `last` and `simulate`"
    ],
    "rc: limit depth 17": [
        "depth: 1 to 16; this is a limit of the words behind the job, not of the scene"
    ],
    "rc: not for last 0 1": [
        "scene.txt:8: Clear 1 (COLOR)",
        "a Clear behind a block of its frame",
    ],
    "rc: not for last 0 6": [
        "scene.txt:9-13: Begin 0 (TRIANGLES) .. End, 3 vertices",
        "a block without the depth test",
    ],
    "rc: not for last 1 0": [
        "scene.txt:17: Barrier 1",
        "Barrier orders clients, and each is drawn alone",
    ],
    "client 9 fault INVALID_VALUE at 3": ["scene.txt: client 9 has no command 3"],
    "client 0 fault INVALID_VALUE at 99999": ["scene.txt: client 0 has no command 99999"],
    "rc: malformed WrongCount at 8": ["scene.txt:8: Clear 1"],
    "rc: malformed Truncated at 8": [
        "byte 8 of what the job read, which isn't this text: pack it first"
    ],
    "order 1 0 1": ["scene.txt:8: Clear 1 (COLOR)"],
    "journal 2": [],
    "races: not looked for": [],
}


def said(folder, name, notes, *words):
    """What where.py says of each line of some notes."""
    data = "".join(f"{line}\n" for line in notes).encode()
    status, out, err = run("where.py", name, *words, data=data, cwd=folder)
    same(f"where.py: status for {name}", (status, err), (0, []))
    made = {}
    for part in re.findall(r"(?m)^(\S.*)((?:\n    .*)*)", out.decode()):
        made[part[0]] = [line.strip() for line in part[1].splitlines() if line]
    return made


def try_where(folder):
    got = said(folder, "scene.txt", SAID)
    same("where.py: the lines of the notes", list(got), list(SAID))
    for note, due in SAID.items():
        same(f"where.py: {note}", got.get(note), due)
    note = "client 0 fault INVALID_VALUE at 0"
    got = said(folder, "scene.txt", [note], "--filters", "drop ClearColor")
    due = f"{FOREIGN.split(': ')[0]}: did the run have these filters?"
    same("where.py: behind a filter", got[note], ["scene.txt:8: Clear 1 (COLOR)", due])
    text = (
        "scene 3 1 1\nclient\nNewList 1\nClear 1\nClear 9\nEndList\nCallList 1\nCallList 1\nSwap\n"
    )
    (folder / "lists.txt").write_text(text)
    lists = {
        "client 0 list fault INVALID_VALUE at 4": ["lists.txt:7: CallList 1", FOREIGN],
        "client 0 fault INVALID_VALUE at 3": [
            "lists.txt:5: Clear 9",
            "9 has other bits than 1 (colour) and 2 (depth)",
        ],
        "client 0 fault INVALID_VALUE at 4": ["lists.txt:9: Swap", FOREIGN],
    }
    same("where.py: call lists", said(folder, "lists.txt", lists), lists)
    (folder / "wrong.txt").write_text("scene 1 1 1\nclient\nColor 1 2 3\n")
    note = "rc: malformed WrongCount at 3"
    got = said(folder, "wrong.txt", [note])[note]
    is_told = got[0] == "wrong.txt:3: Color 1 2 3" and "4 numbers (r g b a)" in got[1]
    check("where.py: a refused text", is_told, got)
    same("where.py: no notes", said(folder, "scene.txt", []), {})


# What is told of a refused command, by the commands of a client behind refusals.HEAD.
REASONS = {
    "Begin 1;Vertex 0 0 0 1;Swap": (2, "the block that line 6 opens"),
    "Begin 7;Vertex 0 0 0 1": (1, "the Begin of line 6 was refused"),
    "Begin 0;End;End": (2, "the End of line 7 has ended the block before"),
    "Barrier 2": (0, "barrier 2 isn't declared: there is one"),
    "SemV 3": (0, "semaphore 3 isn't declared: there is one"),
    "BindTexture 1 2": (0, "shared texture 2 isn't declared: there is one"),
    f"TexImage 1 257 1 {'00000000' * 257}": (0, "257 by 1 is above 256 by 256"),
    "TexImage 1 0 1;TexPart 1 0 0 0 0": (1, "the TexImage of line 6 was refused"),
    "TexPart 9 0 0 0 0": (0, "texture 9 has no image: it needs a TexImage first"),
    "SharedImage 1 0 2 0 0": (0, "rows 2 to 2 aren't inside the texture, which is 1 high"),
    "Enable 6": (0, "capability 6 is none of 0 SCISSOR, 1 ALPHA, 2 DEPTH"),
    "MatrixMode 1;PopMatrix": (1, "the projection stack has one matrix"),
    "Viewport 0 0 0 2049": (0, "0 by 2049: each is from 0 to 2048"),
}


def reason_of(folder, commands, line):
    """What where.py says behind the line of a refused command."""
    (folder / "one.txt").write_bytes(refusals.HEAD + refusals.text_of(commands))
    return said(folder, "one.txt", [line])[line][1:]


def try_reasons(folder):
    """Each refused command of docs/scene-format.md has a reason, and those above have theirs."""
    tables = refusals.tables()
    rows = [row for head, rows in tables if head == ("commands", "line", "rule") for row in rows]
    check("where.py: the table of refused commands is there", len(rows) > 40, len(rows))
    without = []
    for commands, line, _ in rows:
        reason = reason_of(folder, commands, line)
        without += [commands] if len(reason) != 1 or reason == [FOREIGN] else []
    same("where.py: refused commands without a reason", without, [])
    for commands, (place, due) in REASONS.items():
        (folder / "one.txt").write_bytes(refusals.HEAD + refusals.text_of(commands))
        scene = scene_text.read((folder / "one.txt").read_bytes()).scene
        fault, reason = reasons.refusals(scene, 0)[place]
        check(f"where.py: why {commands[:40]}", due in reason, reason)
        told = reason_of(folder, commands, f"client 0 fault {fault} at {place}")
        same(f"where.py: told why {commands[:40]}", told, [reason])


def try_list_reasons(folder):
    head = ("commands of version 3", "line", "rule")
    rows = [row for names, rows in refusals.tables() if names == head for row in rows]
    check("where.py: the table of refused list commands is there", len(rows) > 5, len(rows))
    for commands, line, _ in rows:
        text = f"scene 3 1 1\nclient\n{commands.replace(';', chr(10))}\n"
        (folder / "one.txt").write_text(text)
        told = said(folder, "one.txt", [line])[line]
        check(f"where.py: why {commands}", len(told) == 2 and told[1] != FOREIGN, told)


def try_last_reasons(folder):
    """What keeps scenes from `last`, as docs/scene-format.md says it."""
    head = ("text", "line", "what keeps it from that")
    rows = [row for names, rows in refusals.tables() if names == head for row in rows]
    check("where.py: the table of scenes that aren't for last is there", len(rows) > 6, len(rows))
    for text, line, due in rows:
        (folder / "one.txt").write_bytes(refusals.text_of(text))
        told = said(folder, "one.txt", [line])[line][1:]
        due = due.replace("`", "")
        is_due = told == [due] or due.startswith("a barrier") and "orders clients" in told[0]
        is_due = is_due or due.replace("the first", "0") == told[0]
        check(f"where.py: why {line} of {text[:60]}", len(told) == 1 and is_due, told)


def try_ranges():
    """The ranges are those of docs/scene-format.md."""
    rows = next(rows for head, rows in refusals.tables() if head[:2] == ("no.", "name"))
    told = {name: re.match(r"(\d+) to (\d+)", range_).groups() for _, name, _, range_ in rows}
    due = {name: tuple(map(str, range_)) for name, range_ in ranges.RANGES.items()}
    same("the ranges of limits", told, due)


# ---- gl.py


def rounded(matrix):
    return [round(number, 9) + 0.0 for number in matrix]


def try_numbers():
    """Fixed point and matrices, computed by hand."""
    numbers = [gl.fixed(number) for number in (1, -1, 0.5, -0.25, 32767.99999)]
    same("gl.py: fixed point", numbers, [65536, -65536, 32768, -16384, 2147483647])
    # 90 degrees, 1 to 3: the focal length is 1, (3+1)/(1-3) = -2 and 2*3*1/(1-3) = -3
    due = [0.5, 0, 0, 0, 0, 1, 0, 0, 0, 0, -2, -1, 0, 0, -3, 0]
    same("gl.py: perspective", rounded(gl.perspective_matrix(90, 2, 1, 3)), due)
    same("gl.py: a turn takes x to y", rounded(gl.rotation(90, 0, 0, 1)[:4]), [0, 1, 0, 0])
    same("gl.py: one around y, z to x", rounded(gl.rotation(90, 0, 1, 0)[8:12]), [1, 0, 0, 0])
    # an eye at (0, 0, 5) that looks at the origin: the world moves by -5 along z
    due = [1, 0, 0, 0, 0, 1, 0, 0, 0, 0, 1, 0, 0, 0, -5, 1]
    same("gl.py: look_at", rounded(gl.look_at_matrix((0, 0, 5), (0, 0, 0), (0, 1, 0))), due)
    # from 0 to 4 and 0 to 2: twice, and one back
    due = [0.5, 0, 0, 0, 0, 1, 0, 0, 0, 0, -1, 0, -1, -1, 0, 1]
    same("gl.py: orthographic", rounded(gl.orthographic_matrix(0, 4, 0, 2)), due)
    both = gl.multiplied(gl.translation(1, 2, 3), gl.scaling(2, 2, 2))
    due = [2, 0, 0, 0, 0, 2, 0, 0, 0, 0, 2, 0, 1, 2, 3, 1]
    same("gl.py: a scale, and then a move", both, due)


def quad_scene():
    """A quad in a colour, a barrier and a swap."""
    scene = gl.Scene(8, 4)
    meeting, client = scene.barrier(1), scene.client()
    client.color(1, 0, 0.5)
    with client.block(gl.QUADS):
        for x, y in ((0, 0), (1, 0), (1, 1), (0, 1)):
            client.vertex(x, y)
    client.barrier(meeting)
    client.swap()
    return scene, client


def wrong_calls(scene, client):
    """Calls that are refused, each with what is told of it."""
    third = gl.Scene(4, 4, version=3).client()

    def inside():
        other = scene.client()
        with other.block(gl.QUADS):
            other.swap()

    def many():
        other = scene.client()
        with other.block(gl.TRIANGLES):
            for _ in range(16_384):
                other.vertex(0, 0)

    def called():
        with third.recording(2):
            third.pop()
        third.call(2)

    return {
        "a number that doesn't fit": (lambda: gl.fixed(40000), "16.16"),
        "no number": (lambda: gl.fixed(float("nan")), "16.16"),
        "a vertex outside a block": (lambda: client.vertex(0, 0), "outside a block"),
        "a wide window": (lambda: gl.Scene(4096, 2), "1 to 2048"),
        "texels that are too few": (lambda: client.tex_image(1, 2, 2, bytes(4)), "16 bytes"),
        "a byte that is none": (lambda: client.issue("Clear", 256), "these numbers"),
        "a large texture": (
            lambda: client.tex_image(1, 512, 512, bytes(4 << 18)),
            "512 by 512 is above 256 by 256",
        ),
        "a part of no image": (lambda: client.tex_part(2, 0, 0, 0, 0, b""), "has no image"),
        "a barrier that isn't declared": (lambda: client.barrier(2), "there is one"),
        "a unit of no semaphore": (lambda: client.semaphore_take(1), "there are none"),
        "a swap inside a block": (inside, "inside a block"),
        "a block of many vertices": (many, "at most 16383 vertices"),
        "a pop of the last matrix": (client.pop, "none below it"),
        "a code that is none": (lambda: client.enable(6), "5 TEXTURE"),
        "a list in version 2": (lambda: client.call(1), "version=3"),
        "a list that pops too much": (called, "PopMatrix of it is refused"),
        "a list's name": (lambda: third.call(65), "1 to 64"),
        "a barrier of nine": (lambda: scene.barrier(9), "1 to 8"),
        "an eye where it looks at": (lambda: client.look_at((0, 0, 1), (0, 0, 1)), "the eye"),
        "up along the view": (lambda: client.look_at((0, 2, 0), (0, 0, 0)), "up goes along"),
        "a near plane at 0": (lambda: client.perspective(45, 1, 0, 9), "above 0"),
    }


def try_scene(folder):
    scene, client = quad_scene()
    corners = ["0 0 0 65536", "65536 0 0 65536", "65536 65536 0 65536", "0 65536 0 65536"]
    vertices = [f"Vertex {corners[at]}" for at in (0, 1, 2, 0, 2, 3)]
    due = ["scene 2 8 4", "barrier 1", "client", "Color 255 0 128 255", "Begin 0", *vertices]
    same("gl.py: a quad", scene.text().splitlines(), [*due, "End", "Barrier 1", "Swap"])
    scene.save(folder / "quad.txt")
    scene.save(folder / "quad.rcs")
    text, data = (folder / "quad.txt").read_bytes(), (folder / "quad.rcs").read_bytes()
    same("gl.py: saved as text and as bytes", verdict(text), data)
    for what, (call, due) in wrong_calls(scene, client).items():
        count = len(client.commands)
        try:
            call()
            check(f"gl.py: {what}", False, "it is taken")
        except ValueError as wrong:
            check(f"gl.py: {what}", due in str(wrong), wrong)
        same(f"gl.py: nothing is written of {what}", len(client.commands), count)


def try_recorded():
    scene = gl.Scene(8, 4, version=3)
    client = scene.client()
    client.color(1, 1, 1)
    with client.recording(1):
        client.color(1, 1, 1)
        client.clear(gl.COLOR_BIT)
    client.call(1)
    client.color(1, 1, 1)
    white = "Color 255 255 255 255"
    due = ["scene 3 8 4", "client", white, "NewList 1", white, "Clear 1", "EndList", "CallList 1"]
    same("gl.py: call lists", scene.text().splitlines(), [*due, white])
    same("gl.py: their bytes", scene.bytes(), verdict(scene.text().encode()))


def try_cube():
    text, data = run("../examples/cube.py")[1], run("../examples/cube.py", "bytes")[1]
    check("cube.py: its text is below 100,000 bytes", 0 < len(text) < 100_000, len(text))
    same("cube.py: text and bytes", verdict(text), data)
    same("cube.py: examples/cube.txt", (EXAMPLES / "cube.txt").read_bytes(), text)
    same("cube.py: examples/cube.rcs", (EXAMPLES / "cube.rcs").read_bytes(), data)


def try_drawn_cube():
    """24 frames, no two alike, nothing refused, and no race."""
    scene = (EXAMPLES / "cube.rcs").read_bytes()
    frames, notes = drawn(scene, "render", "--tiles", "3x2")
    check("cube.py: 24 frames", "frames 24\n" in notes and "fault" not in notes, notes[-200:])
    size = max(1, len(frames) // 24)
    parts = {frames[at : at + size] for at in range(0, len(frames), size)}
    same("cube.py: frames that differ", len(parts), 24)
    same("cube.py: no race", drawn(scene, "race")[1].splitlines()[-1:], ["race none"])


def try_all(folder, seed):
    try_packed()
    try_by_reader(seed)
    try_wrong_texts()
    try_lists()
    try_where(folder)
    try_reasons(folder)
    try_list_reasons(folder)
    try_last_reasons(folder)
    try_ranges()
    try_numbers()
    try_scene(folder)
    try_recorded()
    try_cube()
