"""Reads the text of a scene of any version, call lists included, and says of a wrong line what is
wrong with it.

`read_text(data)` gives the scene, whose commands know their lines, and the lines of its
declarations. A text is refused at the line at which `render_cli pack` refuses it and with the same
kind; but `scene 3`, which this reader alone knows, has the commands `NewList N`, `EndList` and
`CallList N` beside the others.
"""
import difflib
import re

import command
import ranges
import scene_forms
from scene_bytes import (
    ALL_COMMANDS,
    ALL_OPCODES,
    CODES,
    DRAWN_VERSIONS,
    FIELDS,
    Placed,
    Refused,
    Scene,
    filtered,
    meaning,
    read_bytes,
)

DECLARED, PICTURES = scene_forms.DECLARED, scene_forms.PICTURES
LAYOUTS = {name: layout for name, (_, _, layout) in DECLARED.items()}
LAYOUTS.update(ALL_COMMANDS.values())
LIST_NAMES = [name for name, _ in scene_forms.LIST_COMMANDS.values()]
PRINTED = re.compile(rb"[\x20-\x7e]*")
# The quantities of a scene that lines declare, and which of a line's words they are.
SIDES = {"width": 2, "height": 3}


class Fault(Exception):
    """What is wrong with a line: its kind, and the same in words."""

    def __init__(self, kind, what):
        super().__init__(f"{kind}: {what}")


class Text:
    """What was read of a text so far."""

    def __init__(self):
        self.scene, self.rank = Scene(0, 0, [], [], [], []), 0
        self.places = {name: [] for name in DECLARED}

    def read_line(self, number, line):
        end = PRINTED.match(line).end()
        if end < len(line):
            byte = {9: "a tab", 13: "a CR that no LF follows"}.get(
                line[end], f"byte {line[end]:02x}"
            )
            raise Fault(
                "NotText",
                f"{byte} in column {end + 1}, where a text has letters of ASCII and spaces",
            )
        words = [word for word in line.decode().split(" ") if word]
        if line.startswith(b"#") or not words:
            return
        name, rest = words[0], words[1:]
        if name not in LAYOUTS or name in LIST_NAMES and self.scene.version != 3:
            raise unknown(name)
        self.judge_place(name)
        numbers = read_numbers(name, rest)
        texels = read_texels(numbers, rest[len(numbers) :])
        self.places[name].append(number) if name in DECLARED else None
        self.add(number, name, tuple(numbers), texels)

    def judge_place(self, name):
        """A line stands behind those that may come before it."""
        own, (least, most) = DECLARED[name][:2] if name in DECLARED else (5, (5, 5))
        if not least <= self.rank <= most:
            if self.rank == 0:
                raise Fault(
                    "OutOfPlace", f"the first line is `scene V WIDTH HEIGHT`, and not {name}"
                )
            if name == "scene":
                raise Fault("OutOfPlace", "a second `scene`")
            if own == 5:
                raise Fault("OutOfPlace", f"{name} before any `client`")
            meant = " (the command is Barrier)" if name == "barrier" and self.rank == 5 else ""
            raise Fault(
                "OutOfPlace",
                f"`{name}` behind what stands after it: shared, barrier, semaphore, client{meant}",
            )
        self.rank = own

    def add(self, number, name, numbers, texels):
        scene = self.scene
        if name == "scene":
            scene.version, scene.width, scene.height = numbers
        elif name == "client":
            scene.streams.append([])
        elif name == "shared":
            scene.shared.append(numbers)
        elif name in DECLARED:
            {"barrier": scene.barriers, "semaphore": scene.semaphores}[name].append(numbers[0])
        else:
            scene.streams[-1].append(Placed((ALL_OPCODES[name], numbers, texels), number))


def unknown(name):
    """No line and no command has this name: perhaps one that is near to it."""
    if name.startswith("#"):
        return Fault("UnknownWord", "a comment has its # in the first column")
    if name in LIST_NAMES:
        return Fault("UnknownWord", f"{name} is a command of version 3 alone")
    known = {known.lower(): known for known in LAYOUTS}
    plain = name.lower().removeprefix("gl").replace("colour", "color")
    near = difflib.get_close_matches(plain, known, 1)
    return Fault(
        "UnknownWord",
        f"{name[:40]!r} is no line and no command" + (f" ({known[near[0]]}?)" if near else ""),
    )


def counted(count, noun):
    return f"{count} {noun}" + ("" if count == 1 else "s")


def read_numbers(name, rest):
    """The numbers of a line, where it has as many words as are due."""
    layout = LAYOUTS[name]
    numbers = [scene_forms.number_of(word, letter) for word, letter in zip(rest, layout)]
    least = most = 0
    if ALL_OPCODES.get(name) in PICTURES and len(numbers) == len(layout):
        w, h = numbers[-2:]
        least, most = (0, 1) if w is None or h is None else (1, 1) if w * h else (0, 0)
    if not least <= len(rest) - len(layout) <= most:
        raise Fault("WrongCount", wrong_count(name, rest, least))
    for at, (word, number) in enumerate(zip(rest, numbers)):
        if number is None or name == "scene" and at == 0 and number not in DRAWN_VERSIONS:
            raise Fault("BadNumber", wrong_number(name, at, word))
    return numbers


def wrong_count(name, rest, texels):
    """How many numbers are due, and how many words are there."""
    fields = f" ({FIELDS[name]})" if name in FIELDS else ""
    due = (
        counted(len(LAYOUTS[name]), "number") + fields + (" and a word of texels" if texels else "")
    )
    here = f"{counted(len(rest), 'word')} {'is' if len(rest) == 1 else 'are'} here"
    has_comment = any(word.startswith("#") for word in rest)
    comment = "; a comment needs a line of its own" if has_comment else ""
    return f"{name} takes {due}, and {here}{comment}"


def wrong_number(name, at, word):
    """What is wrong with the number of a field."""
    fields = FIELDS.get(name, "").split()
    field = fields[at] if at < len(fields) else f"number {at + 1}"
    least, most = (1, 3) if name == "scene" and at == 0 else scene_forms.RANGES[LAYOUTS[name][at]]
    told = f"{word[:40]!r} as {field} of {name}: a whole number from {least} to {most} is due"
    codes = CODES.get((name, at), [])
    plain = word.upper().removeprefix("GL_")
    if plain in codes:
        return f"{told}; {plain} is {codes.index(plain)}"
    if re.fullmatch(r"-?[0-9]*\.[0-9]+", word) and LAYOUTS[name][at] == "i" and len(word) < 12:
        return f"{told}; in 16.16 fixed point {word} is {round(float(word) * 65536)}"
    return told


def read_texels(numbers, rest):
    if not rest:
        return b""
    due = 8 * numbers[-2] * numbers[-1]
    if len(rest[0]) != due:
        raise Fault(
            "BadHex", f"{due} hexadecimal digits of texels are due, and {len(rest[0])} are here"
        )
    if not re.fullmatch(r"[0-9a-fA-F]*", rest[0]):
        raise Fault("BadHex", "the texels are hexadecimal digits, r, g, b and a of each")
    return bytes.fromhex(rest[0])


def lines_of(data):
    """The lines of a text: the last LF may be missing, and one CR before an LF is ignored."""
    lines = data.split(b"\n")
    return [line.removesuffix(b"\r") for line in lines[:-1]] + ([lines[-1]] if lines[-1] else [])


def limit_place(text, name, value):
    """The line of the first quantity that is outside its range, or nothing where it isn't one
    line's.
    """
    scene, places = text.scene, text.places
    if name in SIDES:
        return places["scene"][0]
    if name == "shared side":
        return next(line for line, sides in zip(places["shared"], scene.shared) if value in sides)
    if name == "barrier count":
        return places["barrier"][scene.barriers.index(value)]
    most = {
        "clients": ("client", 8),
        "shared textures": ("shared", 16),
        "barriers": ("barrier", 64),
        "semaphores": ("semaphore", 64),
    }.get(name)
    return places[most[0]][most[1]] if most and value > most[1] else None


def judge(text):
    """The scene's quantities, and those of what its call lists mean, are within their ranges."""
    try:
        scene_forms.judge(text.scene)
    except Refused as refused:
        line = refused.line.decode().strip()
        name, value = re.fullmatch(r"rc: limit ([a-z ]+) (\d+)", line).groups()
        place = limit_place(text, name, int(value))
        where = f"line {place}: " if place else ""
        raise command.Wrong(f"{where}limit {name} {value}: {ranges.told(name)}") from None
    meaning(text.scene)


def read(data):
    """What a text says: its scene, and the lines of its declarations."""
    if len(data) > scene_forms.LONGEST:
        raise command.Wrong(
            f"limit scene bytes {scene_forms.LONGEST + 1}: {ranges.told('scene bytes')}"
        )
    text = Text()
    for number, line in enumerate(lines_of(data), 1):
        try:
            text.read_line(number, line)
        except Fault as fault:
            raise command.Wrong(f"line {number}: {fault}") from None
    if text.rank == 0:
        raise command.Wrong("line 1: NoScene: no line says anything")
    judge(text)
    return text


def read_any(data, filters=()):
    """What a scene's bytes or its text mean behind filters, and what was read."""
    scene = read_bytes(data) if data[:3] == b"RCS" else read(data).scene
    return filtered(filters, meaning(scene)[0]), scene
