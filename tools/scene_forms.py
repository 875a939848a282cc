"""A second reader of scenes and a writer, in bytes and as text, by docs/scene-format.md alone: hostile.py compares the program with it.

`read` and `read_text` give the Scene that bytes or a text spell, or raise Refused with the status and the line that the program owes. A command is a tuple
of its opcode, its numbers and its texels. A scene of version 3 has call lists: `read` judges what was read of it, and scene_lists.py what that means.
"""
import re
import struct

from command_table import BY_OPCODE, LIST_ROWS, layout

LONGEST = 33_554_432
MOST_COMMANDS, MOST_PIXELS, MOST_HELD = 1_048_576, 2_147_483_648, 33_554_432
# The versions that a text has, and `unpack`; and those of the jobs that draw or judge a scene.
VERSIONS, DRAWN_VERSIONS = (1, 2), (1, 2, 3)

# Each opcode's name and the layout of its numbers, as `struct` writes it. The texels of a picture follow its numbers, the last two of which are its sides.
COMMANDS = {row.opcode: (row.name, layout(row)) for row in BY_OPCODE}
# Those that version 3 has beside them.
LIST_COMMANDS = {row.opcode: (row.name, layout(row)) for row in LIST_ROWS}
ALL_COMMANDS = {**COMMANDS, **LIST_COMMANDS}
OPCODES = {name: opcode for opcode, (name, _) in COMMANDS.items()}
ALL_OPCODES = {name: opcode for opcode, (name, _) in ALL_COMMANDS.items()}
LAYOUTS = {opcode: struct.Struct("<" + layout) for opcode, (_, layout) in ALL_COMMANDS.items()}
SWAP = OPCODES["Swap"]
PICTURES = tuple(row.opcode for row in BY_OPCODE if any(field.kind == "sides" for field in row.fields))


class Refused(Exception):
    """The bytes are refused with this status and this line."""

    def __init__(self, status, line):
        super().__init__(line)
        self.status, self.line = status, f"rc: {line}\n".encode()


class Scene:
    """What the bytes of a scene say. One of version 3 has list commands in its streams, and no frames before these are expanded."""

    def __init__(self, width, height, shared, barriers, semaphores, streams, version=1):
        self.version, self.width, self.height = version, width, height
        self.shared, self.barriers, self.semaphores, self.streams = shared, barriers, semaphores, streams

    def frames(self):
        return min((sum(1 for command in stream if command[0] == SWAP) for stream in self.streams), default=0)

    def pixels(self):
        """Those of all frames."""
        return self.frames() * self.width * self.height


def malformed(kind, at):
    return Refused(3, f"malformed {kind} at {at}")


class Reader:
    """Takes bytes from the left, up to an end."""

    def __init__(self, data):
        self.data, self.at, self.end = data, 0, len(data)
        self.counts = []  # place and length of each count and length that was read

    def take(self, size):
        if self.end - self.at < size:
            raise malformed("Truncated", self.end)
        self.at += size
        return self.data[self.at - size:self.at]

    def number(self, layout):
        self.counts.append((self.at, struct.calcsize("<" + layout)))
        return struct.unpack("<" + layout, self.take(self.counts[-1][1]))[0]


def read_spelled(reader, versions=VERSIONS):
    """The scene that the bytes spell, whatever its quantities are; a reader knows some versions."""
    data = reader.data
    for at, letters in enumerate((b"R", b"C", b"S", "".join(map(str, versions)).encode())):
        if at < len(data) and data[at] not in letters:
            raise malformed("BadMagic", at)
        reader.take(1)
    version = data[3] - ord("0")
    known = ALL_COMMANDS if version == 3 else COMMANDS
    width, height = reader.number("H"), reader.number("H")
    clients, shared, barriers, semaphores = (reader.number("B") for _ in range(4))
    shared = [(reader.number("H"), reader.number("H")) for _ in range(shared)]
    barriers = [reader.number("B") for _ in range(barriers)]
    semaphores = [reader.number("H") for _ in range(semaphores)]
    streams = [read_stream(reader, known) for _ in range(clients)]
    if reader.at < len(data):
        raise malformed("Trailing", reader.at)
    return Scene(width, height, shared, barriers, semaphores, streams, version)


def read_stream(reader, known):
    whole = reader.end
    length = reader.number("I")
    if whole - reader.at < length:
        raise malformed("Truncated", whole)
    reader.end = reader.at + length
    commands = []
    while reader.at < reader.end:
        commands += read_packet(reader, known)
    reader.end = whole
    return commands


def read_packet(reader, known):
    at = reader.at
    count = reader.number("H")
    if not 1 <= count <= 1024:
        raise malformed("BadCount", at)
    opcodes = reader.data[reader.at:min(reader.at + count, reader.end)]
    for i, opcode in enumerate(opcodes):
        if opcode not in known:
            raise malformed("UnknownOpcode", reader.at + i)
    reader.take(count)
    return [read_command(reader, opcode) for opcode in opcodes]


def read_command(reader, opcode):
    numbers = LAYOUTS[opcode].unpack(reader.take(LAYOUTS[opcode].size))
    texels = reader.take(4 * numbers[-2] * numbers[-1]) if opcode in PICTURES else b""
    return opcode, numbers, texels


def judge(scene):
    """Raises the first quantity outside its range of what is read."""
    quantities = [("width", scene.width, 1, 2048), ("height", scene.height, 1, 2048), ("clients", len(scene.streams), 1, 8)]
    quantities += [("shared textures", len(scene.shared), 0, 16)]
    quantities += [("shared side", side, 1, 65535) for size in scene.shared for side in size]
    quantities += [("shared texels", sum(w * h for w, h in scene.shared), 0, 1_048_576), ("barriers", len(scene.barriers), 0, 64)]
    quantities += [("barrier count", count, 1, 8) for count in scene.barriers]
    quantities += [("semaphores", len(scene.semaphores), 0, 64), ("commands", sum(map(len, scene.streams)), 0, MOST_COMMANDS)]
    judge_quantities(quantities + (frame_quantities(scene) if scene.version < 3 else []))


def frame_quantities(scene):
    return [("frames", scene.frames(), 0, MOST_COMMANDS), ("pixels", scene.pixels(), 0, MOST_PIXELS)]


def judge_quantities(quantities):
    for name, value, least, most in quantities:
        if not least <= value <= most:
            raise Refused(4, f"limit {name} {value}")


def read(data, versions=VERSIONS):
    """The scene that the bytes spell, where its quantities are within their ranges."""
    if len(data) > LONGEST:
        raise Refused(4, f"limit scene bytes {LONGEST + 1}")
    scene = read_spelled(Reader(data), versions)
    judge(scene)
    return scene


def places(data):
    """Place and length of each count and length, as far as the bytes are read."""
    reader = Reader(data)
    try:
        read_spelled(reader, DRAWN_VERSIONS)
    except Refused:
        pass
    return [(at, size) for at, size in reader.counts if at + size <= len(data)]


def command(name, *numbers, texels=b""):
    return ALL_OPCODES[name], numbers, texels


def packet(commands):
    payloads = b"".join(LAYOUTS[opcode].pack(*numbers) + texels for opcode, numbers, texels in commands)
    return struct.pack("<H", len(commands)) + bytes(opcode for opcode, _, _ in commands) + payloads


def stream_bytes(commands, most=1024):
    return b"".join(packet(commands[i:i + most]) for i in range(0, len(commands), most))


def scene_bytes(scene, most=1024):
    """The bytes of a scene, with packets of so many commands."""
    head = struct.pack("<HHBBBB", scene.width, scene.height, len(scene.streams), len(scene.shared), len(scene.barriers), len(scene.semaphores))
    head += b"".join(struct.pack("<HH", *size) for size in scene.shared) + bytes(scene.barriers)
    head += b"".join(struct.pack("<H", units) for units in scene.semaphores)
    streams = [stream_bytes(commands, most) for commands in scene.streams]
    return b"RCS%d" % scene.version + head + b"".join(struct.pack("<I", len(stream)) + stream for stream in streams)


# ---- text

# What begins a line: its rank, the ranks of lines that may have come before it, and its numbers.
DECLARED = {"scene": (1, (0, 0), "BHH"), "shared": (2, (1, 2), "HH"), "barrier": (3, (1, 3), "B"), "semaphore": (4, (1, 4), "H"), "client": (5, (1, 5), "")}
RANGES = {"B": (0, 255), "H": (0, 65535), "i": (-2147483648, 2147483647)}


def number_of(word, letter):
    """The number of a word, or None where it isn't one of this range."""
    if not re.fullmatch(r"-?[0-9]{1,10}", word):
        return None
    least, most = RANGES[letter]
    return int(word) if least <= int(word) <= most else None


def read_line(scene, rank, line):
    """Reads a line into the scene, and gives its rank; or raises the kind of its fault."""
    if not all(0x20 <= byte <= 0x7E for byte in line):
        raise ValueError("NotText")
    words = line.decode().split(" ")
    words = [word for word in words if word]
    if line.startswith(b"#") or not words:
        return rank
    name, rest = words[0], words[1:]
    if name not in DECLARED and name not in OPCODES:
        raise ValueError("UnknownWord")
    own, (least, most), letters = DECLARED.get(name) or (5, (5, 5), COMMANDS[OPCODES[name]][1])
    if not least <= rank <= most:
        raise ValueError("OutOfPlace")
    numbers = read_numbers(name, rest, letters)
    texels = read_texels(numbers, rest[len(numbers):])
    if name in OPCODES:
        scene.streams[-1].append((OPCODES[name], tuple(numbers), texels))
    elif name == "scene":
        scene.version, scene.width, scene.height = numbers
    elif name == "client":
        scene.streams.append([])
    else:
        {"shared": scene.shared, "barrier": scene.barriers, "semaphore": scene.semaphores}[name].append(numbers[0] if len(numbers) == 1 else tuple(numbers))
    return own


def read_numbers(name, rest, letters):
    """The numbers of a line, where it has as many words as are due."""
    count = len(letters)
    numbers = [number_of(word, letter) for word, letter in zip(rest, letters)]
    more = (0, 0)
    if OPCODES.get(name) in PICTURES and len(numbers) == count:
        w, h = numbers[-2:]
        more = (0, 1) if w is None or h is None else (1, 1) if w * h else (0, 0)
    if not more[0] <= len(rest) - count <= more[1]:
        raise ValueError("WrongCount")
    if None in numbers or name == "scene" and numbers[0] not in VERSIONS:
        raise ValueError("BadNumber")
    return numbers


def read_texels(numbers, rest):
    if not rest:
        return b""
    if len(rest[0]) != 8 * numbers[-2] * numbers[-1] or not re.fullmatch(r"[0-9a-fA-F]*", rest[0]):
        raise ValueError("BadHex")
    return bytes.fromhex(rest[0])


def read_text(text):
    """The scene that a text spells, where its quantities are within their ranges."""
    if len(text) > LONGEST:
        raise Refused(4, f"limit scene bytes {LONGEST + 1}")
    scene, rank = Scene(0, 0, [], [], [], []), 0
    lines = text.split(b"\n")
    lines = [line.removesuffix(b"\r") for line in lines[:-1]] + ([lines[-1]] if lines[-1] else [])
    for number, line in enumerate(lines, 1):
        try:
            rank = read_line(scene, rank, line)
        except ValueError as fault:
            raise malformed(fault, number) from None
    if rank == 0:
        raise malformed("NoScene", 1)
    judge(scene)
    return scene


def scene_text(scene):
    """The text of a scene, as `unpack` writes it."""
    lines = [f"scene {scene.version} {scene.width} {scene.height}"] + [f"shared {w} {h}" for w, h in scene.shared]
    lines += [f"barrier {count}" for count in scene.barriers] + [f"semaphore {units}" for units in scene.semaphores]
    for commands in scene.streams:
        lines.append("client")
        for opcode, numbers, texels in commands:
            lines.append(" ".join([COMMANDS[opcode][0], *map(str, numbers), *([texels.hex()] if texels else [])]))
    return "".join(line + "\n" for line in lines).encode()
