"""Streams of items as the bytes of a scene: commands with the state that changed before them, and
what is repeated in them as call lists."""
import collections
import struct

from command_table import FIRST

from .faults import Refused
from .items import BARRIER, SWAP, Clear, command
from .limits import (LAYOUTS, MOST_BYTES, MOST_COMMANDS, MOST_COST, MOST_LISTS, MOST_PIXELS,
                     MOST_SIDE, MOST_TEXTURES, OPCODES)

PACKET = 1024       # commands
SIZES = bytes(LAYOUTS[opcode].size if opcode in LAYOUTS else 0 for opcode in range(256))
SCISSOR, ALPHA = 0, 1       # capabilities; DEPTH, BLEND, CULL and TEXTURE follow


class Encoder:
    """One client's stream as tokens: opcodes and payloads of commands that stay together."""

    def __init__(self):
        self.names, self.tokens, self.now, self.before = collections.OrderedDict(), [], {}, None
        self.now.update(FIRST)

    def set(self, name, *values):
        """A command that sets these values, unless they are set."""
        if self.now.get(name) != values:
            self.now[name] = values
            self.tokens.append(command(name, LAYOUTS[OPCODES[name]].pack(*values)))

    def switch(self, capability, on):
        if self.now.get(capability, False) != on:
            self.now[capability] = on
            self.tokens.append(command("Enable" if on else "Disable", bytes((capability,))))

    def item(self, item):
        if item == SWAP:
            self.tokens.append(command("Swap"))
        elif item == BARRIER:
            self.tokens.append(command("Barrier", b"\1"))
        elif isinstance(item, Clear):
            self.clear(item)
        else:
            if item.state is not self.before:
                self.state(item.state)
                self.before = item.state
            self.tokens.append((item.opcodes, item.payload))

    def scissor(self, box):
        self.switch(SCISSOR, box is not None)
        if box is not None:
            self.set("Scissor", *box)

    def clear(self, item):
        self.before = None
        self.scissor(item.scissor)
        self.set("ColorMask", *item.color_mask)
        self.set("DepthMask", item.depth_mask)
        self.set("ClearColor", *item.color)
        self.set("ClearDepth", item.depth)
        self.tokens.append(command("Clear", bytes((item.mask,))))

    def state(self, state):
        self.set("Viewport", *state.viewport)
        self.set("DepthRange", *state.depth_range)
        self.set("ColorMask", *state.color_mask)
        self.scissor(state.scissor)
        stages = (state.alpha, state.depth, state.blend, state.cull, state.texture)
        for capability, value in enumerate(stages, ALPHA):
            self.switch(capability, value is not None)
        if state.texture:
            image, replaces, wraps = state.texture
            self.bind(image)
            self.set("TexEnv", replaces)
            self.set("TexWrap", *wraps)
        if state.depth:
            self.set("DepthFunc", state.depth[0])
            self.set("DepthMask", state.depth[1])
        if state.cull:
            self.set("CullFace", state.cull[0])
            self.set("FrontFace", state.cull[1])
        if state.alpha:
            self.set("AlphaFunc", *state.alpha)
        if state.blend:
            self.set("BlendFunc", *state.blend)

    def bind(self, image):
        """A texture keeps its name while it is among the last that were used."""
        if image in self.names:
            self.names.move_to_end(image)
        else:
            full = len(self.names) == MOST_TEXTURES
            name = self.names.popitem(last=False)[1] if full else len(self.names) + 1
            self.names[image] = name
            payload = struct.pack("<B2H", name, image.width, image.height) + image.texels
            self.tokens.append(command("TexImage", payload))
        self.set("BindTexture", 0, self.names[image])


def size_of(token):
    """What a token's commands cost: one each, and one for each byte of their payloads."""
    opcodes, payload = token
    return len(opcodes) + len(payload)


def runs_of(tokens):
    """The tokens in runs of those that always follow one another."""
    followers, leaders = collections.defaultdict(set), collections.defaultdict(set)
    for a, b in zip([None] + tokens, tokens + [None]):
        followers[a].add(b)
        leaders[b].add(a)
    runs, run = [], []
    for token in tokens:
        if run and not (len(followers[run[-1]]) == 1 and len(leaders[token]) == 1):
            runs.append(tuple(run))
            run = []
        run.append(token)
    return runs + [tuple(run)] if run else runs


def with_lists(tokens):
    """The tokens with what is repeated as call lists where that is shorter, and how many lists."""
    numbers = {}
    runs = runs_of([numbers.setdefault(token, len(numbers)) for token in tokens])
    known = list(numbers)
    counts = collections.Counter(runs)
    saved = {run: (count - 1) * sum(size_of(known[number]) for number in run) - 3 - 2 * count
             for run, count in counts.items() if count > 1}
    chosen = sorted((run for run in saved if saved[run] > 0), key=lambda run: -saved[run])
    names = {run: bytes((name,)) for name, run in enumerate(chosen[:MOST_LISTS], 1)}
    made, written = set(), []
    for run in runs:
        body = [known[number] for number in run]
        if run not in names:
            written += body
            continue
        if run not in made:
            made.add(run)
            written += [command("NewList", names[run]), *body, command("EndList")]
        written.append(command("CallList", names[run]))
    return written, len(names)


def packets(tokens):
    """The bytes of a stream: packets of 1,024 commands, the last one shorter."""
    out, opcodes, payload, room = [], [], [], PACKET

    def close():
        codes = b"".join(opcodes)
        out.extend((struct.pack("<H", len(codes)), codes, *payload))
        opcodes.clear()
        payload.clear()

    for codes, data in tokens:
        while len(codes) > room:
            size = sum(codes[:room].translate(SIZES))
            opcodes.append(codes[:room])
            payload.append(data[:size])
            codes, data, room = codes[room:], data[size:], PACKET
            close()
        opcodes.append(codes)
        payload.append(data)
        room -= len(codes)
        if not room:
            close()
            room = PACKET
    if opcodes:
        close()
    return b"".join(out)


class Stream:
    """One client's bytes, with the commands that they mean and what their lists cost."""

    def __init__(self, items, lists):
        encoder = Encoder()
        for item in items:
            encoder.item(item)
        tokens, self.lists = encoder.tokens, 0
        plain = sum(len(codes) for codes, _ in tokens)
        self.cost = sum(map(size_of, tokens))
        if lists:
            tokens, self.lists = with_lists(tokens)
        written = sum(len(codes) for codes, _ in tokens)
        self.commands = max(plain, written)
        self.cost += sum(size_of(token) for token in tokens if token[0][0] > OPCODES["Swap"])
        self.data = packets(tokens)


def judge(size, streams, frames):
    """Refuses a scene that doesn't fit a limit, with what to do about it."""
    width, height = size
    if not 1 <= width <= MOST_SIDE or not 1 <= height <= MOST_SIDE:
        raise Refused(f"a window of {width} by {height} pixels, and sides are 1 to {MOST_SIDE}: "
                      "trace in smaller windows, or choose other --columns")
    if frames * width * height > MOST_PIXELS:
        raise Refused(f"{frames * width * height} pixels in all frames, and a scene has at most "
                      f"{MOST_PIXELS}: choose fewer frames")
    commands = sum(stream.commands for stream in streams)
    if commands > MOST_COMMANDS:
        raise Refused(f"{commands} commands, and a scene has at most {MOST_COMMANDS}: choose "
                      "fewer frames")


def scene_bytes(size, streams, lists, version):
    """The bytes of a scene with these streams of items, and how many commands it means."""
    frames = min(sum(1 for item in items if item == SWAP) for items in streams)
    made = [Stream(items, lists) for items in streams]
    if any(stream.lists for stream in made) and sum(stream.cost for stream in made) > MOST_COST:
        made = [Stream(items, False) for items in streams]
    judge(size, made, frames)
    meets = any(item == BARRIER for items in streams for item in items)
    digit = b"3" if any(stream.lists for stream in made) else b"%d" % version
    data = b"RCS" + digit + struct.pack("<2H4B", *size, len(made), 0, int(meets), 0)
    data += bytes((len(made),)) * meets
    data += b"".join(struct.pack("<I", len(stream.data)) + stream.data for stream in made)
    if len(data) > MOST_BYTES:
        raise Refused(f"{len(data)} bytes, and a scene has at most {MOST_BYTES}: choose fewer "
                      "frames, --nearest or --texture-side 64")
    return data, sum(stream.commands for stream in made)
