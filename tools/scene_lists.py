"""What call lists and filters mean, by docs/scene-format.md and docs/drawing.md alone: lists.py and hostile.py compare the program with it.

`meaning` gives the scene of version 2 that a scene of version 3 means, and the lines of its refused list commands, or raises Refused; `read` is that of
bytes of any version. `read_filters` reads the leading words, and `filtered` passes a scene through them.

A stream may meet some sixty million commands and give none of them, so no list is walked to be measured: what a call gives and costs is summed up for each
list and depth, and only where a sum passes the limit is the call walked, to the command that passes it.
"""
import re

import scene_forms
from scene_forms import ALL_OPCODES, DRAWN_VERSIONS, LAYOUTS, MOST_COMMANDS, OPCODES, Refused, Scene

MOST_COST, DEEPEST, NAMES = 67_108_864, 8, range(1, 65)
NEW_LIST, END_LIST, CALL_LIST = (ALL_OPCODES[name] for name in ("NewList", "EndList", "CallList"))


def cost_of(command):
    """One, and one for each byte of the payload."""
    opcode, _, texels = command
    return 1 + LAYOUTS[opcode].size + len(texels)


class TooLong(Exception):
    """The costs pass the limit: their sum at the command that passes it."""

    def __init__(self, spent):
        super().__init__(spent)
        self.spent = spent


class Expansion:
    """What a stream means: its commands, their number, the refused list commands by place and fault, and the costs so far.

    Of more commands than the limit allows there is the number alone.
    """

    def __init__(self, spent):
        self.commands, self.count, self.faults, self.spent = [], 0, [], spent

    def pay(self, cost):
        self.spent += cost
        if self.spent > MOST_COST:
            raise TooLong(self.spent)

    def call(self, lists, name):
        """The commands of a list, at depth 1."""
        count, cost = sizes(lists, name, 1, {})
        if self.spent + cost > MOST_COST:
            self.pay_each(lists, name, 1, {})
        self.spent += cost
        if self.count + count <= MOST_COMMANDS:
            self.commands += given(lists, name, 1, {})
        self.count += count

    def pay_each(self, lists, name, depth, known):
        """Pays for a list command by command, where a call in it fits as a whole."""
        for command in lists.get(name, ()):
            self.pay(cost_of(command))
            if command[0] == CALL_LIST and depth < DEEPEST:
                _, cost = sizes(lists, command[1][0], depth + 1, known)
                if self.spent + cost > MOST_COST:
                    self.pay_each(lists, command[1][0], depth + 1, known)
                self.spent += cost


def sizes(lists, name, depth, known):
    """How many commands a list gives at a depth, and what it costs."""
    if (name, depth) not in known:
        count = cost = 0
        for command in lists.get(name, ()):
            cost += cost_of(command)
            if command[0] != CALL_LIST:
                count += 1
            elif depth < DEEPEST:
                more = sizes(lists, command[1][0], depth + 1, known)
                count, cost = count + more[0], cost + more[1]
        known[name, depth] = count, cost
    return known[name, depth]


def given(lists, name, depth, known):
    """The commands that a list gives at a depth."""
    if (name, depth) not in known:
        commands = []
        for command in lists.get(name, ()):
            if command[0] != CALL_LIST:
                commands.append(command)
            elif depth < DEEPEST:
                commands += given(lists, command[1][0], depth + 1, known)
        known[name, depth] = commands
    return known[name, depth]


def fault_of(command, recording):
    """Why a list command is refused, or None."""
    opcode, numbers, _ = command
    if opcode == NEW_LIST and recording or opcode == END_LIST and not recording:
        return "INVALID_OPERATION"
    return "INVALID_VALUE" if opcode in (NEW_LIST, CALL_LIST) and numbers[0] not in NAMES else None


def expand(stream, spent=0):
    """The meaning of a stream, whose costs are added to those so far."""
    made, lists, recording = Expansion(spent), {}, None
    for place, command in enumerate(stream):
        opcode, numbers, _ = command
        fault = fault_of(command, recording is not None)
        if recording is None or opcode == END_LIST:
            made.pay(cost_of(command))
        if fault:
            made.faults.append((place, fault))
        elif opcode == END_LIST:
            lists[recording[0]], recording = recording[1], None
        elif recording is not None:
            recording[1].append(command)
        elif opcode == NEW_LIST:
            recording = numbers[0], []
        elif opcode == CALL_LIST:
            made.call(lists, numbers[0])
        else:
            made.count += 1
            made.commands.append(command)
    return made


def meaning(scene):
    """The scene of version 2 that one of version 3 means, and the lines of its refused list commands. Its quantities are judged."""
    streams, lines, spent, count = [], "", 0, 0
    try:
        for client, stream in enumerate(scene.streams):
            made = expand(stream, spent)
            spent, count = made.spent, count + made.count
            streams.append(made.commands)
            lines += "".join(f"client {client} list fault {fault} at {place}\n" for place, fault in made.faults)
    except TooLong as too_long:
        raise Refused(4, f"limit expansion {too_long.spent}") from None
    scene_forms.judge_quantities([("commands", count, 0, MOST_COMMANDS)])
    meant = Scene(scene.width, scene.height, scene.shared, scene.barriers, scene.semaphores, streams, 2)
    scene_forms.judge_quantities(scene_forms.frame_quantities(meant))
    return meant, lines


def read(data):
    """The scene that bytes of any version mean to the jobs that draw or judge it, and the lines of its refused list commands."""
    scene = scene_forms.read(data, DRAWN_VERSIONS)
    return meaning(scene) if scene.version == 3 else (scene, "")


def expanded(data):
    """The bytes of a scene of version 2 with the same meaning, where they spell one of version 3."""
    return scene_forms.scene_bytes(read(data)[0]) if data[3:4] == b"3" else data


# ---- filters

COLOR, ENABLE, DISABLE = (OPCODES[name] for name in ("Color", "Enable", "Disable"))
CULLING = 4
MOST_FILTERS = 16
FILTERED_JOBS = ("render", "simulate", "serial", "check", "race", "last")


class BadWords(Exception):
    """A filter's word without the words that are due behind it, or a filter too many."""


def is_channel(word):
    return re.fullmatch(r"0|[1-9][0-9]{0,2}", word) is not None and int(word) <= 255


def read_filters(words):
    """The filters that the leading words name, each as a list of its word and its values, and the words behind them."""
    filters, words = [], list(words)
    while words and words[0] in ("recolour", "cull", "drop", "count"):
        kind = words.pop(0)
        due = {"recolour": 4, "drop": 1}.get(kind, 0)
        values, words = words[:due], words[due:]
        if len(values) < due or len(filters) == MOST_FILTERS:
            raise BadWords
        if kind == "recolour" and not all(map(is_channel, values)) or kind == "drop" and values[0] not in OPCODES:
            raise BadWords
        filters.append([kind, *(map(int, values) if kind == "recolour" else values)])
    return filters, words


def passed(kind, values, command):
    """What a filter makes of a command: another one, the same, or None."""
    opcode, numbers, texels = command
    if kind == "recolour" and opcode == COLOR:
        return opcode, tuple((a * b + 127) // 255 for a, b in zip(numbers, values)), texels
    if kind == "cull" and opcode == DISABLE and numbers[0] == CULLING:
        return ENABLE, numbers, texels
    if kind == "drop" and opcode == OPCODES[values[0]]:
        return None
    return command


def one_filtered(kind, values, streams):
    """The streams behind one filter, and how many commands came to it."""
    kept = [[made for command in stream if (made := passed(kind, values, command)) is not None] for stream in streams]
    return kept, sum(map(len, streams))


def filtered(filters, scene):
    """The scene behind all filters, and the lines of those that count."""
    streams, lines = scene.streams, ""
    for number, (kind, *values) in enumerate(filters):
        streams, came = one_filtered(kind, values, streams)
        lines += f"filter {number} count {came}\n" if kind == "count" else ""
    return Scene(scene.width, scene.height, scene.shared, scene.barriers, scene.semaphores, streams, scene.version), lines
