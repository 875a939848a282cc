"""Scenes as the tools have them: what a scene's bytes or its text spell, with the lines of the
text, and what it means.

The table of commands and both forms of a scene are those of scene_forms.py, what call lists and
filters mean is that of scene_lists.py: the second reader, by which the program is tried.
"""
import argparse
import re

import command
import ranges
import scene_forms
import scene_lists
from command_table import BY_OPCODE, LIST_ROWS, value_names
from scene_forms import ALL_COMMANDS, ALL_OPCODES, DRAWN_VERSIONS, Refused, Scene

OPERATIONS = [ALL_OPCODES[name] for name in ("Barrier", "SemP", "SemV", "Swap")]
BARRIER, TAKE, GIVE, SWAP = OPERATIONS
BEGIN, END, CLEAR, SHARED_IMAGE = (
    ALL_OPCODES[name] for name in ("Begin", "End", "Clear", "SharedImage")
)
# The names of a command's fields, for those whose numbers need them to be read, and of a line's.
FIELDS = {
    row.name: " ".join(field.name for field in row.fields)
    for row in (*BY_OPCODE, *LIST_ROWS)
    if row.fields and row.fields[0].name
}
FIELDS |= {
    "scene": "version width height",
    "shared": "w h",
    "barrier": "count",
    "semaphore": "units",
}
# The names of a field's codes, each at its number, and of sums of bits.
CODES = {
    (row.name, at): value_names(field)
    for row in BY_OPCODE
    for at, field in enumerate(row.fields)
    if field.names
}


class Placed(tuple):
    """A command as scene_forms has it (opcode, numbers, texels), with the line of the text that it
    stands in.
    """

    def __new__(cls, parts, line=None):
        made = super().__new__(cls, parts)
        made.line = line
        return made


def name_of(placed):
    return ALL_COMMANDS[placed[0]][0]


def told(placed):
    """A command as a line of text, texels left out: with its codes' names behind their numbers."""
    name, numbers = name_of(placed), placed[1]
    if len(numbers) > 8:
        return f"{name} {' '.join(map(str, numbers[:4]))} .."
    names = [
        CODES[name, at][number]
        for at, number in enumerate(numbers)
        if (name, at) in CODES and number < len(CODES[name, at])
    ]
    words = " ".join([name, *map(str, numbers)])
    return f"{words} ({', '.join(names)})" if names else words


def block_start(stream, place):
    """The place of the `Begin` of the block that ends at a place, or nothing where none stands
    before it.
    """
    return next((at for at in range(place, -1, -1) if stream[at][0] == BEGIN), None)


def told_block(stream, place):
    """A command in words; a block that ends at the place as a whole."""
    first = block_start(stream, place) if stream[place][0] == END else None
    if first is None:
        return told(stream[place])
    vertices = sum(name_of(placed) == "Vertex" for placed in stream[first:place])
    return f"{told(stream[first])} .. End, {vertices} vertices"


def told_refusal(refused):
    """The program's line for a scene that it refuses, and the range of what is outside its own."""
    line = refused.line.decode().strip()
    limit = re.fullmatch(r"rc: limit ([a-z ]+) \d+", line)
    return f"{line}: {ranges.told(limit[1])}" if limit else line


def meaning(scene):
    """The scene without call lists that a scene means, and the lines of its refused list commands.
    """
    try:
        return scene_lists.meaning(scene) if scene.version == 3 else (scene, "")
    except Refused as refused:
        raise command.Wrong(told_refusal(refused)) from None


def filter_words(words):
    """The filters of some words, as they stand in front of a job: what reads the option --filters.
    """
    try:
        filters, rest = scene_lists.read_filters(words.split())
    except scene_lists.BadWords:
        rest = words
    if rest:
        raise argparse.ArgumentTypeError(
            f"{words!r} aren't `recolour R G B A`, `cull`, `drop NAME` or `count`"
        )
    return filters


def passed(filters, placed):
    """What all filters make of a command, with its line."""
    line = getattr(placed, "line", None)
    for kind, *values in filters:
        placed = scene_lists.passed(kind, values, placed)
        if placed is None:
            return None
    return Placed(placed, line)


def filtered(filters, scene):
    """The scene behind filters."""
    if not filters:
        return scene
    streams = [
        [made for placed in stream if (made := passed(filters, placed)) is not None]
        for stream in scene.streams
    ]
    return Scene(
        scene.width,
        scene.height,
        scene.shared,
        scene.barriers,
        scene.semaphores,
        streams,
        scene.version,
    )


def read_bytes(data):
    """The scene that bytes spell, where the program takes it."""
    try:
        return scene_forms.read(data, DRAWN_VERSIONS)
    except Refused as refused:
        raise command.Wrong(f"the scene's bytes: {told_refusal(refused)}") from None


def print_line(placed):
    """A command's line of a text, texels included."""
    _, numbers, texels = placed
    return " ".join([name_of(placed), *map(str, numbers), *([texels.hex()] if texels else [])])
