#!/usr/bin/env python3
"""Holds the tools' table of commands, and what follows from it, against the table of the definitions.

    command_lists.py

The table of the definitions is `table_row` of rc_base/specs/Formats/Commands.antt: opcode, name, fields and placement of each command; the commands with call
lists and their numbers are those of Formats/Spelling.antt, and the ranges of quantities those of Formats/Limits.antt. By it is judged what follows from the rows
of tools/command_table.py: the second reader's table (scene_forms.py), the second judge's codes and placements (scene_faults.py), the names of fields and codes
(scene_bytes.py), calls and constants of gl.py, and first values; by fragment_ops (factors.rt) the names of blend factors; and by the ranges those of ranges.py and of docs/scene-format.md. The tables of documents that
are made of these rows are held by made_tables.py.

A line is printed for each that differs, last `N passed, M failed`; the status is 1 where something failed."""
import re
import sys
from collections import namedtuple
from pathlib import Path

TOP = Path(__file__).resolve().parents[2]
sys.path.append(str(TOP / "tools"))

import command_table
import gl
import ranges
import scene_bytes
import scene_faults
import scene_forms

SPECS = TOP / "crates" / "rc_base" / "specs" / "Formats"
ROW = re.compile(r'^table_row op\.(\w+) = row (0x\w+) \(codes "(\w+)"\) \(?(.*?)(?:∷ )?\[\]\)? (Inside|Outside|Anywhere)$', re.M)
# The letters of `struct` for the fields of a kind.
LETTERS = {"Byte": "B", "Half": "H", "Word": "i", "Code": "B", "Bytes": "B", "Words": "i", "Image": "HH"}

# A command: its opcode and name, the letters of its numbers, the count of codes of each number (None where it has none), and where it may stand.
Command = namedtuple("Command", "opcode name letters codes placement")


class Count:
    def __init__(self):
        self.passed, self.failed = 0, 0

    def same(self, what, got, due):
        self.passed, self.failed = self.passed + (got == due), self.failed + (got != due)
        if got != due:
            print(f"{what}: {got!r}, and the definitions have {due!r}")


def counts(text):
    """Counts of codes that have a name in the definitions."""
    return {name: int(count) for name, count in re.findall(r"^(\w+) = ([0-9]+)$", text, re.M)}


def fields(kinds, named):
    """The letters and the codes of a row's fields."""
    letters, codes = "", []
    for kind in filter(None, (word.strip() for word in kinds.split("∷"))):
        name, _, count = kind.partition(" ")
        many = int(count) if name in ("Bytes", "Words") else 1
        letters += LETTERS[name] * many
        codes += [(named[count] if count in named else int(count)) if name == "Code" else None] * (len(LETTERS[name]) * many)
    return letters, tuple(codes)


def table():
    text = (SPECS / "Commands.antt").read_text()
    named = counts(text)
    rows = [Command(int(number, 16), name, *fields(kinds, named), placement) for _, number, name, kinds, placement in ROW.findall(text)]
    declared = len(re.findall(r"^table_row op\.", text, re.M))
    if not rows or len(rows) != declared:
        sys.exit(f"command_lists.py: {len(rows)} of {declared} rows of the table of commands can be read")
    return {row.name: row for row in rows}


def field_names():
    """The names that the definitions have for the numbers of a command, where each has its own."""
    text = (SPECS / "Commands.antt").read_text()
    for name, told in re.findall(r"^fields_of \(?cmd\.(\w+)[^=]*= (.*)$", text, re.M):
        names = re.sub(r"record {.*?}", "w, h", told).replace("(", "").replace(")", "").split(", ")
        yield name, [word.split(".")[-1] for word in names[:-1]]


def factor_names():
    """The names of the codes of blend factors, as the code that draws has them."""
    text = (TOP / "crates" / "fragment_ops" / "src" / "factors.rt").read_text()
    named = re.findall(r"^ +(?:\d+|_) => Factor::(\w+),$", text, re.M)
    return [re.sub(r"(?<=[a-z])(?=[A-Z])", "_", name).upper() for name in named]


def list_numbers():
    """The opcodes of the commands that make lists and call them."""
    text = (SPECS / "Spelling.antt").read_text()
    return {name: int(number, 16) for name, number in re.findall(r"^list_opcode_number list_op\.(\w+) = (0x\w+)$", text, re.M)}


def try_reader(count, rows, lists):
    due = {row.opcode: (row.name, row.letters) for row in rows.values()}
    for opcode in due.keys() | scene_forms.COMMANDS.keys():
        count.same(f"tools/scene_forms.py: {opcode:02x} of COMMANDS", scene_forms.COMMANDS.get(opcode), due.get(opcode))
    count.same("tools/scene_forms.py: LIST_COMMANDS", {name: opcode for opcode, (name, _) in scene_forms.LIST_COMMANDS.items()}, lists)
    pictures = tuple(row.opcode for row in rows.values() if row.letters.endswith("HH") and row.letters != "HH")
    count.same("tools/scene_forms.py: PICTURES", scene_forms.PICTURES, pictures)


def try_judge(count, rows):
    inside = {row.name for row in rows.values() if row.placement != "Outside"}
    count.same("tools/scene_faults.py: IN_BLOCKS", set(scene_faults.IN_BLOCKS), inside)
    due = {}
    for row in rows.values():
        codes = [number for number in row.codes if number]
        if codes:
            due[row.name] = tuple(codes)
            count.same(f"the codes of {row.name} stand first", row.codes[:len(codes)], tuple(codes))
    count.same("tools/scene_faults.py: CODES", scene_faults.CODES, due)


def try_names(count, rows):
    """Names of fields and codes."""
    for row in rows.values():
        numbers = len(row.letters)
        if 0 < numbers <= 8:
            count.same(f"tools/scene_bytes.py: FIELDS of {row.name}", len(scene_bytes.FIELDS.get(row.name, "").split()), numbers)
        for at, codes in enumerate(row.codes):
            if codes:
                count.same(f"tools/scene_bytes.py: CODES of {row.name}, {at}", len(scene_bytes.CODES.get((row.name, at), [])), codes)
    for name, names in field_names():
        if name in rows and len(names) == len(rows[name].letters):
            count.same(f"tools/command_table.py: fields of {name}", scene_bytes.FIELDS.get(name, "").split(), names)
    count.same("tools/command_table.py: FACTORS", command_table.FACTORS.split(), factor_names())
    for name in scene_bytes.FIELDS:
        known = name in rows or name in ("NewList", "CallList", "scene", "shared", "barrier", "semaphore")
        count.same(f"tools/scene_bytes.py: {name} of FIELDS is known", known, True)
    for command, at in scene_bytes.CODES:
        count.same(f"tools/scene_bytes.py: {command} of CODES is known", command in rows and at < len(rows[command].letters), True)


def try_gl(count):
    """Each command has a call, and each code and bit its constant, which no other one has."""
    for row in command_table.ROWS:
        name = row.call.partition("(")[0]
        count.same(f"tools/gl.py: a call {name}", callable(getattr(gl.Client, name, None)), True)
    for name, number in command_table.constants():
        name = gl.OTHER_NAMES.get(name, name)
        count.same(f"tools/gl.py: {name}", getattr(gl, name, None), number)


def try_values(count, rows):
    """First values have a number for each field, each a code that there is."""
    for name, numbers in command_table.first_values(8, 8).items():
        row = rows.get(name, Command(0, name, "", (), ""))
        right = len(numbers) == len(row.letters) and all(code is None or number < code for number, code in zip(numbers, row.codes))
        count.same(f"tools/command_table.py: first of {name} has its fields", right, True)


def try_page(count):
    """The ranges of quantities, in the page and in the tools."""
    page = (TOP / "docs" / "scene-format.md").read_text()
    due = quantities()
    named = re.findall(r"^\| (\d+) \| `([a-z ]+)` \| .* \| (\d+) to (\d+)\b", page, re.M)
    count.same("docs/scene-format.md: the limits' names", [name for _, name, _, _ in named], list(ranges.RANGES))
    for number, name, least, most in named:
        count.same(f"docs/scene-format.md: the range of {name}", (int(least), int(most)), ranges.RANGES.get(name))
        if int(number) in due:
            count.same(f"docs/scene-format.md: limit {number}, {name}", (int(least), int(most)), due[int(number)])


def quantities():
    """The ranges of quantities by their numbers, where the definitions write them as numbers."""
    text = (SPECS / "Limits.antt").read_text()
    found = re.findall(r"quantity (\d+) (?:\w[\w.]*|\((?:[^()]|\([^()]*\))*\)) (\d+) (\d+)", text)
    return {int(number): (int(least), int(most)) for number, least, most in found}


def main():
    if sys.argv[1:]:
        print(__doc__)
        return 0 if sys.argv[1:] in (["--help"], ["-h"]) else 2
    count, rows = Count(), table()
    try_reader(count, rows, list_numbers())
    try_judge(count, rows)
    try_names(count, rows)
    try_gl(count)
    try_values(count, rows)
    try_page(count)
    print(f"{count.passed} passed, {count.failed} failed")
    return 1 if count.failed else 0


if __name__ == "__main__":
    sys.exit(main())
