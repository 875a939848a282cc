"""The parts of documents that are made of tools/command_table.py, for made_tables.py: the commands and their codes in docs/scene-format.md, the commands there that
are refused for a code, and the codes in docs/drawing.md.
"""
import itertools
import re
import sys
import textwrap
from pathlib import Path

sys.path.append(str(Path(__file__).resolve().parents[2] / "tools"))

from command_table import BY_OPCODE, FACTORS, FUNCTIONS

TYPES = {"B": "u8", "H": "u16", "i": "i32"}
FUNCTIONS, FACTORS = FUNCTIONS.split(), FACTORS.split()
# Codes that stand below the table of commands.
BELOW = {"Functions": FUNCTIONS, "Blend factors": FACTORS}
FAULT = "`client 0 fault INVALID_ENUM at 0`"


def told_codes(names):
    return ", ".join(f"{code} {name}" for code, name in enumerate(names))


def told_fields(fields):
    """Some numbers of one type, with their codes where these don't stand below."""
    first = fields[0]
    if first.name is None:
        return f"{len(fields)} of {TYPES[first.letter]}"
    told = ", ".join(field.name for field in fields) + " " + TYPES[first.letter]
    if first.kind == "flag" and len(fields) > 1:
        return f"flags {told}"
    if first.kind == "bits":
        return f"{told}: " + ", ".join(f"bit {bit} {name}" for bit, name in enumerate(first.names))
    return f"{told}: {told_codes(first.names)}" if first.names and [*first.names] not in BELOW.values() else told


def cell(row):
    """What stands behind a command's name."""
    parts = [told_fields([*group]) for _, group in itertools.groupby(row.fields, lambda field: (field.letter, field.names, field.kind == "flag"))]
    told = "".join(part + ("; " if ":" in part else ", ") for part in parts)[:-2]
    return told + (", texels" if row.fields and row.fields[-1].kind == "sides" else "")


def command_rows():
    """A row for each command, and one for those that follow one another with the same numbers."""
    for told, group in itertools.groupby(BY_OPCODE, cell):
        rows = [*group]
        opcodes, names = (", ".join(words) for words in ([f"{row.opcode:02x}" for row in rows], [f"`{row.name}`" for row in rows]))
        yield f"| {opcodes} | {names} | {told + ' ' if told else ''}|"


def codes_below():
    """A paragraph of codes, each on one line with its name."""
    told = " ".join(f"{what}: {told_codes(names)}." for what, names in BELOW.items())
    return [line.replace("=", " ") for line in textwrap.wrap(re.sub(r"(\d) ", r"\1=", told), 150)]


def refused_rows():
    """Of each number that is a code the first one that is none."""
    before = None
    for row in BY_OPCODE:
        for at, field in enumerate(row.fields):
            if field.kind == "code":
                numbers = [len(field.names) if at == other else 0 for other in range(len(row.fields))]
                rule = f"{field.name} " + ("0 or 1" if len(field.names) == 2 else f"from 0 to {len(field.names) - 1}")
                yield f"| `{' '.join(map(str, [row.name, *numbers]))}` | {FAULT} | {rule + ' ' if rule != before else ''}|"
                before = rule


def code_rows():
    for code, (function, factor) in enumerate(itertools.zip_longest(FUNCTIONS, FACTORS)):
        yield "| " + "".join(f"{name} | " if name else "| " for name in (str(code), function, factor)).rstrip()


# What is made: the document, a pattern of its first line and one of each further line, and what makes it.
TABLE = r"\|"
COMMANDS, CODES = "| opcode (hex) | name | fields |", "| code | function | blend factor |"
PARTS = [
    ("scene-format.md", re.escape(COMMANDS), TABLE, lambda: [COMMANDS, "|---|---|---|", *command_rows()]),
    ("scene-format.md", "Functions: 0 ", ".", codes_below),
    ("scene-format.md", rf"\|[^|]*\| {FAULT} \|", rf"\|[^|]*\| {FAULT} \|", refused_rows),
    ("drawing.md", re.escape(CODES), TABLE, lambda: [CODES, "|---|---|---|", *code_rows()]),
]


def with_part(lines, first, further, made):
    """The lines of a document with a part of it made anew, or None where it has none."""
    at = next((at for at, line in enumerate(lines) if re.match(first, line)), None)
    if at is None:
        return None
    end = next((end for end in range(at + 1, len(lines)) if not re.match(further, lines[end])), len(lines))
    return [*lines[:at], *made(), *lines[end:]]
