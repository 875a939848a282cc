#!/usr/bin/env python3
"""Runs the examples of docs/scene-format.md, and looks how the program ends where its ends misbehave.

    refusals.py [PROGRAM]

The tables of the page are told by their first rows:
- `bytes | line | why` and `bytes | text | line`: bytes in hexadecimal digits, which each job that reads bytes has to refuse with that line alone; and a text, which `pack` has to.
- `bytes of version 3 | line | why`: bytes that each job but `unpack` has to refuse so, and `unpack` because it doesn't know them.
- `text | line | why`: a text that `pack` has to refuse so.
- `commands | line | rule`: the commands of a client, of which `pack`, and then `check`, `race`, `serial`, `simulate` and `render`, have to tell this
  fault and no other.
- `commands of version 3 | line | rule`: the commands of a client, list commands among them, of which each job but `unpack` has to tell this list fault, first
  and no other.
- `text | line | waits for`: a text whose scene leaves a client waiting, of which the same five have to tell this line and end with 5.
- `text | line | what nothing orders`: a text of whose scene `race` has to tell this line and end with 11.
- `text | line | what keeps it from that`: a text whose scene `last` has to refuse with this line alone and with 12.
- `command | status | last line`: a line of a shell, run by `bash` in a copy of examples/, with the status and the last line of its notes.

In bytes, texts and commands `(..)*N` is N times what is in the brackets; in texts and commands `;` ends a line, and `\\x09` is the byte 09. Every kind of
fault, limit and status has to be there.

Then input comes a byte at a time, and images go into a pipe that is read slowly and into one whose reader is gone. A line tells how many examples of each
table were compared; at the first difference the status is 1.
"""
import collections
import pathlib
import re
import shutil
import subprocess
import sys
import tempfile

sys.path.append(str(pathlib.Path(__file__).resolve().parents[2] / "tools"))

import scene_forms
from command import Words
from program import EXAMPLES, ROOT, built

PAGE = ROOT / "docs/scene-format.md"
READING = (["render"], ["simulate", "--seed", "1"], ["serial"], ["last"], ["check"], ["race"], ["unpack"])
DRAWING = (["render"], ["simulate", "--seed", "1"], ["serial"], ["check"], ["race"])
# Those that know version 3, and how the one that doesn't refuses it.
KNOWING, UNKNOWN = READING[:-1], "rc: malformed BadMagic at 3"
HEAD = b"scene 1 1 1\nshared 1 1\nbarrier 1\nsemaphore 0\nclient\n"
KINDS = """BadMagic BadCount UnknownOpcode Truncated Trailing NotText UnknownWord OutOfPlace WrongCount BadNumber BadHex NoScene INVALID_ENUM INVALID_VALUE
    INVALID_OPERATION STACK_OVERFLOW STACK_UNDERFLOW usage read stuck image out""".split()
LIMITS = ("scene bytes", "width", "height", "clients", "shared textures", "shared side", "shared texels", "barriers", "barrier count", "semaphores", "commands",
          "pixels", "tile columns", "tile rows", "tiles", "depth", "size", "held pixels", "expansion")
LIST_KINDS = ("INVALID_VALUE", "INVALID_OPERATION")


def tables():
    """The tables of the page: the cells of the first row, and those of each row without their quotes."""
    found, rows = [], []
    for line in PAGE.read_text().splitlines() + [""]:
        if line.startswith("|"):
            rows.append([cell.strip().replace("\\|", "|") for cell in re.split(r"(?<!\\)\|", line)[1:-1]])
        elif rows:
            found.append((tuple(rows[0]), [[re.sub(r"^`(.*)`$", r"\1", cell) for cell in row] for row in rows[2:]]))
            rows = []
    return found


def repeated(text):
    """The text with each `(..)*N` written out, the inner ones first."""
    while match := re.search(r"\(([^()]*)\)\*(\d+)", text):
        text = text[:match.start()] + match[1] * int(match[2]) + text[match.end():]
    return text


def text_of(cell):
    """The bytes of a text."""
    escaped = repeated(cell).replace(";", "\n").encode("latin-1")
    return re.sub(rb"\\x([0-9a-f]{2})", lambda match: bytes([int(match[1], 16)]), escaped)


def fail(what, got, due):
    shown = [value if len(repr(value)) < 300 else f"{repr(value)[:300]} .." for value in (got, due)]
    sys.exit(f"refusals.py: {what}: {shown[0]!r} for {shown[1]!r}")


def run(program, words, data):
    done = subprocess.run([program, *words], input=data, capture_output=True, timeout=60, check=False)
    return done.returncode, done.stdout, done.stderr.decode()


def refused(program, words, data, line, cell):
    """The job has to refuse the input with this line, and with nothing else."""
    due = 4 if line.startswith("rc: limit") else 3
    got = run(program, words, data)
    if got != (due, b"", line + "\n"):
        fail(f"{' '.join(words)} of {cell!r}", got, (due, b"", line + "\n"))


def try_bytes(program, cell, line):
    for words in READING:
        refused(program, words, bytes.fromhex(repeated(cell)), line, cell)


def try_list_bytes(program, cell, line):
    for words in KNOWING:
        refused(program, words, bytes.fromhex(repeated(cell)), line, cell)
    refused(program, ["unpack"], bytes.fromhex(repeated(cell)), UNKNOWN, cell)


def list_scene(text):
    """The bytes of a scene of version 3 whose client has these commands."""
    lines = [line.split() for line in text.decode().splitlines()]
    stream = [scene_forms.command(name, *map(int, numbers)) for name, *numbers in lines]
    return scene_forms.scene_bytes(scene_forms.Scene(1, 1, [], [], [], [stream], 3))


def try_list_commands(program, text, line):
    """The jobs that know version 3 have to tell this refused list command, before all else."""
    for words in KNOWING:
        status, image, notes = run(program, words, list_scene(text))
        lines = notes.splitlines()
        got = status, image, lines[:1], [line for line in lines[1:] if " list fault " in line]
        if got != (0, b"", [line], []):
            fail(f"{' '.join(words)} of {text!r}", got, (0, b"", [line], []))


def try_text(program, cell, line):
    refused(program, ["pack"], text_of(cell), line, cell)


def try_scene(program, text, due, told_of):
    """The jobs that issue commands have to end with this status and lines, of those that are asked for."""
    status, scene, notes = run(program, ["pack"], text)
    if (status, notes) != (0, ""):
        fail(f"pack of {text!r}", (status, notes), (0, ""))
    for words in DRAWING:
        status, _, notes = run(program, words, scene)
        got = status, [line for line in notes.splitlines() if told_of in line]
        if got != due:
            fail(f"{words[0]} of {text!r}", got, due)


def try_judged(program, job, text, due):
    """The job has to end with this status and this last line, and to show nothing."""
    _, scene, _ = run(program, ["pack"], text)
    status, image, notes = run(program, [job], scene)
    got = status, image, notes.splitlines()[-1:]
    if got != due:
        fail(f"{job} of {text!r}", got, due)


def try_shell(program, folder, cell, status, line):
    done = subprocess.run(["bash", "-c", cell], cwd=folder, env={"program": program, "PATH": "/usr/bin:/bin"}, stdin=subprocess.DEVNULL,
                          stdout=subprocess.DEVNULL, stderr=subprocess.PIPE, timeout=60, check=False)
    last = done.stderr.decode().splitlines()[-1:]
    if (str(done.returncode), last) != (status, [line] if line else []):
        fail(cell, (done.returncode, last), (status, line))


def try_table(program, folder, head, rows):
    """Compares the examples of a table, and tells whether it has any."""
    for row in rows:
        if head == ("bytes", "line", "why"):
            try_bytes(program, *row[:2])
        elif head == ("bytes of version 3", "line", "why"):
            try_list_bytes(program, *row[:2])
        elif head == ("commands of version 3", "line", "rule"):
            try_list_commands(program, text_of(row[0]), row[1])
        elif head == ("text", "line", "why"):
            try_text(program, *row[:2])
        elif head == ("bytes", "text", "line"):
            try_bytes(program, row[0], row[2])
            try_text(program, row[1], row[2])
        elif head == ("commands", "line", "rule"):
            try_scene(program, HEAD + text_of(row[0]), (0, [row[1]]), " fault ")
        elif head == ("text", "line", "waits for"):
            try_scene(program, text_of(row[0]), (5, [row[1], "rc: stuck"]), "stuck")
        elif head == ("text", "line", "what nothing orders"):
            try_judged(program, "race", text_of(row[0]), (11, b"", [row[1]]))
        elif head == ("text", "line", "what keeps it from that"):
            try_judged(program, "last", text_of(row[0]), (12, b"", [row[1]]))
        elif head == ("command", "status", "last line"):
            try_shell(program, folder, *row)
        else:
            return False
    return True


def missing(found):
    """The kinds of faults, the limits and the statuses of which the tables have no example."""
    cells = " \n".join(cell for _, rows in found for row in rows for cell in row) + " \n"
    kinds = [kind for kind in KINDS if not re.search(rf"(^|\s)(rc: (malformed )?{kind}|client 0 fault {kind})\s", cells)]
    kinds += [f"list fault {kind}" for kind in LIST_KINDS if f"client 0 list fault {kind} at " not in cells]
    statuses = [status for status in "1 2 3 4 5 6 7 8 11 12".split() if not any(row[1] == status for head, rows in found if head[0] == "command" for row in rows)]
    return kinds + [limit for limit in LIMITS if not re.search(rf"rc: limit {limit} \d", cells)] + statuses


def try_slow_source(program):
    """Input that comes a byte at a time is that of a file."""
    for words, name in ((["render"], "shared-texture.rcs"), (["pack"], "red.txt")):
        data = (EXAMPLES / name).read_bytes()
        child = subprocess.Popen([program, *words], stdin=subprocess.PIPE, stdout=subprocess.PIPE, stderr=subprocess.PIPE, bufsize=0)
        for byte in data:
            child.stdin.write(bytes([byte]))
        image, notes = child.communicate(timeout=60)
        got = child.returncode, image, notes.decode()
        if got != run(program, words, data):
            fail(f"{words[0]} of {name}, byte by byte", got, run(program, words, data))


def try_slow_image(program):
    """An image that is read in small pieces is that of a file."""
    data = (EXAMPLES / "wheel.rcs").read_bytes()
    due = run(program, ["render", "--tiles", "3x2"], data)
    child = subprocess.Popen([program, "render", "--tiles", "3x2"], stdin=subprocess.PIPE, stdout=subprocess.PIPE, stderr=subprocess.PIPE, bufsize=0)
    child.stdin.write(data)
    child.stdin.close()
    image = b"".join(iter(lambda: child.stdout.read(997), b""))
    got = child.wait(60), image, child.stderr.read().decode()
    if got != due:
        fail("render of wheel.rcs into a slow pipe", got, due)


def try_gone_reader(program):
    """An image whose reader is gone, or goes after the first bytes."""
    data = (EXAMPLES / "wheel.rcs").read_bytes()
    for words in (["render", "--tiles", "2x2"], ["simulate", "--seed", "1"], ["serial"]):
        for taken in (0, 10_000):
            child = subprocess.Popen([program, *words], stdin=subprocess.PIPE, stdout=subprocess.PIPE, stderr=subprocess.PIPE, bufsize=0)
            read = 0
            if taken == 0:
                child.stdout.close()
            child.stdin.write(data)
            child.stdin.close()
            if taken:
                read = len(child.stdout.read(taken))
                child.stdout.close()
            got = child.wait(60), child.stderr.read().decode()
            told = re.fullmatch(r"rc: image fault after (\d+) bytes\n", got[1])
            if got[0] != 6 or not told or int(told[1]) < read:
                fail(f"{words[0]} whose reader is gone after {read} bytes", got, (6, "rc: image fault after N bytes\n"))


def main():
    parser = Words(__doc__)
    parser.add_argument("program", metavar="PROGRAM", nargs="?", help="the built program (crates/render_cli/out/render_cli)")
    program = built(parser.parse_args().program)
    found = tables()
    absent = missing(found)
    if absent:
        sys.exit(f"refusals.py: {PAGE.name} has no example of {', '.join(absent)}")
    compared = collections.Counter()
    with tempfile.TemporaryDirectory() as work:
        folder = shutil.copytree(EXAMPLES, pathlib.Path(work) / "examples")
        for head, rows in found:
            if try_table(program, folder, head, rows):
                compared[", ".join(head)] += len(rows)
    for head, count in compared.items():
        print(f"{head}: {count} examples")
    try_slow_source(program)
    try_slow_image(program)
    try_gone_reader(program)
    print("slow and broken pipes: as they have to be")


if __name__ == "__main__":
    main()
