"""How try_tools.py calls the tools of a user, and what it counts: used by all its parts."""
import pathlib
import random
import subprocess
import sys

sys.path.append(str(pathlib.Path(__file__).resolve().parents[2] / "tools"))

import program

ROOT = program.ROOT
TOOLS, EXAMPLES, DOCS = ROOT / "tools", ROOT / "examples", ROOT / "docs"
LONGEST = 300
# A right call of each tool, by which its words are tried: its input is standard input.
CALLS = {
    "pack.py": [],
    "gl.py": [],
    "png.py": ["made"],
    "tiles.py": ["made", "2x1", "notes.txt"],
    "pair.py": ["made"],
    "layers.py": ["made"],
    "where.py": ["scene.txt"],
    "cut.py": [],
    "both_orders.py": ["made"],
    "all_races.py": [],
    "page.py": ["--scene", "scene.txt", "--notes", "notes.txt", "--tiles", "2x1"],
    "../examples/cube.py": [],
}
SCENE = """# two clients
scene 1 4 2
shared 1 1
barrier 2

client
ClearColor 255 0 0 255
Clear 1
Begin 0
Vertex -65536 -65536 0 65536
Vertex 65536 -65536 0 65536
Vertex -65536 65536 0 65536
End
Barrier 1
Swap
client
Barrier 1
Swap
"""
# To each tile go the Clear, the block, four operations and the ends of two clients.
NOTES = """tile 0 parcels 8 sets 1 looks 15
tile 1 parcels 8 sets 1 looks 15
journal 2
frames 1
"""


class Tally:
    """How many tries passed, and how many failed."""

    def __init__(self):
        self.passed = self.failed = 0


TALLY = Tally()


def check(what, holds, detail=""):
    """Counts a try, and tells of one that failed."""
    if holds:
        TALLY.passed += 1
    else:
        TALLY.failed += 1
        print(f"FAILED {what}" + (f": {str(detail)[:300]}" if detail != "" else ""), flush=True)


def same(what, got, due):
    check(what, got == due, f"{str(got)[:120]!r} and not {str(due)[:120]!r}")


def ended(words, data, cwd):
    """Status, output and lines of standard error of some words; `no end` where they take long."""
    try:
        done = subprocess.run(
            words, input=data, capture_output=True, timeout=LONGEST, cwd=cwd, check=False
        )
    except subprocess.TimeoutExpired:
        return "no end", b"", []
    return done.returncode, done.stdout, done.stderr.decode("utf-8", "replace").splitlines()


def run(name, *words, data=b"", cwd=None):
    """A tool's status, output and lines of standard error."""
    return ended([sys.executable, str(TOOLS / name), *map(str, words)], data, cwd)


def shell(line, cwd):
    """The same of a line of a shell."""
    return ended(["bash", "-c", line], b"", cwd)


def refuses(what, status, name, *words, data=b"", cwd=None):
    """The tool has to end with this status, one line that begins with its name, and nothing on
    standard output. Gives the line.
    """
    got = run(name, *words, data=data, cwd=cwd)
    own = name.split("/")[-1]
    is_one = len(got[2]) == 1 and got[2][0].startswith(f"{own}: ")
    check(f"{own}: {what}", got[0] == status and got[1] == b"" and is_one, got)
    return got[2][0] if got[2] else ""


def image(width, height, seed=1):
    """A P6 image of random bytes."""
    return picture(width, height, random.Random(seed).randbytes(3 * width * height))


def picture(width, height, rgb):
    return b"P6\n%d %d\n255\n" % (width, height) + rgb


def body(data, width, height):
    """The pixels of an image."""
    return data[-3 * width * height :]


def make_folder(parent):
    """A folder with the files that the calls of CALLS name."""
    made = pathlib.Path(parent) / "work"
    made.mkdir()
    (made / "scene.txt").write_text(SCENE)
    (made / "notes.txt").write_text(NOTES)
    return made


def drawn(scene, *words):
    """What the program writes of a scene, and its notes."""
    words = [str(program.PROGRAM), *words]
    done = subprocess.run(words, input=scene, capture_output=True, timeout=LONGEST, check=False)
    return done.stdout, done.stderr.decode()


def packed(text):
    """What the program makes of a text: its bytes, or its last line."""
    data, notes = drawn(text, "pack")
    return data or notes.strip()


PICKS = b" -0123456789abcxzCEV#\n\r\t\x80"
PIECES = [b" 1", b"\n", b"client\n", b" 65536", b"\r\n", b"\nEnd\n", b" -1", b" 99999999999"]
PIECES += [b"barrier 3\n", b"\nscene 2 3 3\n", b"Vertex", b"Swap", b"scene", b"Begin", b"Color"]
PIECES += [b"shared", b"TexImage 1 1 1 00000000\n", b"TexImage 1 1 1\n", b"#", b"semaphore 2\n"]


def changed(pick, text):
    """A text with some of its bytes, pieces or lines changed."""
    text = bytearray(text)
    for _ in range(pick.randrange(1, 4)):
        at, kind = pick.randrange(len(text) + 1), pick.randrange(5)
        lines = text.split(b"\n")
        number = pick.randrange(len(lines))
        if kind == 0:
            text[at : at + 1] = bytes([pick.choice(PICKS)])
        elif kind == 1:
            del text[at : at + pick.randrange(1, 12)]
        elif kind == 2:
            text[at:at] = pick.choice(PIECES)
        elif kind == 3:
            lines[number : number + 1] = [lines[number]] * pick.randrange(3)
            text = bytearray(b"\n".join(lines))
        else:
            lines.insert(pick.randrange(len(lines)), lines.pop(number))
            text = bytearray(b"\n".join(lines))
    return bytes(text)
