#!/usr/bin/env python3
"""Tries every tool of tools/, and ./try-tests, as a user has it in hand: right input and wrong,
words, pipes that break, ends that are full.

    python3 bench/try/try_tools.py [SEED]

What a tool gives is held against what was made elsewhere: PNG files against bench/try/png_reader.py,
packed texts against the program's `pack` and the files of examples/, pictures against those of
docs/, numbers against those computed by hand. Where the program isn't built its part is left out,
and a line says so. It prints a line for what failed, and last `N passed, M failed`; the status is 1
where something failed.
"""
import pathlib
import random
import re
import shlex
import shutil
import subprocess
import sys
import tempfile

sys.path.append(str(pathlib.Path(__file__).resolve().parents[2] / "tools"))

import program
import tool_cuts
import tool_images
import tool_orders
import tool_pages
import tool_scenes
from command import Words
from tool_calls import (
    CALLS,
    EXAMPLES,
    NOTES,
    ROOT,
    SCENE,
    TALLY,
    TOOLS,
    changed,
    check,
    image,
    make_folder,
    refuses,
    run,
    shell,
)

# Words that are wrong: of tools/png.py and so on what is wrong, and the words.
WRONG_WORDS = [
    ("tiles.py", "tiles of another form", ["made", "four", "notes.txt"]),
    ("tiles.py", "no tiles", ["made", "0x1", "notes.txt"]),
    ("tiles.py", "40 tiles", ["made", "8x5", "notes.txt"]),
    ("tiles.py", "no notes", ["made", "2x1"]),
    ("png.py", "--fps without --apng", ["made", "--fps", "3"]),
    ("png.py", "a rate of 0", ["made", "--apng", "--fps", "0"]),
    ("png.py", "a rate of three words", ["made", "--apng", "--fps", "23,976"]),
    ("png.py", "no name", [""]),
    ("tiles.py", "no name", ["", "2x1", "notes.txt"]),
    ("pair.py", "a scale of 0", ["made", "--scale", "0"]),
    ("pair.py", "a folder's name", ["made/"]),
    ("cut.py", "frames that end before they begin", ["--frames", "3:2"]),
    ("cut.py", "frames that are none", ["--frames", "1-2"]),
    ("cut.py", "a command that is none", ["--until", "1"]),
    ("cut.py", "frames and a command", ["--frames", "1:2", "--until", "0 1"]),
    ("both_orders.py", "a race that is none", ["made", "--race", "pixel 0 0"]),
    ("all_races.py", "no race at most", ["--most", "0"]),
    ("layers.py", "a client that is no number", ["client", "one"]),
    ("layers.py", "two names", ["one", "1"]),
    ("where.py", "filters that are none", ["scene.txt", "--filters", "drop Nothing"]),
    ("page.py", "filters that are none", [*CALLS["page.py"], "--filters", "render"]),
    ("page.py", "no notes", ["--scene", "scene.txt"]),
    ("../examples/cube.py", "an unknown form", ["pictures"]),
]
WRITING = {
    "pack.py": SCENE.encode(),
    "where.py": NOTES.encode() * 3000,
    "cut.py": SCENE.encode(),
    "gl.py": b"",
    "../examples/cube.py": b"",
    "page.py": image(4, 2),
}


def try_words(folder):
    for name, words in CALLS.items():
        own = name.split("/")[-1]
        status, out, err = run(name, "--help", cwd=folder)
        is_page = b"usage:" in out and b"python3" in out and not err
        check(f"{own}: --help", status == 0 and is_page, (status, out[:80], err))
        refuses("an unknown option", 2, name, *words, "--nonsense", cwd=folder)
        refuses("words too many", 2, name, *words, "one", "two", "three", cwd=folder)
        if words:
            refuses("no words", 2, name, cwd=folder)
    for name, what, words in WRONG_WORDS:
        refuses(what, 2, name, *words, cwd=folder)


def call_of(name):
    """A right call of a tool, as a shell has it."""
    return shlex.join([sys.executable, str(TOOLS / name), *CALLS[name]])


def try_ends(folder):
    """Output that is full or closed, input that is closed, and readers that go away."""
    for name, data in WRITING.items():
        (folder / "input").write_bytes(data)
        own = name.split("/")[-1]
        done = shell(f"{call_of(name)} < input > /dev/full", folder)
        is_told = done[0] == 1 and len(done[2]) == 1 and "No space" in done[2][0]
        check(f"{own}: a full disk", is_told, done)
        done = shell(f"{call_of(name)} < input | head -c 1", folder)
        is_quiet = not re.search("Broken|Traceback|Error", "".join(done[2]))
        check(f"{own}: a reader that goes away", done[0] == 0 and is_quiet, done)
        done = shell(f"{call_of(name)} < input >&-", folder)
        is_told = done[0] in (0, 1) and len(done[2]) <= 1 and "Traceback" not in "".join(done[2])
        check(f"{own}: no standard output", is_told, done)
    for name in CALLS:
        if name not in ("gl.py", "../examples/cube.py"):
            done = shell(f"{call_of(name)} <&-", folder)
            is_told = len(done[2]) == 1 and done[2][0].startswith(f"{name}: ")
            check(f"{name}: closed input", done[0] == 1 and is_told, done)


def try_files(folder):
    """Files that aren't there, that are folders, and that are something else."""
    for name, at in (("tiles.py", 2), ("where.py", 0), ("page.py", 1), ("page.py", 3)):
        for what, path in (("a missing file", "nowhere.txt"), ("a folder", ".")):
            words = list(CALLS[name])
            words[at] = path
            refuses(what, 1, name, *words, data=image(4, 2), cwd=folder)
    (folder / "bytes").write_bytes(bytes(range(256)) * 8)
    scene = EXAMPLES / "red.rcs"
    wrongs = [
        ("bytes as notes", "tiles.py", "made", "2x1", "bytes"),
        ("bytes as notes", "page.py", "--scene", "scene.txt", "--notes", "bytes"),
        ("bytes as a scene", "page.py", "--scene", "bytes", "--notes", "notes.txt"),
        ("a scene's bytes as its text", "where.py", scene),
        ("a folder that isn't there", "png.py", "nowhere/made"),
    ]
    for what, name, *words in wrongs:
        refuses(what, 1, name, *words, data=image(4, 2), cwd=folder)


def try_garbage(folder, seed):
    """Wrong bytes of every kind: status 0 or 1, at most some lines and no traceback."""
    pick, sound = random.Random(seed), {"scene.txt": SCENE.encode(), "notes.txt": NOTES.encode()}
    for number in range(24):
        for path, data in sound.items():
            made = changed(pick, data) if pick.random() < 0.8 else pick.randbytes(200)
            (folder / path).write_bytes(made)
        for name in ("where.py", "page.py", "tiles.py", "layers.py", "pack.py", "cut.py"):
            kinds = [image(4, 2), NOTES.encode(), SCENE.encode()]
            data = changed(pick, pick.choice(kinds)) if number % 4 else pick.randbytes(300)
            status, _, err = run(name, *CALLS[name], data=data, cwd=folder)
            is_told = len(err) <= 4 and not any("Traceback" in line for line in err)
            check(f"{name}: garbage {number}", status in (0, 1) and is_told, (status, err, data))
    for path, data in sound.items():
        (folder / path).write_bytes(data)


def try_alone(folder):
    """The tools by themselves, without the rest of the repository."""
    alone = folder / "alone"
    shutil.copytree(TOOLS, alone, ignore=shutil.ignore_patterns("__pycache__"))
    for path in sorted(alone.glob("*.py")):
        if path.read_text().startswith("#!"):
            done = subprocess.run([sys.executable, path, "--help"], cwd=folder, stdin=subprocess.DEVNULL, capture_output=True, timeout=60, check=False)
            check(f"{path.name}: tools/ alone", done.returncode == 0, done.stderr[-300:])


# What run_rows has to tell of its rows, the last line behind them; and how many rows it has.
ROWS = (ROOT / "crates" / "run_rows" / "stdout").read_text()
ROW_COUNT = len(ROWS.splitlines()) - 1
# What stands in for `rt try` in a crate: its lines, and what ./try-tests has to tell of them.
TEST_RUNS = {
    "program_tests": ("test a::b ... ok\ntest a::c ... ok\ntest result: ok. 2 passed; 0 failed; 0 ignored; 0 filtered out\n", "2 passed, 0 failed"),
    "drawing_tests": ("test a::b ... ok\ntest a::d ... FAILED\ntest result: FAILED. 1 passed; 1 failed; 0 ignored; 0 filtered out\n", "1 passed, 1 failed"),
    "cluster_tests": ("error: there is no such name\n", "0 passed, 1 failed"),
    "format_tests": ("tests: 0\ntest result: ok. 0 passed; 0 failed; 0 ignored; 0 filtered out\n", "0 passed, 1 failed"),
    "run_rows": (ROWS.replace("as wanted", "not as wanted by: draw\n    its status is 0", 1), f"{ROW_COUNT - 1} passed, 1 failed"),
}


def try_test_runner(folder):
    """./try-tests: its words, and its lines over an `rt` that passes, fails, doesn't compile or runs no test."""
    runner = shlex.quote(str(ROOT / "try-tests"))
    done = shell(f"{runner} --help", folder)
    check("try-tests: --help", done[0] == 0 and b"--jobs" in done[1] and not done[2], done)
    for words in ("--nonsense", "--jobs 0", "--jobs many", "--jobs", "--seconds 3601", "raster", "program_tests nothing"):
        done = shell(f"{runner} {words}", folder)
        check(f"try-tests {words}", done[0] == 2 and len(done[2]) == 1 and done[2][0].startswith("try-tests: "), done)
    done = shell(f"PATH=/nowhere {shlex.quote(sys.executable)} {runner}", folder)
    check("try-tests: no rt", done[0] == 2 and len(done[2]) == 1 and "no rt" in done[2][0], done)
    for crate, (lines, _) in TEST_RUNS.items():
        (folder / f"{crate}.lines").write_text(lines)
    rt = folder / "rt"
    rt.write_text(f'#!/bin/sh\ncat "{folder}/$(basename "$PWD").lines"\n')
    rt.chmod(0o755)
    done = shell(f'PATH="{folder}:$PATH" {runner} --jobs 2 {" ".join(TEST_RUNS)}', folder)
    lines = done[1].decode().splitlines()
    for crate, (_, told) in TEST_RUNS.items():
        check(f"try-tests: {crate}", any(line.startswith(f"{crate}: {told}, ") for line in lines), done)
    check("try-tests: the failed test's name", "  failed: a::d" in lines, done)
    check("try-tests: what a row left", "      its status is 0" in lines, done)
    check("try-tests: the last line", done[0] == 1 and lines[-1] == f"{2 + ROW_COUNT} passed, 4 failed" and not done[2], done)
    done = shell(f'PATH="{folder}:$PATH" {runner} program_tests', folder)
    check("try-tests: all passed", done[0] == 0 and done[1].decode().splitlines()[-1] == "2 passed, 0 failed", done)
    done = shell(f'PATH="{folder}:$PATH" {runner} --help | head -c 1', folder)
    check("try-tests: a reader that goes away", done[0] == 0 and not done[2], done)


def main():
    parser = Words(__doc__)
    parser.add_argument("seed", metavar="SEED", nargs="?", type=int, default=1, help="the number that what is made by chance follows from (1)")
    seed = parser.parse_args().seed
    with tempfile.TemporaryDirectory() as parent:
        folder = make_folder(parent)
        try_words(folder)
        try_ends(folder)
        try_files(folder)
        tool_images.try_all(CALLS, folder)
        tool_scenes.try_all(folder, seed)
        tool_pages.try_all(folder)
        tool_orders.try_all(folder, seed)
        tool_cuts.try_all(folder)
        try_garbage(folder, seed)
        try_test_runner(folder)
        try_alone(folder)
        if program.is_built():
            tool_scenes.try_by_program(seed)
            tool_scenes.try_drawn_cube()
            tool_images.try_pictures(folder)
            tool_pages.try_examples(folder)
            tool_orders.try_by_program(folder, seed)
            tool_cuts.try_by_program(folder, seed)
            tool_pages.try_large(folder)
        else:
            print(f"left out what needs the program: {program.HOW}")
    print(f"{TALLY.passed} passed, {TALLY.failed} failed")
    sys.exit(TALLY.failed > 0)


if __name__ == "__main__":
    main()
