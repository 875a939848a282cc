"""Prints how many instructions drawing scenes takes, which no load of the machine touches.

    instructions.py [--tiles CxR] [--before PROGRAM] [--peer PROGRAM] [PROGRAM] SCENE.rcs ..

Of each scene the millions of instructions of `serial`, and of `simulate --seed 3` on that grid
(4x3), which is the cluster's work without its waiting; with --before their ratios to those of
another program, whose images must be the same bytes. --peer names another renderer of scenes, and
tells the ratio of `serial` to its `serial`, where that takes the scene. Last the medians of the
ratios, and the largest to the peer's. It wants valgrind, whose callgrind counts a copy of bytes by
each byte; a program that `rt try` makes keeps checks that the proved one hasn't, so count built
ones, or those of form.py.
"""
import argparse
import pathlib
import re
import shutil
import statistics
import subprocess
import sys
import tempfile

sys.path.append(str(pathlib.Path(__file__).resolve().parents[2] / "tools"))

from program import built

STATUSES = (0, 5)
COLLECTED = re.compile(rb"Collected : (\d+)")


def collected(command, path, work):
    """A run's status, its instructions if it ended well, and what it prints."""
    counter = ["valgrind", "--tool=callgrind", f"--callgrind-out-file={work}/calls"]
    with open(path, "rb") as source:
        done = subprocess.run([*counter, *command], stdin=source, capture_output=True)
    found = COLLECTED.search(done.stderr)
    well = done.returncode in STATUSES and found
    return done.returncode, int(found[1]) if well else None, done.stdout


def counted(program, words, path, work):
    """The instructions of a run, and what it prints."""
    status, number, image = collected([program, *words], path, work)
    if number is None:
        sys.exit(f"instructions.py: {path}: {program} {' '.join(words)} ends with {status}")
    return number, image


def to_peer(path, peer, number, work):
    """The cells of a peer, and the ratio to it, if it takes the scene."""
    found = collected([peer, "serial"], path, work)[1]
    if found is None:
        return ["-", "-"], []
    return [f"{found / 1e6:.1f}", f"{number / found:.2f}"], [number / found]


def row(path, programs, peer, jobs, work):
    """The cells of a scene's line, its ratios, and that to the peer."""
    cells, ratios, beside = [], [], []
    for words in jobs:
        found = [counted(program, words, path, work) for program in programs]
        if len({image for _, image in found}) > 1:
            sys.exit(f"instructions.py: {path}: the programs' images differ, by {' '.join(words)}")
        cells += [f"{number / 1e6:.1f}" for number, _ in found]
        if len(found) > 1:
            ratios.append(found[1][0] / found[0][0])
            cells.append(f"{ratios[-1]:.2f}")
        if peer and words == ["serial"]:
            its, beside = to_peer(path, peer, found[-1][0], work)
            cells += its
    return cells, ratios, beside


def main():
    parser = argparse.ArgumentParser(description=__doc__.split("\n")[0])
    parser.add_argument("--tiles", default="4x3", help="the grid of `simulate` (4x3)")
    parser.add_argument("--before", metavar="PROGRAM", help="another program, to which ratios are told")
    parser.add_argument("--peer", metavar="PROGRAM", help="another renderer, which draws a scene by `serial`")
    parser.add_argument("words", nargs="+", metavar="WORD", help="the program, if it isn't the built one, and scenes (.rcs)")
    asked = parser.parse_args()
    scenes = [word for word in asked.words if word.endswith(".rcs")]
    named = [word for word in asked.words if not word.endswith(".rcs")]
    if not scenes or len(named) > 1:
        parser.error("it wants at most one program, and one scene or more")
    missing = [path for path in (*scenes, *named, asked.before, asked.peer) if path and not pathlib.Path(path).is_file()]
    if missing:
        sys.exit(f"instructions.py: {missing[0]} isn't there")
    if not shutil.which("valgrind"):
        sys.exit("instructions.py: it wants valgrind, which isn't there")
    programs = [asked.before] * bool(asked.before) + [built(named[0] if named else None)]
    jobs = (["serial"], ["simulate", "--seed", "3", "--tiles", asked.tiles])
    columns = ["before", "now", "ratio"] if asked.before else ["now"]
    head = ["scene"] + [f"serial {column}" for column in columns] + ["peer", "to it"] * bool(asked.peer)
    head += [f"simulate {column}" for column in columns]
    print("| " + " | ".join(head) + " |\n" + "|---" * len(head) + "|")
    with tempfile.TemporaryDirectory() as work:
        every, peers = [], []
        for path in scenes:
            cells, ratios, beside = row(path, programs, asked.peer, jobs, work)
            every.append(ratios)
            peers += beside
            print("| " + " | ".join([pathlib.Path(path).stem, *cells]) + " |", flush=True)
    if asked.before:
        medians = [f"{statistics.median(ratios):.2f}" for ratios in zip(*every)]
        print(f"medians of the ratios: serial {medians[0]}, simulate {medians[1]}")
    if peers:
        print(f"serial to the peer's, of {len(peers)} scenes: median {statistics.median(peers):.2f}, most {max(peers):.2f}")


if __name__ == "__main__":
    main()
