#!/usr/bin/env python3
"""Runs the built program once for each allocation of a small run, and refuses that one allocation.

    refuse.py [PROGRAM] [SCENE] [WORD ..]       examples/shared-texture.rcs by `render --tiles 2x1 --depth 1` where none are given
    refuse.py --simulate [PROGRAM]              examples/producer-consumer.rcs and shared-texture.rcs by `simulate --seed 1 --depth 1`

Each run has to end by itself, within ten seconds, behind every thread that it started, and with one of these:
- 0 (or the status of a run with memory), with the whole image and the whole notes: what was refused wasn't needed. So it is where a thread can't be made:
  its actor is stepped by the caller.
- 7, with `rc: out of memory` in the notes and a front of the image that is due; or with nothing in either, where there was no memory for the words or for the
  chain that they name. These allocations come first: behind one that is told, none ends silently.
Where the threads' schedule decides what is drawn a right run may have another image than the one with memory, so give a scene that is ordered.

The last line tells how many allocations were refused, how many of these runs ended with 7 and how many with 0 (with another status where the run with memory
has that), and how many hung. The line before it tells of threads. Which allocation is the Nth depends on the threads' schedule, so these numbers may change a
little from run to run. A run that isn't as it has to be has a line with the number of its allocation, and the status is 1. The program is built by
`cd crates/render_cli && rt run -- render < ../../examples/red.rcs > /dev/null`.
"""
import argparse
import collections
import os
import pathlib
import struct
import subprocess
import sys
import tempfile

HERE = pathlib.Path(__file__).resolve().parent
sys.path.append(str(HERE.parents[1] / "tools"))

from command import Words
from program import EXAMPLES, built

SECONDS = 10


class Runs:
    """Runs of the program with these words on a scene, in each of which one allocation is refused."""

    def __init__(self, work, program, scene, words):
        self.library, self.counts = work / "refuse.so", work / "counts"
        self.command, self.scene = [program, *words], scene
        subprocess.run(["cc", "-O2", "-shared", "-fPIC", "-o", self.library, HERE / "refuse.c", "-ldl"], check=True)

    def run(self, number):
        """What a run leaves in which this allocation is refused: status, image and notes; allocations, threads started, threads ended."""
        environment = dict(os.environ, LD_PRELOAD=str(self.library), REFUSE=str(number), COUNTS=str(self.counts))
        with open(self.scene, "rb") as source:
            done = subprocess.run(self.command, stdin=source, capture_output=True, env=environment, timeout=SECONDS, check=False)
        return (done.returncode, done.stdout, done.stderr), struct.unpack("3l", self.counts.read_bytes())


def fault_of(end, whole, started, ended, told):
    """What is wrong with a run, or None. `told` says whether want of memory was told for an earlier allocation."""
    status, image, notes = end
    if started != ended:
        return f"{started} threads were started and {ended} ended"
    if end == whole or status == 7 and notes == b"rc: out of memory\n" and whole[1].startswith(image):
        return None
    if end == (7, b"", b"") and not told:
        return None
    return f"status {status}, {len(image)} bytes of image, notes {notes!r}"


def refuse_each(runs):
    """Refuses each allocation in turn, prints what came, and tells whether all is right."""
    whole, (allocations, started, _) = runs.run(0)
    ends, hung, lacked, wrong, told, silent = collections.Counter(), 0, 0, 0, False, 0
    for number in range(1, allocations + 1):
        try:
            end, (_, begun, over) = runs.run(number)
        except subprocess.TimeoutExpired:
            print(f"refuse.py: with allocation {number} refused the program didn't end")
            hung += 1
            continue
        fault = fault_of(end, whole, begun, over, told)
        told = told or end[0] == 7 and end[2] != b""
        silent += end == (7, b"", b"")
        if fault:
            print(f"refuse.py: with allocation {number} refused: {fault}")
            wrong += 1
        ends[end[0]] += 1
        lacked += end[0] == whole[0] and begun < started
    if started:
        print(f"{started} threads with memory; {lacked} of the runs that ended with {whole[0]} had fewer")
    print(f"{allocations} allocations refused, {ends[7]} ended with 7 ({silent} of them silently), {ends[whole[0]]} with {whole[0]}, {hung} hung")
    return not hung and not wrong


def words():
    """The words of this script. Behind the scene all are the program's."""
    parser = Words(__doc__)
    parser.add_argument("--simulate", action="store_true", help="two scenes by `simulate`, and no other words than the program")
    parser.add_argument("program", metavar="PROGRAM", nargs="?", help="the built program (crates/render_cli/out/render_cli)")
    parser.add_argument("scene", metavar="SCENE", nargs="?", type=pathlib.Path, help="a scene's file (examples/shared-texture.rcs)")
    parser.add_argument("job", metavar="WORD", nargs=argparse.REMAINDER, help="the program's words (render --tiles 2x1 --depth 1)")
    args = parser.parse_args()
    if args.job and args.scene is None:
        parser.error(f"{args.job[0]} stands where a scene's file is due")
    if args.simulate and args.scene is not None:
        parser.error(f"--simulate takes no scene, and not {args.scene}")
    if args.scene is not None and not args.scene.is_file():
        parser.error(f"there is no scene {args.scene}")
    return args


def main():
    args = words()
    program = built(args.program)
    if args.simulate:
        tries = [(EXAMPLES / name, ["simulate", "--seed", "1", "--depth", "1"]) for name in ("producer-consumer.rcs", "shared-texture.rcs")]
    else:
        tries = [(args.scene or EXAMPLES / "shared-texture.rcs", args.job or ["render", "--tiles", "2x1", "--depth", "1"])]
    right = True
    with tempfile.TemporaryDirectory() as work:
        for scene, job in tries:
            print(f"{scene.name} by {' '.join(job)}")
            right = refuse_each(Runs(pathlib.Path(work), program, scene, job)) and right
    sys.exit(0 if right else 1)


if __name__ == "__main__":
    main()
