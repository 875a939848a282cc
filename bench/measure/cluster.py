#!/usr/bin/env python3
"""Prints what the cluster on threads takes to one renderer, by the clock, on scenes of scenes.py and on frames of real programs.

    python3 bench/measure/cluster.py [--times N] [--before PROGRAM] [--frames FOLDER] [NAME ..]

Each figure is the least of N (5) runs, in turns, and each ratio is of one run of this script: `render` to `serial`, with the context switches of all threads
(by waiting and taken away) and the pages that were faulted in. `--before` names a program that was built earlier: its ratios stand beside those of the built one.
Frames of real programs are the scenes of a folder (examples/ has some), of which each name counts. Names of rows choose rows.
"""
import argparse
import os
import pathlib
import subprocess
import sys
import tempfile
import time

HERE = pathlib.Path(__file__).resolve().parent
sys.path.append(str(HERE.parents[1] / "tools"))

from program import built

# A row: the scene's words, and the words of `render` or of another job that are compared with `serial`.
ROWS = [
    ("usual 4", ["render --tiles 4x3", "render --tiles 8x4", "simulate --seed 1 --tiles 4x3", "race"]),
    ("small", ["render --tiles 4x3", "render"]),
    ("state", ["render --tiles 4x3", "render --tiles 8x4"]),
    ("fill", ["render --tiles 4x3"]),
    ("mesh 1", ["render --tiles 4x3"]),
    ("mesh 4", ["render --tiles 4x3"]),
    ("mesh 8", ["render --tiles 4x3"]),
    ("apart", ["last"]),
]
# Scenes that mostly wait: a job, and how many operations it has.
WAITING = [
    ("gives 8 4096", "render --tiles 4x4", 8 * 4096),
    ("hands 2048", "render --tiles 4x4", 4 * 2048),
    ("meets 1024", "render --tiles 4x4", 8 * 1024),
    ("shows 500", "render --tiles 4x4", 500),
]
FRAME_JOBS = ["render --tiles 4x3", "render", "render --tiles 8x4 --depth 1"]


def run(program, words, scene):
    """Seconds by the clock, switches and page faults of one run."""
    with open(scene, "rb") as source:
        begun = time.perf_counter()
        child = subprocess.Popen(
            [program, *words.split()], stdin=source, stdout=subprocess.DEVNULL, stderr=subprocess.DEVNULL
        )
        _, status, usage = os.wait4(child.pid, 0)
        seconds = time.perf_counter() - begun
    if os.waitstatus_to_exitcode(status):
        sys.exit(f"{words}: status {os.waitstatus_to_exitcode(status)}")
    return seconds, usage.ru_nvcsw + usage.ru_nivcsw, usage.ru_minflt


def in_turns(runs, times):
    """The least of so many runs of each of these, in turns: by the clock, with the switches and faults of that run."""
    best = [None] * len(runs)
    for _ in range(times):
        for number, (program, words, scene) in enumerate(runs):
            result = run(program, words, scene)
            if best[number] is None or result < best[number]:
                best[number] = result
    return best


def show(name, jobs, scene, programs, times):
    """A row: `serial` in milliseconds, and each job's ratio to it."""
    runs = [(program, words, scene) for program in programs for words in ["serial", *jobs]]
    results = in_turns(runs, times)
    width = len(jobs) + 1
    for number, program in enumerate(programs):
        serial, *others = results[number * width : (number + 1) * width]
        told = f"{name:<16} {'before' if number else 'now':<6} serial {serial[0] * 1e3:7.1f} ms"
        for words, (seconds, switches, faults) in zip(jobs, others):
            told += f" | {words.replace('render --tiles ', '').replace('--', '')} {seconds / serial[0]:.2f}"
            told += f" ({switches} switches, {faults} faults)"
        print(told, flush=True)


def main():
    parser = argparse.ArgumentParser(description=__doc__, formatter_class=argparse.RawDescriptionHelpFormatter)
    parser.add_argument("--times", type=int, default=5, help="runs of each (5)")
    parser.add_argument("--before", type=pathlib.Path, help="a program that was built earlier")
    parser.add_argument("--frames", type=pathlib.Path, help="a folder of captured scenes")
    parser.add_argument("names", nargs="*", help="the rows (all)")
    args = parser.parse_args()
    programs = [built()] + ([built(args.before)] if args.before else [])
    with tempfile.TemporaryDirectory() as work:
        def made(words):
            path = pathlib.Path(work) / (words.replace(" ", "-") + ".rcs")
            with open(path, "wb") as out:
                subprocess.run([sys.executable, HERE / "scenes.py", *words.split()], check=True, stdout=out)
            return path

        chosen = lambda name: not args.names or any(word in name for word in args.names)
        for words, jobs in ROWS:
            if chosen(words):
                show(words, jobs, made(words), programs, args.times)
        for words, job, count in WAITING:
            if chosen(words):
                results = in_turns([(program, job, made(words)) for program in programs], args.times)
                told = "  ".join(f"{name} {seconds / count * 1e6:.1f} ({switches} switches)"
                                 for name, (seconds, switches, _) in zip(("now", "before"), results))
                print(f"{words:<16} {job}, microseconds an operation: {told}", flush=True)
        for path in sorted(args.frames.glob("*.rcs")) if args.frames else []:
            if chosen(path.stem):
                show(path.stem, FRAME_JOBS, path, programs, args.times)


if __name__ == "__main__":
    main()
