#!/usr/bin/env python3
"""Tries that no thread of a cluster sleeps on what was handed to it: many runs of small scenes that mostly wait, by the clock.

    python3 bench/try/waking.py [--runs N]

Each scene runs with lanes of one item, on two and on four processors, alone and beside as many busy processes as there are processors. A row tells the median and
the longest of its runs. A run that takes more than ten times the median (and more than 50 milliseconds, since other work of the machine takes a turn now and then)
is a wake-up that was lost or came late, and the status is 1.
"""
import argparse
import os
import pathlib
import statistics
import subprocess
import sys
import time

BENCH = pathlib.Path(__file__).resolve().parent.parent
sys.path.append(str(BENCH.parent / "tools"))
from program import built

SCENES = ("hands 16", "meets 8", "shows 6", "gives 8 16", "mesh 2 4")
LAYOUT = ["--tiles", "3x2", "--depth", "1"]
LONGEST, SURELY = 10, 0.050


def timed(program, scene, processors):
    begun = time.perf_counter()
    status = subprocess.run(
        ["taskset", "-c", processors, program, "render", *LAYOUT],
        input=scene, stdout=subprocess.DEVNULL, stderr=subprocess.DEVNULL, timeout=60,
    ).returncode
    if status:
        sys.exit(f"status {status}")
    return time.perf_counter() - begun


def busy(processors):
    """A process that keeps a processor busy."""
    return subprocess.Popen(["taskset", "-c", processors, sys.executable, "-c", "while True: pass"])


def main():
    parser = argparse.ArgumentParser(description=__doc__, formatter_class=argparse.RawDescriptionHelpFormatter)
    parser.add_argument("--runs", type=int, default=500, help="runs a row, of which there are twenty (500)")
    args = parser.parse_args()
    program = built()
    late = 0
    for words in SCENES:
        scene = subprocess.run([sys.executable, BENCH / "measure/scenes.py", *words.split()], check=True, stdout=subprocess.PIPE).stdout
        for count in (2, 4):
            processors = f"0-{min(count, os.cpu_count()) - 1}"
            for loaded in (False, True):
                others = [busy(processors) for _ in range(count if loaded else 0)]
                try:
                    runs = [timed(program, scene, processors) for _ in range(args.runs)]
                finally:
                    for other in others:
                        other.kill()
                        other.wait()
                middle, longest = statistics.median(runs), max(runs)
                over = sum(run > max(LONGEST * middle, SURELY) for run in runs)
                late += over
                where = f"{count} processors{', all busy' if loaded else ''}"
                print(
                    f"{words:<12} {where:<22} median {middle * 1e3:6.1f} ms  longest {longest * 1e3:6.1f} ms"
                    f"  {longest / middle:5.1f} to 1{f'  LATE {over}' if over else ''}", flush=True,
                )
    print(f"{len(SCENES) * 4 * args.runs - late} passed, {late} failed")
    sys.exit(late > 0)


if __name__ == "__main__":
    main()
