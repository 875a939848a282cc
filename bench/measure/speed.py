#!/usr/bin/env python3
"""Prints the rows of speed of README.md: the built program beside Mesa's llvmpipe, by the clock.

    speed.py [PROGRAM]

Three scenes of scenes.py, each drawn whole: read, drawn and, by the program, written to nowhere. The least of five runs, which take turns, in milliseconds. Mesa's
off-screen OpenGL (Debian's libosmesa6-dev) draws the commands of one client, with a thread for each processor; without it its column is empty.
"""
import os
import pathlib
import subprocess
import sys
import tempfile
import time

HERE = pathlib.Path(__file__).resolve().parent
sys.path.append(str(HERE.parents[1] / "tools"))

from command import Words
from program import built

SCENES = (
    ("40 windows of 1024 by 768, textured and blended", ("fill",)),
    ("20 frames of 20,000 triangles in strips, 1024 by 768", ("usual",)),
    ("100,000 triangles of 8 by 8 pixels", ("small",)),
)
TIMES = 5


def seconds(command, scene):
    """How long a run takes by the clock, of a scene that is read from memory."""
    with open(scene, "rb") as source:
        begun = time.perf_counter()
        subprocess.run(command, stdin=source, stdout=subprocess.DEVNULL, stderr=subprocess.DEVNULL, env=dict(os.environ, GALLIUM_DRIVER="llvmpipe"), check=True)
        return time.perf_counter() - begun


def main():
    parser = Words(__doc__)
    parser.add_argument("program", metavar="PROGRAM", nargs="?", help="the built program (crates/render_cli/out/render_cli)")
    program = built(parser.parse_args().program)
    with tempfile.TemporaryDirectory() as work:
        mesa = os.path.join(work, "mesa")
        with_mesa = subprocess.run(["cc", "-O2", "-o", mesa, HERE / "mesa.c", "-lOSMesa", "-lm"], stderr=subprocess.DEVNULL, check=False).returncode == 0
        runs = [("`serial`", [program, "serial"]), ("`render --tiles 4x3`", [program, "render", "--tiles", "4x3"])]
        runs += [("Mesa's llvmpipe", [mesa])] if with_mesa else []
        print(f"| milliseconds by the clock, {os.cpu_count()} processors | " + " | ".join(name for name, _ in runs) + " |")
        print("|---|" + "---|" * len(runs))
        for told, words in SCENES:
            scene = os.path.join(work, words[0] + ".rcs")
            with open(scene, "wb") as file:
                subprocess.run([sys.executable, HERE / "scenes.py", *words], stdout=file, check=True)
            least = [float("inf")] * len(runs)
            for _ in range(TIMES):
                for k, (_, command) in enumerate(runs):
                    least[k] = min(least[k], seconds(command, scene))
            print(f"| {told} | " + " | ".join(f"{1000 * s:.0f}" for s in least) + " |", flush=True)


if __name__ == "__main__":
    main()
