"""What lazy state saves on the example scenes: parcels, sets and looks of a run, beside what a cluster would send that told each tile everything.

    python3 bench/measure/lazy.py [--tiles CxR] [PROGRAM]

`all sets` are the 22 scalar elements with each block and Clear, to each tile that gets it; `all looks` are a look at each of them and at the image
that a draw may sample. A run's notes have the sums that are printed; blocks and Clears are the parcels that are neither an operation of
synchronisation, nor a write of a shared texture, nor an End, of which each tile gets each client's. The example scenes have no refused operation.
"""

import pathlib
import subprocess
import sys

sys.path.append(str(pathlib.Path(__file__).resolve().parents[2] / "tools"))

from command import Words, pair_of_sides
from program import EXAMPLES, built

FOR_EVERY_TILE = ("Barrier", "SemP", "SemV", "Swap", "SharedImage")
SCALARS = 22


def sums(program, scene, tiles):
    """Parcels, sets and looks of all tiles, and how many tiles there are."""
    run = subprocess.run([program, "render", "--tiles", tiles], input=scene.read_bytes(), capture_output=True, check=False)
    lines = [line.split() for line in run.stderr.decode().splitlines() if line.startswith("tile ")]
    return [sum(int(line[k]) for line in lines) for k in (3, 5, 7)], len(lines)


def for_every_tile(text):
    """How many parcels each tile gets that no box keeps from it: operations, writes of shared textures, and Ends."""
    words = [line.split() for line in text.read_text().splitlines()]
    firsts = [line[0] for line in words if line]
    return sum(firsts.count(word) for word in FOR_EVERY_TILE) + firsts.count("client")


def main():
    parser = Words(__doc__)
    parser.add_argument("--tiles", metavar="CxR", type=pair_of_sides, default=(4, 3), help="columns and rows of tiles (4x3)")
    parser.add_argument("program", metavar="PROGRAM", nargs="?", help="the built program (crates/render_cli/out/render_cli)")
    args = parser.parse_args()
    program, tiles = built(args.program), "{}x{}".format(*args.tiles)
    print(f"{'scene':<18} {'parcels':>8} {'sets':>7} {'all sets':>9} {'':>6} {'looks':>8} {'all looks':>10}")
    for text in sorted(EXAMPLES.glob("*.txt")):
        (parcels, sets, looks), count = sums(program, text.with_suffix(".rcs"), tiles)
        if count == 0:
            print(f"{text.stem:<18} its window has fewer pixels than {tiles} tiles")
            continue
        drawn = parcels - count * for_every_tile(text)
        every = drawn * SCALARS
        share = f"{sets / every:.2f}" if every else "-"
        print(f"{text.stem:<18} {parcels:>8} {sets:>7} {every:>9} {share:>6} {looks:>8} {drawn * (SCALARS + 1):>10}")


if __name__ == "__main__":
    main()
