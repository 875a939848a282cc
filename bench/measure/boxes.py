"""What a box in object space gives away: the parcels that the blocks of the example scenes make, by exact boxes and by boxes in object space, for each
as a scene of version 2 (docs/cluster.md, 'Boxes'), and how many pixels more the boxes have. Of a scene with call lists that is its expansion.

    python3 bench/measure/boxes.py [--tiles 4x3] [SCENE ..]

Where the program is built, the parcels that its report tells of the scene as version 2 are compared with what is computed here, box by box, by the documents
alone.
"""
import argparse
import pathlib
import subprocess
import sys

sys.path.append(str(pathlib.Path(__file__).resolve().parents[2] / "tools"))

import scene_forms
import scene_lists
from program import EXAMPLES, PROGRAM, is_built
from scene_boxes import Context
from scene_forms import OPCODES

SENT_TO_ALL = {OPCODES[name] for name in ("SharedImage", "Barrier", "SemP", "SemV", "Swap")}


class Tiles:
    def __init__(self, scene, columns, rows):
        across, up = min(columns, scene.width), min(rows, scene.height)
        self.columns = [(j * scene.width // across, (j + 1) * scene.width // across) for j in range(across)]
        self.rows = [(j * scene.height // up, (j + 1) * scene.height // up) for j in range(up)]
        self.count = across * up

    def met(self, rect):
        """How many tiles have a pixel of the rectangle, and how many pixels of the window are in it."""
        if rect is None:
            return 0, 0
        x0, y0, x1, y1 = rect
        wide = [min(x1, b) - max(x0, a) for a, b in self.columns]
        high = [min(y1, b) - max(y0, a) for a, b in self.rows]
        wide, high = [n for n in wide if n > 0], [n for n in high if n > 0]
        return len(wide) * len(high), sum(wide) * sum(high)


def counted(scene, tiles):
    """Of all clients: blocks, those near the eye; and for exact boxes and boxes in object space, parcels of blocks and pixels; all other parcels."""
    blocks = near = others = 0
    parcels, pixels = [0, 0], [0, 0]
    for stream in scene.streams:
        context = Context(scene.width, scene.height)
        for opcode, numbers, _ in stream:
            name = scene_forms.COMMANDS[opcode][0]
            block = context.issue(name, numbers)
            if block is not None:
                box, is_near = context.over(*block)
                blocks, near = blocks + 1, near + is_near
                for i, rect in enumerate((context.exact(*block), box)):
                    met, covered = tiles.met(rect)
                    parcels[i] += met
                    pixels[i] += covered
            elif name == "Clear":
                window = [0, 0, scene.width, scene.height]
                x, y, w, h = context.values["Scissor"] if context.scissor_on else window
                others += tiles.met([x, y, x + w, y + h])[0]
            elif opcode in SENT_TO_ALL:
                others += tiles.count
        others += tiles.count
    return blocks, near, parcels, pixels, others


def told(data, tiles):
    """The parcels to all tiles, by the report of a run."""
    words = [PROGRAM, "render", "--tiles", f"{len(tiles.columns)}x{len(tiles.rows)}"]
    notes = subprocess.run(words, input=data, stdout=subprocess.DEVNULL, stderr=subprocess.PIPE).stderr.decode()
    return sum(int(line.split()[3]) for line in notes.splitlines() if line.startswith("tile "))


def main():
    parser = argparse.ArgumentParser(description=__doc__, formatter_class=argparse.RawDescriptionHelpFormatter)
    parser.add_argument("--tiles", default="4x3", help="columns and rows of tiles (4x3)")
    parser.add_argument("scenes", nargs="*", type=pathlib.Path, help="scene files (all of examples/)")
    args = parser.parse_args()
    columns, rows = (int(side) for side in args.tiles.split("x"))
    built = is_built()
    if not built:
        print("the program isn't built: nothing is compared", file=sys.stderr)
    print(f"{'scene':<18} {'blocks':>7} {'near':>5} {'exact':>8} {'object':>8} {'more':>6} {'all, more':>10} {'pixels, more':>13}")
    for path in args.scenes or sorted(EXAMPLES.glob("*.rcs")):
        data = scene_lists.expanded(path.read_bytes())
        data = data[:3] + b"2" + data[4:]
        scene = scene_forms.read(data)
        tiles = Tiles(scene, columns, rows)
        blocks, near, (exact, over), (covered, boxed), others = counted(scene, tiles)
        if not blocks:
            continue
        if built and told(data, tiles) != over + others:
            sys.exit(f"{path.stem}: the report tells {told(data, tiles)} parcels, and not {over + others}")
        more = [f"{n / max(d, 1) - 1:.1%}" for n, d in ((over, exact), (over + others, exact + others), (boxed, covered))]
        print(f"{path.stem:<18} {blocks:>7} {near:>5} {exact:>8} {over:>8} {more[0]:>6} {more[1]:>10} {more[2]:>13}", flush=True)


if __name__ == "__main__":
    main()
