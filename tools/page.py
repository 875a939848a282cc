#!/usr/bin/env python3
"""Makes one HTML file of a run, to be opened in any browser: it needs nothing from outside.

    render_cli render --tiles 4x3 --order < scene.rcs > frames.ppm 2> notes.txt
    render_cli race < scene.rcs 2>> notes.txt            (if races are to be marked)
    python3 tools/page.py --scene scene.rcs --notes notes.txt --tiles 4x3 < frames.ppm > run.html

It shows the frames, the tiles over them with what was sent to each, each tile's log beside the
journal (where the notes have `--order`), a race's two commands and pixel, the clients that wait for
ever and the commands that were refused. The scene is bytes or a text; of a text the lines are told
too. Of many frames every second is left out, until those that stay have room; logs of many commands
are drawn in portions. What is left out is told in one line.
"""
import base64
import html
import json
import os
import pathlib
import re
import sys

import command
import notes
import png
import ppm
import scene_bytes
import scene_text
from findings import findings
from run_log import Logs

TEMPLATE = pathlib.Path(__file__).resolve().parent / "page.html"
MOST_FRAMES, MOST_FRAME_BYTES = 360, 24_000_000
MOST_GROUPS, MOST_COLUMNS, MOST_MARKS, MOST_FINDINGS = 1200, 2400, 24_000, 200


def read_scene(path, filters):
    """What a file of bytes or of text means, behind filters."""
    try:
        return scene_text.read_any(command.read_file(path), filters)
    except command.Wrong as wrong:
        raise command.Wrong(f"{path}: {wrong}") from None


def kept_frames(stream, scene):
    """The images as PNG files, each with its number, where every second was left out until they had
    room; and how many there were.
    """
    kept, stride, count = [], 1, 0
    for width, height, rgb in ppm.frames(stream):
        if (width, height) != (scene.width, scene.height):
            raise command.Wrong(
                f"an image is {width} by {height}, and not {scene.width} by {scene.height}"
            )
        if count % stride == 0:
            kept.append((count, png.png(width, height, rgb)))
        while len(kept) > 1 and (
            len(kept) > MOST_FRAMES or sum(len(data) for _, data in kept) > MOST_FRAME_BYTES
        ):
            stride *= 2
            kept = [frame for frame in kept if frame[0] % stride == 0]
        count += 1
    return kept, count


# ---- logs


def grouped(logs):
    """The entries in groups, few enough: of each its entries, and by tiles the drawings in front of
    each of them.
    """
    steps = len(logs.journal) + 1
    size = -(-steps // MOST_GROUPS)
    groups = []
    for start in range(0, steps, size):
        parts = range(start, min(start + size, steps))
        taken = [
            [drawing for part in parts for drawing in segments[part]] for segments in logs.segments
        ]
        groups.append((logs.journal[start : start + size], taken))
    return groups


def portion(groups):
    """How many drawings a mark stands for, so that the lanes have room."""
    size = 1
    while True:
        columns = sum(max(-(-len(taken) // size) for taken in tiles) for _, tiles in groups)
        marks = sum(-(-len(taken) // size) for _, tiles in groups for taken in tiles)
        if columns <= MOST_COLUMNS and marks <= MOST_MARKS:
            return size
        size *= 2


def entry_data(entries):
    """Of a group's entries: their signs, what they are in words, and which of them are swaps."""
    if not entries:
        return None
    signs = {"Barrier": "B", "SemP": "P", "SemV": "V", "Swap": "S"}
    swaps = sum(entry.kind == "Swap" for entry in entries)
    if len(entries) == 1:
        sign = signs[entries[0].kind] + (str(entries[0].name) if entries[0].name else "")
        return {"sign": sign, "what": entries[0].told(), "swaps": swaps}
    what = f"{len(entries)} entries: {entries[0].told()} to {entries[-1].told()}"
    return {"sign": f"{len(entries)}", "what": what, "swaps": swaps}


def lane_data(logs, clients):
    """The lanes as the page draws them: drawings, and by groups the entries and the marks of each
    tile.
    """
    if logs.segments is None:
        return None
    groups = grouped(logs)
    size = portion(groups)
    known, listed, made = {}, [], []

    def index(drawing):
        if id(drawing) not in known:
            known[id(drawing)] = len(listed)
            box = drawing.box if logs.is_exact else None
            listed.append(
                [drawing.client, drawing.place, drawing.kind[0], drawing.what, box, drawing.lines]
            )
        return known[id(drawing)]

    def counted(part):
        return [sum(drawing.client == client for drawing in part) for client in range(clients)]

    for entries, tiles in groups:
        if size == 1:
            marks = [[index(drawing) for drawing in taken] for taken in tiles]
        else:
            marks = [
                [counted(taken[at : at + size]) for at in range(0, len(taken), size)]
                for taken in tiles
            ]
        made.append({"entry": entry_data(entries), "tiles": marks})
    return {"portion": size, "drawings": listed, "groups": made, "exact": logs.is_exact}


# ---- the page


def left_out(frames, count, lanes, found):
    """What isn't in the page, in lines."""
    told = []
    if len(frames) < count:
        here = f"{len(frames)} of {count} frames are in the page"
        told.append(f"{here}: tools/cut.py makes a scene of some of them")
    if lanes is None:
        told.append("the notes have no logs: run with --order to see them")
    else:
        if lanes["portion"] > 1:
            told.append(f"a mark in the logs stands for {lanes['portion']} commands")
        if not lanes["exact"]:
            told.append(
                "which tile took what isn't known here: each lane has the drawings of all tiles"
            )
    if len(found) > MOST_FINDINGS:
        told.append(f"{MOST_FINDINGS} of {len(found)} findings are in the page")
    return told


def cut(scene, columns, rows):
    """Where columns and rows of tiles begin and end, and each tile's rectangle from the bottom."""
    across = [ppm.boundary(scene.width, columns, number) for number in range(columns + 1)]
    up = [ppm.boundary(scene.height, rows, number) for number in range(rows + 1)]
    both = ((row, column) for row in range(rows) for column in range(columns))
    return across, up, [(across[c], up[r], across[c + 1], up[r + 1]) for r, c in both]


def page_data(given, scene, read, lines, stream):
    """All that the page shows."""
    columns, rows = given.tiles
    ppm.judge_tiles(columns, rows, scene.width, scene.height)
    tallies = notes.tallies(lines, columns * rows)
    across, up, rectangles = cut(scene, columns, rows)
    logs = Logs(scene, lines, rectangles, tallies)
    lanes, found = lane_data(logs, len(scene.streams)), findings(scene, read, lines)
    counts = notes.counts(lines)
    if lanes and counts.get("journal", len(logs.journal)) != len(logs.journal):
        raise command.Wrong(
            "the notes aren't whole: their orders don't have all entries of the journal"
        )
    # without a Swap there is no image, and a log all the same
    frames, count = kept_frames(stream, scene) if counts.get("frames") != 0 else ([], 0)
    told = left_out(frames, count, lanes, found)
    if counts.get("frames", count) != count:
        told.append(f"the notes tell of {counts['frames']} frames, and {count} were given")
    return {
        "title": given.title or os.path.basename(given.scene),
        "width": scene.width,
        "height": scene.height,
        "version": read.version,
        "clients": len(scene.streams),
        "commands": [len(stream) for stream in scene.streams],
        "across": across,
        "up": up,
        "tallies": tallies,
        "journal": counts.get("journal"),
        "frames": count,
        "numbers": [number for number, _ in frames],
        "images": [base64.b64encode(data).decode() for _, data in frames],
        "findings": found[:MOST_FINDINGS],
        "lanes": lanes,
        "told": told,
    }


def page(data):
    """The page with its data in it."""
    spelled = json.dumps(data, separators=(",", ":")).replace("<", "\\u003c")
    text = TEMPLATE.read_text()
    parts = {"@TITLE@": html.escape(data["title"]), "@DATA@": spelled}
    return re.sub("@TITLE@|@DATA@", lambda match: parts[match[0]], text)


def main():
    words = command.Words(__doc__)
    words.add_argument(
        "--scene", required=True, metavar="FILE", help="the scene, as bytes or as text"
    )
    words.add_argument(
        "--notes", required=True, metavar="FILE", help="the notes of the run, best with --order"
    )
    words.add_argument(
        "--tiles",
        type=command.pair_of_sides,
        default=(1, 1),
        metavar="CxR",
        help="those of the run (1x1)",
    )
    words.add_argument(
        "--filters", type=scene_bytes.filter_words, default=[], help="the filters' words of the run"
    )
    words.add_argument("--title", help="what stands above (the scene's name)")
    given = words.parse_args()
    scene, read = read_scene(given.scene, given.filters)
    lines = notes.read_lines(given.notes)
    data = page_data(given, scene, read, lines, command.standard_input())
    command.write_output(page(data).encode())
    for line in data["told"]:
        print(f"page.py: {line}", file=sys.stderr)


if __name__ == "__main__":
    command.run(main)
