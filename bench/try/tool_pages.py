"""The part of try_tools.py for page.py, without a browser: what the file says, and that it takes
nothing from outside. try_page.py opens one.
"""
import base64
import html.parser
import json
import re

import png_reader
from tool_calls import CALLS, DOCS, EXAMPLES, NOTES, body, check, drawn, image, refuses, run, same

import findings
import page as pages
import scene_bytes
import scene_text
import sent

WORDS = CALLS["page.py"]
# Tiles that carried out client 0's commands up to its barrier, both barriers, and both swaps.
ORDER = ["0 0", "0 1", *(f"0 {place}" for place in range(2, 8)), "1 0", "0 8", "1 1"]
TOLD = ["race 0 1 1 1 pixel 3 0", "stuck client 1 at 0 Barrier 1"]


class Outside(html.parser.HTMLParser):
    """What a page takes from elsewhere, its title, and which of its elements stay open."""

    ALONE = ("meta", "input", "link", "br", "img")
    TAKING = ("src", "href", "action", "data")

    def __init__(self):
        super().__init__()
        self.from_elsewhere, self.open, self.title = [], [], ""

    def handle_starttag(self, tag, attrs):
        is_taking = tag in ("link", "iframe", "object", "base")
        self.from_elsewhere += [value for key, value in attrs if is_taking or key in self.TAKING]
        if tag not in self.ALONE:
            self.open.append(tag)

    def handle_endtag(self, tag):
        if self.open and self.open[-1] == tag:
            self.open.pop()

    def handle_data(self, data):
        if self.open[-1:] == ["title"]:
            self.title += data


def data_of(page):
    """What a page has to show."""
    pattern = rb'<script id="data" type="application/json">(.*?)</script>'
    return json.loads(re.search(pattern, page, re.DOTALL)[1])


def write_notes(folder, *more):
    (folder / "notes.txt").write_text(NOTES + "".join(f"{line}\n" for line in more))


def try_form(page):
    """The page as HTML."""
    reader = Outside()
    reader.feed(page.decode())
    same("page.py: nothing is open at its end", reader.open, [])
    same("page.py: nothing comes from elsewhere", reader.from_elsewhere, [])
    found = re.findall(rb"@import|url\(|https?://(?!www.w3.org/2000/svg)", page)
    same("page.py: no address stands in it", found, [])
    check("page.py: its title", reader.title.startswith("</script><b>&"), reader.title)


def try_page(folder):
    write_notes(folder, *(f"order {tile} {name}" for tile in (0, 1) for name in ORDER), *TOLD)
    frame = image(4, 2)
    words = [*WORDS, "--title", "</script><b>&"]
    status, page, err = run("page.py", *words, data=frame, cwd=folder)
    same("page.py: status", (status, err), (0, []))
    try_form(page)
    data = data_of(page)
    got = data["width"], data["height"], data["clients"], data["commands"]
    same("page.py: the window", got, (4, 2, 2, [9, 2]))
    read = png_reader.read(base64.b64decode(data["images"][0]))[0]
    same("page.py: its frame", read, [(4, 2, body(frame, 4, 2))])
    lanes = data["lanes"]
    # the Clear goes to both tiles, and so does the block: its corners are the window's
    drawings = [made[:3] for made in lanes["drawings"]]
    same("page.py: drawings", drawings, [[0, 1, "c"], [0, 6, "b"]])
    same("page.py: lines of the block", lanes["drawings"][1][5], [9, 13])
    tiles = [group["tiles"] for group in lanes["groups"]]
    same("page.py: lanes", tiles, [[[0, 1], [0, 1]], [[], []], [[], []]])
    signs = [group["entry"] and group["entry"]["sign"] for group in lanes["groups"]]
    same("page.py: the journal", signs, ["B1", "S", None])
    check("page.py: the parcels are those that are computed", lanes["exact"])
    same("page.py: findings", [found["kind"] for found in data["findings"]], ["race", "stuck"])
    same("page.py: the pixel, from the top", data["findings"][0]["pixel"], [3, 1])


def try_wrong_notes(folder):
    frame = image(4, 2)
    write_notes(folder)
    status, page, err = run("page.py", *WORDS, data=frame, cwd=folder)
    is_told = status == 0 and data_of(page)["lanes"] is None and "--order" in err[0]
    check("page.py: notes without orders", is_told, (status, err))
    (folder / "none.txt").write_text(NOTES.replace("frames 1", "frames 0"))
    words = ["none.txt" if word == "notes.txt" else word for word in WORDS]
    status, page, _ = run("page.py", *words, cwd=folder)
    is_empty = status == 0 and data_of(page)["images"] == []
    check("page.py: a run without a frame", is_empty, status)
    refuses("an image of another size", 1, "page.py", *WORDS, data=image(5, 2), cwd=folder)
    orders = [f"order 0 {name}" for name in ORDER]
    wrongs = {
        "an order of another scene": ["order 0 7 0"],
        "a race of another scene": ["race 0 99 1 0 pixel 0 0"],
        "an order that is cut": orders[:-2],
        "orders of one tile alone": orders,
        "a fault that wasn't": ["client 0 fault INVALID_VALUE at 2"],
    }
    for what, lines in wrongs.items():
        write_notes(folder, *lines)
        refuses(what, 1, "page.py", *WORDS, data=frame, cwd=folder)
    write_notes(folder)


def try_reasons():
    """Refused commands are told with their reasons, where the notes are those of the scene."""
    text = b"scene 3 1 1\nclient\nBarrier 3\nNewList 1\nCallList 65\nEndList\nSwap\n"
    drawn_, read = scene_text.read_any(text)
    lines = ["client 0 list fault INVALID_VALUE at 2", "client 0 fault INVALID_VALUE at 0"]
    lines.append("client 0 fault INVALID_VALUE at 1")
    told = [found["lines"][1:] for found in findings.findings(drawn_, read, lines)]
    due = [["Lists are 1 to 64, and this is 65."], ["Barrier 3 isn't declared: there are none."], []]
    same("page.py: reasons", told, due)


def try_parcels():
    """The parcels that are computed for the examples, by docs/cluster.md's table of lanes."""
    row = r"(?m)^\| `([a-z-]+)`[^|]* \| (\d+) \| [\d,]+ \| [\d,]+ \| [\d,]+ \| [\d,]+ \|$"
    rows = re.findall(row, (DOCS / "cluster.md").read_text())
    check("page.py: the table of lanes is there", len(rows) >= 11, rows)
    for stem, due in rows:
        scene = scene_bytes.read_bytes((EXAMPLES / f"{stem}.rcs").read_bytes())
        columns, rows = min(4, scene.width), min(3, scene.height)
        rectangles = pages.cut(scene, columns, rows)[2]
        made = sent.drawings(scene, set())[0]
        got = sum(sent.parcels(scene, set(), made, rectangle) for rectangle in rectangles)
        same(f"page.py: parcels of {stem}", got, int(due))


def page_of(folder, path, words, cut):
    """The page of a scene, by the program: status, page, lines of standard error; and the notes."""
    frames, notes = drawn(path.read_bytes(), *words, "--tiles", cut, "--order")
    (folder / "told.txt").write_text(notes)
    given = ["--scene", path, "--notes", "told.txt", "--tiles", cut]
    return *run("page.py", *given, data=frames, cwd=folder), notes


def try_examples(folder):
    """The page of each example: its lanes are exact, since the parcels that are told are those of
    the boxes, tile for tile; and it has the entries of the journal.
    """
    for path in sorted(EXAMPLES.glob("*.rcs")):
        for words, cut in (
            (["render"], "4x3"),
            (["simulate", "--seed", "7", "--depth", "1"], "2x2"),
        ):
            cut = "2x2" if path.stem == "red" else cut
            status, page, err, notes = page_of(folder, path, words, cut)
            what = f"page.py: {path.stem} by {words[0]}"
            check(what, status == 0 and not err, (status, err))
            lanes = data_of(page)["lanes"] if status == 0 else {"groups": [], "exact": False}
            entries = sum(group["entry"] is not None for group in lanes["groups"])
            check(f"{what}: its lanes", lanes["exact"] and f"journal {entries}\n" in notes)


def try_large(folder):
    """A run of many commands and one of many frames are drawn in portions, and that is told."""
    path = folder / "large.rcs"
    path.write_bytes(drawn(b"", "gen", "--seed", "5", "--size", "4000")[0])
    status, page, err, _ = page_of(folder, path, ["simulate", "--seed", "1"], "4x4")
    is_told = any("stands for" in line for line in err)
    check("page.py: many commands", status == 0 and is_told and len(page) < 2**25, (status, err))
    text = "scene 1 8 8\nclient\n" + "".join(
        f"ClearColor {number % 256} {number // 256} 9 255\nClear 1\nSwap\n"
        for number in range(3000)
    )
    path.write_bytes(run("pack.py", data=text.encode())[1])
    status, page, err, _ = page_of(folder, path, ["render"], "2x2")
    is_told = any("of 3000 frames" in line for line in err)
    check("page.py: many frames", status == 0 and is_told and len(page) < 2**23, (status, err))
    numbers = data_of(page)["numbers"] if status == 0 else []
    check("page.py: which frames stay", numbers[:2] == [0, 16] and len(numbers) == 188, numbers[:3])


def try_all(folder):
    try_parcels()
    try_reasons()
    try_page(folder)
    try_wrong_notes(folder)
