#!/usr/bin/env python3
"""Opens a page that tools/page.py makes in a headless Chromium, uses it as a person does, and takes
its picture.

    python3 bench/try/try_page.py [PICTURE]         (docs/page.png)

The run is that of examples/cube.rcs without its barrier, so that its two clients race. It looks
whether slider, keys and button change the frame (by its number, and by its pixels, which have to be
those of the program's image), whether marks of the logs tell their commands and show their boxes,
whether the race is marked, whether all that one works with has a name, text stands out from what is
below it, and a narrow window holds the page; and that the page asks for nothing from outside and
says of no fault. Without Chromium it says so and ends with status 0.
"""
import json
import pathlib
import subprocess
import sys
import tempfile
import time

sys.path.append(str(pathlib.Path(__file__).resolve().parents[2] / "tools"))

import browser
import program
from command import Words

ROOT = program.ROOT
SCENE, ASKED = ROOT / "examples/cube.rcs", ROOT / "bench/try/try_page.js"
FILTER, CUT, FRAMES = "drop Barrier", "4x3", 24
TITLE = "A cube that turns, without its barrier"
WIDE, HIGH, PICTURE_WIDE = 1280, 900, 1060
SPACE, RIGHT, LEFT = (
    (" ", "Space", 32),
    ("ArrowRight", "ArrowRight", 39),
    ("ArrowLeft", "ArrowLeft", 37),
)
DOWN, HOME, END = ("ArrowDown", "ArrowDown", 40), ("Home", "Home", 36), ("End", "End", 35)
MODULUS = 1_000_003
SHOWN = "tried.frame().dataset.frame"
DONE = {True: 0, False: 0}


def check(what, holds, detail=""):
    """Tells whether what is said of the page holds."""
    DONE[bool(holds)] += 1
    print(f"PASS {what}" if holds else f"FAIL {what}: {str(detail)[:300]}", flush=True)


def sum_of(image):
    """What the colours of an image come to."""
    total = 0
    for byte in image:
        total = (total * 31 + byte) % MODULUS
    return total


def program_of(scene, *words):
    words = [str(program.PROGRAM), *FILTER.split(), *words]
    return subprocess.run(words, input=scene, capture_output=True, check=False)


def make_page(folder):
    """The page of the run, the pixels of its images, and its notes."""
    scene, notes = SCENE.read_bytes(), folder / "notes.txt"
    done = program_of(scene, "simulate", "--seed", "3", "--tiles", CUT, "--order")
    notes.write_bytes(done.stderr + program_of(scene, "race").stderr)
    words = ["--scene", str(SCENE.with_suffix(".txt")), "--notes", str(notes), "--tiles", CUT]
    words = [sys.executable, str(ROOT / "tools/page.py"), *words, "--filters", FILTER]
    page = subprocess.run([*words, "--title", TITLE], input=done.stdout, capture_output=True)
    check("page.py makes it", page.returncode == 0 and not page.stderr, page.stderr)
    path = folder / "run.html"
    path.write_bytes(page.stdout)
    head = b"P6\n320 240\n255\n"
    size = len(head) + 320 * 240 * 3
    parts = [done.stdout[at : at + size] for at in range(0, len(done.stdout), size)]
    check("of 24 frames", len(parts) == FRAMES and all(part.startswith(head) for part in parts))
    return path, [part[len(head) :] for part in parts], notes.read_text()


class Person:
    """Looks at the page and works with it."""

    def __init__(self, chromium, images):
        self.chromium, self.value, self.key = chromium, chromium.value, chromium.key
        self.sums = [sum_of(image) for image in images]

    def shows(self, what, number):
        """The frame of this number is shown, with the pixels of its image."""
        self.chromium.wait(f"{SHOWN} === '{number}'")
        got = [self.value(SHOWN), self.value("tried.sum()")]
        due = [str(number), self.sums[number - 1]]
        check(what, got == due, (got, due))

    def focus(self, name):
        self.value(f"document.getElementById('{name}').focus()")

    def leave(self):
        """Nothing has the focus."""
        self.value("document.activeElement.blur()")

    def click(self, choice):
        self.chromium.click(*self.value(f"tried.middle({choice!r})"))

    def text(self, name):
        return self.value(f"tried.text('{name}')")


def try_frames(person):
    person.shows("the first frame is shown", 1)
    check("frames differ in their pixels", len(set(person.sums)) > FRAMES // 2, person.sums)
    person.focus("slider")
    person.key(*RIGHT)
    person.shows("an arrow key on the slider shows the next frame", 2)
    told = person.text("now")
    check("the slider tells its frame", told == f"Frame 2 of {FRAMES}", told)
    person.key(*END)
    person.shows("the key End on the slider shows the last frame", FRAMES)
    person.click("#slider")
    number = int(person.value("at('slider').value")) + 1
    check("a click in the middle of the slider goes there", 11 <= number <= 14, number)
    person.shows("and shows that frame", number)
    person.leave()
    person.key(*LEFT)
    person.shows("an arrow key on the page shows the frame before", number - 1)
    person.value("location.hash = 'frame=7'")
    person.shows("an address with #frame=7 shows frame 7", 7)


def try_play(person):
    person.click("#play")
    moved = person.chromium.wait(f"Number({SHOWN}) >= 9")
    check("the button plays", moved and person.text("play") == "Pause", person.text("play"))
    person.click("#play")
    time.sleep(0.3)
    first = person.value(SHOWN)
    time.sleep(0.6)
    stands = person.value(SHOWN) == first and person.text("play") == "Play"
    check("and stops", stands, (first, person.value(SHOWN)))
    person.leave()
    for what, due in (("the space key plays", "true"), ("and stops", "false")):
        person.key(*SPACE)
        pressed = f"at('play').getAttribute('aria-pressed') === '{due}'"
        check(what, person.chromium.wait(pressed), due)


def try_keys(person, notes):
    """Marks by the keyboard."""
    person.focus("scroll")
    person.key(*HOME)
    first = person.text("detail")
    orders = [line.split()[2:] for line in notes.splitlines() if line.startswith("order 0 ")]
    starts = [f"Client {client}, command {place}: " for client, place in orders]
    check("the first mark is a command of tile 0", first.startswith(tuple(starts)), first)
    check("a mark shows its box", person.value("tried.count('#over .box')") == 1)
    person.key(*RIGHT)
    second = person.text("detail")
    is_next = second != first and second.startswith("Client ")
    check("an arrow key goes to the next mark", is_next, second)
    person.key(*DOWN)
    lit = person.value("document.querySelector('.names .on').textContent")
    check("an arrow key goes to the next tile", lit.startswith("tile 1"), lit)


def try_marks(person):
    """Marks by the mouse, and the log as text."""
    person.chromium.click(*person.value("tried.mark(5, 1)"))
    client, place = person.value("tried.name(5, 1)")
    told = person.text("detail")
    check(
        "a click on a mark tells it", told.startswith(f"Client {client}, command {place}: "), told
    )
    check("and tells the lines of the text", ", line" in told, told)
    person.value("at('as-text').open = true")
    person.chromium.wait("at('list').children.length > 0")
    got = person.value("[at('list').children.length, tried.length(0)]")
    check("the log as text has a line for each mark and entry", got[0] == got[1] > 0, got)
    person.value("at('as-text').open = false")
    check("the parcels are those that are computed", person.value("lanes.exact"))


def try_race(person, notes):
    race = next(line.split() for line in notes.splitlines() if line.startswith("race "))
    told, both = person.text("found"), [
        f"client {race[at]}, command {race[at + 1]}" for at in (1, 3)
    ]
    check("the race is told with both commands", all(one in told for one in both), told)
    marked = person.value("lanes.drawings.filter(isRacing).map((made) => made.slice(0, 2))")
    due = sorted([int(race[at]), int(race[at + 1])] for at in (1, 3))
    check("its two commands are marked", sorted(marked) == due, (marked, due))
    person.value("goTo(5)")
    check("its pixel isn't marked in another frame", person.value("tried.count('.cross')") == 0)
    person.click("#found button")
    check("a button goes to it", person.chromium.wait("tried.count('circle.cross') === 2"))
    place = (
        "['cx', 'cy'].map((name) => Number(document.querySelector('.cross').getAttribute(name)))"
    )
    got, due = person.value(place), [int(race[6]) + 0.5, 240 - 1 - int(race[7]) + 0.5]
    check("its pixel is marked where the notes say", got == due, (got, due))
    told = person.text("detail")
    start = f"Client {race[3]}, command {race[4]}: "
    check("and the second command is chosen", told.startswith(start), told)


def try_switches(person):
    for name, choice, before in (
        ("show-tiles", "#over .border", 24),
        ("show-chips", ".chip", 12),
        ("show-load", "#over .load", 0),
        ("show-race", "#over circle.cross", 2),
    ):
        counts = [person.value(f"tried.count('{choice}')")]
        for _ in range(2):
            person.click(f"#{name}")
            counts.append(person.value(f"tried.count('{choice}')"))
        due = [before, 0 if before else 12, before]
        check(f"the switch {name} works", counts == due, (counts, due))


def try_form(person, path):
    """What anybody needs: a title, names, contrast, room in a narrow window."""
    title = person.value("document.title + document.documentElement.lang")
    check("the page has its title", title.startswith(TITLE) and title.endswith("en"), title)
    nameless = person.value("tried.nameless()")
    check("all that one works with has a name", nameless == [], nameless)
    for dark in (False, True):
        person.chromium.window(WIDE, HIGH, dark)
        least = person.value("tried.contrast()")
        check(f"text stands out, {'dark' if dark else 'light'}", least[0] >= 4.5, least)
    for width in (360, 700, 1100):
        person.chromium.window(width, HIGH)
        time.sleep(0.2)
        wide = person.value("document.documentElement.scrollWidth")
        check(f"a window of {width} pixels holds it", wide <= width, wide)
    person.chromium.window(WIDE, HIGH)
    asked = [event["request"]["url"] for event in person.chromium.all("Network.requestWillBeSent")]
    outside = [
        address[:80] for address in asked if not address.startswith(("data:", path.as_uri()))
    ]
    check("it asks for nothing from outside", asked and not outside, outside)
    faults = person.chromium.all("Runtime.exceptionThrown")
    entries = [event["entry"] for event in person.chromium.all("Log.entryAdded")]
    faults += [entry for entry in entries if entry["level"] == "error"]
    check("it says of no fault", not faults, json.dumps(faults[:1]))


def take_picture(person, path):
    """The page at the frame of the race, with the race's second command chosen."""
    person.chromium.window(PICTURE_WIDE, HIGH)
    person.value("window.scrollTo(0, 0); document.querySelector('#found button').click()")
    person.leave()
    time.sleep(0.5)
    high = person.value("document.querySelector('.page').offsetHeight")
    person.chromium.screenshot(path, PICTURE_WIDE, high)
    size = path.stat().st_size
    check("its picture is below 256,000 bytes", 10_000 < size < 256_000, size)
    print(f"{path}: {PICTURE_WIDE} by {high}, {size} bytes")


def try_page(chromium, folder, picture):
    path, images, notes = make_page(folder)
    chromium.window(WIDE, HIGH)
    check("the page opens", chromium.open(path))
    chromium.value(f"{ASKED.read_text()}; globalThis.tried = tried; 0")
    person = Person(chromium, images)
    check(
        "its name stands above", person.value("document.querySelector('h1').textContent") == TITLE
    )
    try_frames(person)
    try_play(person)
    try_keys(person, notes)
    try_marks(person)
    try_race(person, notes)
    try_switches(person)
    try_form(person, path)
    take_picture(person, picture)


def main():
    parser = Words(__doc__)
    parser.add_argument("picture", metavar="PICTURE", nargs="?", type=pathlib.Path, default=ROOT / "docs/page.png", help="where its picture goes (docs/page.png)")
    picture = parser.parse_args().picture
    if browser.program() is None:
        print("no Chromium is installed (apt-get install chromium): the page wasn't opened")
        return
    if not program.is_built():
        sys.exit(f"try_page.py: {program.HOW}")
    with tempfile.TemporaryDirectory(ignore_cleanup_errors=True) as work:
        try:
            with browser.Browser(pathlib.Path(work) / "profile") as chromium:
                try_page(chromium, pathlib.Path(work), picture)
        except browser.BrowserFault as fault:
            check("the browser does what it is asked", False, fault)
    print(f"{DONE[True]} passed, {DONE[False]} failed")
    sys.exit(DONE[False] > 0)


if __name__ == "__main__":
    main()
