#!/usr/bin/env python3
"""Says which lines of a scene's text the notes of a run speak of.

    render_cli race < scene.rcs 2>&1 | python3 tools/where.py scene.txt
    python3 tools/where.py scene.txt < notes.txt

Each line of the notes is written as it came, and behind it the line of the text that it names, for
a block those from its `Begin` to its `End`; of a refused command why it is refused; for a pixel its
row from the top, as other viewers count; for a limit its range. Of notes of `pack` it is the line
that is refused. `--filters "drop Barrier"` takes places as they are behind these filters.
"""
import command
import notes
import ranges
import reasons
import scene_text
from scene_bytes import (
    CLEAR,
    END,
    SHARED_IMAGE,
    block_start,
    filter_words,
    filtered,
    meaning,
    name_of,
    told,
    told_block,
)

# Faults of bytes have places in bytes, faults of a text have lines.
TEXT_KINDS = (
    "NotText",
    "UnknownWord",
    "OutOfPlace",
    "WrongCount",
    "BadNumber",
    "BadHex",
    "NoScene",
)
LONGEST_LINE = 72
# What a race is between: anything else has been left behind by places of another stream.
RACING = (END, CLEAR, SHARED_IMAGE)


class Page:
    """A text's lines, and what its clients' places are in it. A text that is refused has its lines
    alone.
    """

    def __init__(self, path, data, filters):
        self.path, self.refused, self.filters, self.known = path, None, filters, {}
        self.lines = [line.decode("ascii", "replace") for line in scene_text.lines_of(data)]
        try:
            self.text = scene_text.read(data)
        except command.Wrong as wrong:
            self.refused = wrong
            return
        self.scene = self.text.scene
        self.drawn = filtered(filters, meaning(self.scene)[0])

    def foreign(self):
        """What is said where the notes' places can't be those of this text."""
        if self.filters:
            return "this isn't the place of such a command: did the run have these filters?"
        return "this isn't the place of such a command: had the run filters? (--filters tells them)"

    def has(self, streams, client, place):
        return not self.refused and client < len(streams) and place < len(streams[client])

    def why(self, client, place, fault):
        """Why a command of what is drawn has a fault."""
        if client not in self.known:
            self.known[client] = reasons.refusals(self.drawn, client)
        name, reason = self.known[client].get(place, ("", ""))
        return reason if name == fault else self.foreign()

    def why_list(self, client, place, fault):
        """Why a list command has a fault."""
        name, reason = reasons.list_refusals(self.scene.streams[client]).get(place, ("", ""))
        return reason if name == fault else self.foreign()

    def words_of(self, line):
        """The words of a line, or none where there is no such line."""
        return self.lines[line - 1].split() if 0 < line <= len(self.lines) else []

    def shown(self, line):
        """A line of the text: its number, and its words."""
        words = self.lines[line - 1].strip() if 0 < line <= len(self.lines) else "(no such line)"
        words = words if len(words) <= LONGEST_LINE else f"{words[:LONGEST_LINE]} .."
        return f"{self.path}:{line}: {words}"

    def command(self, streams, client, place, is_alone=False):
        """The line of a command; of a block that ends there its lines, where it isn't alone."""
        if self.refused:
            return f"{self.path}: {self.refused}"
        if client >= len(streams) or place >= len(streams[client]):
            return f"{self.path}: client {client} has no command {place}"
        stream = streams[client]
        is_block = stream[place][0] == END and not is_alone
        first = block_start(stream, place) if is_block else None
        if first is None:
            return f"{self.shown(stream[place].line)}{self.names(stream[place])}"
        return f"{self.path}:{stream[first].line}-{stream[place].line}: {told_block(stream, place)}"

    @staticmethod
    def names(placed):
        """The names of a command's codes, in brackets."""
        return told(placed)[told(placed).find(" (") :] if "(" in told(placed) else ""

    def declaration(self, name, number):
        """The line that declares a shared texture, a barrier or a semaphore."""
        places = [] if self.refused else self.text.places[name]
        return (
            self.shown(places[number - 1])
            if 0 < number <= len(places)
            else f"{self.path}: no {name} {number}"
        )

    def row_from_top(self, column, row):
        if self.refused:
            return f"{self.path}: {self.refused}"
        scene = self.scene
        if column >= scene.width or row >= scene.height:
            return f"the window of this text is {scene.width} by {scene.height}"
        return f"in an image viewer: column {column}, row {scene.height - 1 - row} from the top"


def race_lines(page, match):
    client, place, other, behind = map(int, match.groups()[:4])
    streams = [] if page.refused else page.drawn.streams
    for names in ((client, place), (other, behind)):
        yield page.command(streams, *names)
        if page.has(streams, *names) and streams[names[0]][names[1]][0] not in RACING:
            yield page.foreign()
    if match[5]:
        yield page.row_from_top(int(match[5]), int(match[6]))
    else:
        yield page.declaration("shared", int(match[7]))


def limit_lines(page, name):
    range_ = f"{name}: {ranges.told(name)}"
    if name in ranges.OF_WORDS:
        yield f"{range_}; this is a limit of the words behind the job, not of the scene"
        return
    if page.refused and str(page.refused).startswith("line "):
        number, _ = str(page.refused)[5:].split(": ", 1)
        yield page.shown(int(number))
    elif page.refused and f"limit {name} " not in str(page.refused):
        yield f"{page.path}: {page.refused}"
    elif name in scene_text.SIDES:
        yield page.declaration("scene", 1)
    if name in ranges.RANGES:
        yield range_


def malformed_lines(page, kind, place):
    if kind in TEXT_KINDS:
        yield page.shown(place)
        if page.refused and str(page.refused).startswith(f"line {place}: "):
            yield str(page.refused).split(": ", 1)[1]
        elif kind == "BadNumber" and page.words_of(place)[:2] == ["scene", "3"]:
            yield "texts of version 3 are for tools/pack.py: `pack` writes versions 1 and 2"
    else:
        yield f"byte {place} of what the job read, which isn't this text: pack it first"


def spoken_of(page, line):
    """What a line of the notes speaks of, line by line."""
    drawn, read = ([], []) if page.refused else (page.drawn.streams, page.scene.streams)
    if match := notes.LIST_FAULT.fullmatch(line):
        client, place = int(match[1]), int(match[3])
        yield page.command(read, client, place)
        if page.has(read, client, place):
            yield page.why_list(client, place, match[2])
    elif match := notes.FAULT.fullmatch(line):
        client, place = int(match[1]), int(match[3])
        yield page.command(drawn, client, place, is_alone=True)
        if page.has(drawn, client, place):
            yield page.why(client, place, match[2])
    elif match := notes.STUCK.fullmatch(line):
        client, place = int(match[1]), int(match[2])
        yield page.command(drawn, client, place)
        kind, *number = match[3].split()
        if page.has(drawn, client, place) and name_of(drawn[client][place]) != kind:
            yield page.foreign()
        if number:
            yield page.declaration("barrier" if kind == "Barrier" else "semaphore", int(number[0]))
    elif match := notes.RACE.fullmatch(line):
        yield from race_lines(page, match)
    elif match := notes.NOT_FOR_LAST.fullmatch(line):
        client, place = int(match[1]), int(match[2])
        yield page.command(drawn, client, place)
        if page.has(drawn, client, place):
            yield reasons.last_reason(page.drawn, client, place) or page.foreign()
    elif match := notes.ORDER.fullmatch(line):
        yield page.command(drawn, int(match[2]), int(match[3]))
    elif match := notes.MALFORMED.fullmatch(line):
        yield from malformed_lines(page, match[1], int(match[2]))
    elif match := notes.LIMIT.fullmatch(line):
        yield from limit_lines(page, match[1])


def main():
    words = command.Words(__doc__)
    words.add_argument("scene", help="the scene's text")
    words.add_argument(
        "--filters", type=filter_words, default=[], help="the filters' words of the run"
    )
    given = words.parse_args()
    data = command.read_file(given.scene)
    if data[:3] == b"RCS":
        raise command.Wrong(
            f"{given.scene}: these are a scene's bytes, which have no lines: give its text"
        )
    page = Page(given.scene, data, given.filters)
    for raw in command.standard_input():
        line = raw.decode("ascii", "replace").rstrip("\r\n")
        print("\n    ".join([line, *spoken_of(page, line)]), flush=True)


if __name__ == "__main__":
    command.run(main)
