#!/usr/bin/env python3
"""Cuts a scene: to some of its frames, or behind a command, with the state that stands there.

    python3 tools/cut.py --frames 10:20 < film.rcs > part.rcs
        frames 10 to 19, counted from 0; frame 0 of what is written is frame 10 of the film
    python3 tools/cut.py --until "1 24" --text < scene.rcs > part.txt
        one frame: what is drawn behind command 24 of client 1, in the default order
    python3 tools/cut.py --filters "drop Color" --text < scene.rcs
        the scene behind filters, as text

Each client begins with commands that set what it has set by then: matrices, elements, textures. The
window has what was drawn before and isn't cleared: frames before the first one are drawn where
that is needed, and not shown. The scene that is read is bytes or a text, what is written is without
call lists. Drawn by `serial`, the frames are those of the whole, byte for byte; by other jobs where
the scene is ordered. A part from frame 0 on is each stream up to its last Swap there, and nothing
else.
"""
import argparse
import re

import command
import orders
import ranges
import scene_forms
import scene_text
import standing
from command_table import first_values
from contexts import Context, placed
from scene_bytes import BARRIER, BEGIN, END, SWAP, Scene, filter_words, print_line


def frames_word(word):
    """Frames A to B - 1 of `A:B`, or frame A alone of `A`."""
    match = re.fullmatch(r"(\d{1,7})(?::(\d{1,7}))?", word)
    first, last = (int(match[1]), int(match[2] or int(match[1]) + 1)) if match else (0, 0)
    if first >= last:
        raise argparse.ArgumentTypeError(f"{word!r} isn't A:B with A below B, or A")
    return first, last


def command_word(word):
    """A client and a place."""
    match = re.fullmatch(r"(\d{1,7}) (\d{1,7})", word)
    if not match:
        raise argparse.ArgumentTypeError(f"{word!r} isn't of the form `C N`")
    return int(match[1]), int(match[2])


# ---- where streams end


def ends_of_frames(run, last):
    """Where each client's frame `last` ends, behind its Swap."""
    return [swaps[last] + 1 for swaps in run.swaps]


def ends_behind(run, client, place):
    """Where each client stands once a command was carried out, in the default order. The members of
    a meeting pass it together.
    """
    ends, found = [0] * len(run.reach), None
    operations = {member for entry in run.entries for member in entry.members}
    for other, first, end, entry in run.segments():
        if found is not None and (found != entry or (other, first) not in operations):
            break
        if other == client and first <= place < end:
            end, found = place + 1, entry
        ends[other] = max(ends[other], end)
        if found is not None and (client, place) not in operations:
            break
    return ends


# ---- what is written


class Part:
    """A part of a scene: from a frame on to where each client's stream ends."""

    def __init__(self, run, first, ends):
        self.run, self.scene, self.ends = run, run.scene, ends
        names = [name for name in run.drawings() if name[1] < ends[name[0]]]
        drawings = standing.drawings_of(self.scene, run.refused, ends)
        last = max(run.frame_of(client, end - 1) for client, end in enumerate(ends) if end)
        frames = [[] for _ in range(last + 1)]
        for name in names:
            if name in drawings:
                frames[run.frame_of(*name)].append(drawings[name])
        self.first = first
        self.drawn, self.color, self.depth = standing.first_frame(frames, first)
        self.before = [name for name in names if run.frame_of(*name) < self.drawn]
        self.starts = [
            swaps[self.drawn - 1] + 1 if self.drawn else 0 for swaps in run.swaps
        ]

    def barrier(self):
        """The barrier at which all clients meet: its name, and all barriers."""
        clients, barriers = len(self.scene.streams), self.scene.barriers
        if clients in barriers:
            return barriers.index(clients) + 1, barriers
        if len(barriers) >= ranges.RANGES["barriers"][1]:
            raise command.Wrong("the scene has 64 barriers, and none at which all clients meet")
        return len(barriers) + 1, [*barriers, clients]

    def window_commands(self):
        """Commands of client 0 that bring the window and the shared textures to what stands; and
        which elements they leave.
        """
        values, made = first_values(self.scene.width, self.scene.height), []
        for name, value, first, mask in (
            ("ClearColor", self.color, standing.FIRST[0], standing.COLOR_BIT),
            ("ClearDepth", self.depth, standing.FIRST[1], standing.DEPTH_BIT),
        ):
            if value not in (None, first):
                made += [placed(name, *value), placed("Clear", mask)]
                values[name] = value
        for name, body in sorted(standing.shared_textures(self.scene, self.before).items()):
            w, h = self.scene.shared[name - 1]
            made.append(placed("SharedImage", name, 0, 0, w, h, texels=bytes(body)))
        return made, values

    def units(self):
        """The units of each semaphore."""
        made, swaps = list(self.scene.semaphores), 0
        for entry in self.run.entries:
            if swaps == self.drawn:
                break
            swaps += entry.kind == "Swap"
            if entry.kind in ("SemV", "SemP"):
                made[entry.name - 1] += 1 if entry.kind == "SemV" else -1
        if max(made, default=0) > 65535:
            raise command.Wrong("a semaphore has more than 65535 units there")
        return made

    def body(self, client, barrier, declared):
        """A client's own commands: Swaps before the first frame are meetings. A refused Barrier
        that would be taken now is left out, and so is a block that is open at the end.
        """
        stream, refused = self.scene.streams[client], self.run.refused[client]
        hidden = set(self.run.swaps[client][self.drawn : self.first])
        made, begun, known = [], None, len(self.scene.barriers)
        for place in range(self.starts[client], self.ends[client]):
            one = stream[place]
            if place not in refused and one[0] in (BEGIN, END):
                begun = len(made) if one[0] == BEGIN else None
            if place in hidden:
                made += [placed("Barrier", barrier)] if len(self.scene.streams) > 1 else []
            elif place not in refused or one[0] != BARRIER or not known < one[1][0] <= declared:
                made.append(one)
        return made[:begun]

    def is_met(self, window):
        """Whether all clients have to meet, somewhere in what is written."""
        return len(self.scene.streams) > 1 and bool(window or self.drawn < self.first)

    def spelled(self, with_swap):
        """The scene, and of each client how many commands stand before its own."""
        window, values = self.window_commands()
        name, barriers = self.barrier() if self.is_met(window) else (0, self.scene.barriers)
        streams, counts = [], []
        for client, stream in enumerate(self.scene.streams):
            context = Context(self.scene)
            for place in range(self.starts[client]):
                if place not in self.run.refused[client]:
                    context.issue(stream[place])
            made = window if client == 0 else []
            made = made + ([placed("Barrier", name)] if window and name else [])
            fresh = first_values(self.scene.width, self.scene.height)
            made += context.commands(values if client == 0 else fresh)
            counts.append(len(made))
            made += self.body(client, name, len(barriers))
            streams.append(made + ([placed("Swap")] if with_swap else []))
        scene = self.scene
        made = Scene(
            scene.width, scene.height, scene.shared, barriers, self.units(), streams, scene.version
        )
        return made, counts


def cut_frames(run, first, end):
    """The scene of some frames."""
    count = len(run.swaps[0])
    if end > count:
        have = {0: "no frame", 1: "one frame"}.get(count, f"{count} frames")
        raise command.Wrong(f"the scene has {have}, counted from 0")
    return Part(run, first, ends_of_frames(run, end - 1)).spelled(with_swap=False)


def cut_behind(run, client, place):
    """The scene of one frame, as it is behind a command."""
    if client >= len(run.reach) or place >= len(run.scene.streams[client]):
        raise command.Wrong(f"client {client} has no command {place}")
    if place >= run.reach[client]:
        raise command.Wrong(f"client {client} never comes to its command {place}")
    frame = run.frame_of(client, place)
    if run.scene.streams[client][place][0] == SWAP and place not in run.refused[client]:
        return cut_frames(run, frame, frame + 1)
    return Part(run, frame, ends_behind(run, client, place)).spelled(with_swap=True)


# ---- text


def lines_of(scene, counts):
    """A scene's text; what sets the state is told by comments."""
    yield f"scene {scene.version} {scene.width} {scene.height}"
    yield from (f"shared {w} {h}" for w, h in scene.shared)
    yield from (f"barrier {count}" for count in scene.barriers)
    yield from (f"semaphore {units}" for units in scene.semaphores)
    for client, (stream, count) in enumerate(zip(scene.streams, counts)):
        yield "client"
        if count:
            yield f"# client {client}: what is set so far"
        yield from map(print_line, stream[:count])
        if count:
            yield f"# client {client}: its commands from here on"
        yield from map(print_line, stream[count:])


def main():
    words = command.Words(__doc__)
    part = words.add_mutually_exclusive_group()
    part.add_argument("--frames", type=frames_word, metavar="A:B", help="frames A to B - 1")
    part.add_argument(
        "--until", type=command_word, metavar="'C N'", help="behind command N of client C"
    )
    words.add_argument(
        "--filters", type=filter_words, default=[], help="the filters' words of the run"
    )
    words.add_argument("--text", action="store_true", help="write a text, and not bytes")
    given = words.parse_args()
    scene = scene_text.read_any(command.read_input(), given.filters)[0]
    made, counts = scene, [0] * len(scene.streams)
    if given.frames:
        made, counts = cut_frames(orders.Run(scene), *given.frames)
    elif given.until:
        made, counts = cut_behind(orders.Run(scene), *given.until)
    data = scene_forms.scene_bytes(made)
    if len(data) > scene_forms.LONGEST:
        raise command.Wrong(f"limit scene bytes {len(data)}: {ranges.told('scene bytes')}")
    if given.text:
        data = "".join(f"{line}\n" for line in lines_of(made, counts)).encode()
    command.write_output(data)


if __name__ == "__main__":
    command.run(main)
