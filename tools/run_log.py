"""The logs of a run: by the notes of `--order`, for each tile what it took between the journal's
entries.

A recorded order has all commands of all clients. The operations in it are the journal's entries, in
their sequence; of the others those drawings are what the tile took whose boxes meet it
(tools/sent.py).
"""
import notes
import sent
from command import Wrong
from scene_bytes import BARRIER, GIVE, OPERATIONS, SWAP


class Entry:
    """An entry of the journal: its kind, the name of its barrier or semaphore (0 of a Swap) and its
    members.
    """

    def __init__(self, kind, name, members):
        self.kind, self.name, self.members = kind, name, members

    def told(self):
        who = ", ".join(f"client {client} at {place}" for client, place in self.members)
        return f"{self.kind}{f' {self.name}' if self.name else ''}: {who}"


def orders(lines, tiles, scene):
    """By tiles the clients and places of the notes' lines `order`, or None where there are none."""
    made, count = [[] for _ in range(tiles)], 0
    for line in lines:
        if match := notes.ORDER.fullmatch(line):
            tile, client, place = map(int, match.groups())
            if tile >= tiles or client >= len(scene.streams) or place >= len(scene.streams[client]):
                raise Wrong(f"the notes aren't those of this scene: `{line}`")
            made[tile].append((client, place))
            count += 1
    return made if count else None


def due_members(scene, operation):
    """How many operations the entry of an operation has."""
    opcode, numbers, _ = operation
    if opcode == SWAP:
        return len(scene.streams)
    return scene.barriers[numbers[0] - 1] if opcode == BARRIER else 1


def entry_of(scene, members):
    """The entry of some operations that stand together."""
    client, place = members[0]
    opcode, numbers, _ = scene.streams[client][place]
    kinds = {BARRIER: "Barrier", GIVE: "SemV", SWAP: "Swap"}
    return Entry(kinds.get(opcode, "SemP"), numbers[0] if numbers else 0, members)


def tile_log(scene, refused, order, taken):
    """The drawings that a tile took in front of each entry and behind the last one, and the
    entries.
    """
    segments, entries, members = [[]], [], []
    for name in order:
        operation = scene.streams[name[0]][name[1]]
        if name in refused:
            continue
        if operation[0] in OPERATIONS:
            members.append(name)
            if len(members) == due_members(scene, scene.streams[members[0][0]][members[0][1]]):
                entries.append(entry_of(scene, members))
                segments.append([])
                members = []
        elif name in taken:
            segments[-1].append(taken[name])
    if members:
        raise Wrong("the notes aren't those of this scene: an order ends inside an entry")
    return segments, entries


class Logs:
    """Of a run: its journal, and by tiles what stands between the entries."""

    def __init__(self, scene, lines, rectangles, tallies):
        self.refused = {
            (int(match[1]), int(match[3]))
            for line in lines
            if (match := notes.FAULT.fullmatch(line))
        }
        self.drawings, with_boxes = sent.drawings(scene, self.refused)
        computed = [
            sent.parcels(scene, self.refused, self.drawings, rectangle) for rectangle in rectangles
        ]
        # where the parcels aren't those that were told, which tile took what isn't known
        self.is_exact = with_boxes and computed == [tally[0] for tally in tallies]
        self.journal, self.segments = [], None
        told = orders(lines, len(rectangles), scene)
        if told is None:
            return
        self.segments = []
        for order, rectangle in zip(told, rectangles):
            taken = {
                name: drawing
                for name, drawing in self.drawings.items()
                if not self.is_exact or sent.is_sent(drawing, rectangle)
            }
            segments, entries = tile_log(scene, self.refused, order, taken)
            if self.segments and [entry.told() for entry in entries] != [
                entry.told() for entry in self.journal
            ]:
                raise Wrong(
                    "the notes aren't those of one run: two tiles performed different entries"
                )
            self.journal = entries
            self.segments.append(segments)
