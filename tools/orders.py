"""Journals and orders, by docs/synchronisation.md: which operations a scene's default journal
grants, what is before a command, and scenes whose only order is one that is given.

Scenes are those that are drawn, without call lists. `Run(scene)` has the default journal.
"""
import bisect

import scene_faults
from run_log import Entry
from scene_bytes import (
    BARRIER,
    BEGIN,
    CLEAR,
    END,
    GIVE,
    OPERATIONS,
    SHARED_IMAGE,
    SWAP,
    TAKE,
    Placed,
    Scene,
)

# What touches pixels or shared textures: all else changes a client's own context alone.
DRAWING = (END, CLEAR, SHARED_IMAGE)
KINDS = {BARRIER: "Barrier", TAKE: "SemP", GIVE: "SemV", SWAP: "Swap"}


def refused_places(scene):
    """Of each client the places of the commands that are refused."""
    return [
        {place for place, _, _, fault in scene_faults.issue(scene, stream) if fault}
        for stream in scene.streams
    ]


class Run:
    """A scene's default journal: its entries, and how far each client comes."""

    def __init__(self, scene):
        self.scene, self.refused = scene, refused_places(scene)
        self.operations = [
            [
                (place, placed[0], placed[1][0] if placed[1] else 0)
                for place, placed in enumerate(stream)
                if placed[0] in OPERATIONS and place not in self.refused[client]
            ]
            for client, stream in enumerate(scene.streams)
        ]
        self.used, self.units = [0] * len(scene.streams), list(scene.semaphores)
        self.entries = list(self._entries())
        self.reach = [self.stop(client, used) for client, used in enumerate(self.used)]
        self.swaps = [
            [place for place, opcode, _ in operations[:used] if opcode == SWAP]
            for operations, used in zip(self.operations, self.used)
        ]
        self._clocks = None

    def stop(self, client, used):
        """The place of a client's first operation that isn't used, or its stream's end."""
        operations = self.operations[client]
        return operations[used][0] if used < len(operations) else len(self.scene.streams[client])

    def _entries(self):
        """Entries by the fixed rule, as long as there is one."""
        while True:
            heads = [
                operations[used][1:] if used < len(operations) else (None, 0)
                for operations, used in zip(self.operations, self.used)
            ]
            members = self._granted(heads)
            if not members:
                return
            opcode, name = heads[members[0]]
            if opcode in (GIVE, TAKE):
                self.units[name - 1] += 1 if opcode == GIVE else -1
            yield Entry(
                KINDS[opcode],
                name,
                [(client, self.operations[client][self.used[client]][0]) for client in members],
            )
            for client in members:
                self.used[client] += 1

    def _granted(self, heads):
        """The members of the entry that comes next: a Give, a Take, a Meet or a Swap."""
        for client, (opcode, _) in enumerate(heads):
            if opcode == GIVE:
                return [client]
        for client, (opcode, name) in enumerate(heads):
            if opcode == TAKE and self.units[name - 1]:
                return [client]
        for name in sorted({name for opcode, name in heads if opcode == BARRIER}):
            waiting = [client for client, head in enumerate(heads) if head == (BARRIER, name)]
            if len(waiting) >= self.scene.barriers[name - 1]:
                return waiting[: self.scene.barriers[name - 1]]
        return list(range(len(heads))) if all(opcode == SWAP for opcode, _ in heads) else []

    # ---- the default order

    def segments(self):
        """The default order in pieces: of each a client, its first place and the one behind it;
        and the number of entries before it.
        """
        used = [0] * len(self.used)
        for client in range(len(used)):
            yield client, 0, self.stop(client, 0), 0
        for number, entry in enumerate(self.entries, 1):
            for client, place in entry.members:
                yield client, place, place + 1, number
                used[client] += 1
            for client, place in entry.members:
                yield client, place + 1, self.stop(client, used[client]), number

    def drawings(self):
        """The commands that draw or write shared textures, in the default order."""
        return [
            (client, place)
            for client, first, end, _ in self.segments()
            for place in range(first, end)
            if self.scene.streams[client][place][0] in DRAWING
            and place not in self.refused[client]
        ]

    def frame_of(self, client, place):
        """In which frame, from 0, a command stands."""
        return bisect.bisect_left(self.swaps[client], place)

    # ---- what is before what

    def clock(self, client, place):
        """How many of each client's commands are before a command, from the first one on."""
        if self._clocks is None:
            self._clocks = self._all_clocks()
        froms, vectors = self._clocks[client]
        at = bisect.bisect_right(froms, place) - 1
        made = list(vectors[at]) if at >= 0 else [0] * len(self.used)
        made[client] = place
        return made

    def _all_clocks(self):
        """Of each client from which places on its commands have more before them, and what."""
        self._clocks = [([], []) for _ in self.used]
        given = {}
        for entry in self.entries:
            if entry.kind == "SemV":
                given.setdefault(entry.name, []).append(entry.members[0])
            elif entry.kind == "SemP":
                self._take(entry, given)
            else:
                self._meet(entry)
        return self._clocks

    def _take(self, entry, given):
        """A taker has what its unit's giver had; first units serve first takers."""
        taken = given.setdefault(("taken", entry.name), [])
        number = len(taken) - self.scene.semaphores[entry.name - 1]
        taken.append(entry.members[0])
        if number >= 0:
            client, place = given[entry.name][number]
            self._grow(*entry.members[0], self._with(client, place))

    def _meet(self, entry):
        """Behind its operation each member has what all have in front of theirs."""
        parts = [self._with(client, place - 1) for client, place in entry.members if place]
        if parts:
            joined = [max(counts) for counts in zip(*parts)]
            for client, place in entry.members:
                self._grow(client, place + 1, joined)

    def _with(self, client, place):
        """What is before a command, and the command."""
        made = self.clock(client, place)
        made[client] = place + 1
        return made

    def _grow(self, client, place, more):
        froms, vectors = self._clocks[client]
        before = vectors[-1] if vectors else [0] * len(self.used)
        froms.append(place)
        vectors.append([max(both) for both in zip(before, more)])

    def is_before(self, first, second):
        """Whether a command is before another one, each by its client and its place."""
        if first[0] == second[0]:
            return first[1] < second[1]
        return self.clock(*second)[first[0]] > first[1]


def both_orders(run, first, second):
    """The drawings in two permitted orders, which differ in nothing but which of two commands that
    race comes first: they stand side by side, behind all that is before one of them.
    """
    before = [max(both) for both in zip(run.clock(*first), run.clock(*second))]
    order = run.drawings()
    front = [name for name in order if name[1] < before[name[0]]]
    rest = [
        name for name in order if name[1] >= before[name[0]] and name not in (first, second)
    ]
    return front + [first, second] + rest, front + [second, first] + rest


# ---- scenes of one order


class Ordered:
    """Makes a scene that draws what another one draws, in one order of all its drawings. Whoever
    comes next waits for a unit that the one before it gives; of the operations the Swaps stay.
    """

    def __init__(self, run):
        self.run = run
        self.streams = [[] for _ in run.scene.streams]
        self.done = [0] * len(self.streams)

    def go_to(self, client, end):
        """A client's commands up to a place, without operations and refused ones."""
        stream, refused = self.run.scene.streams[client], self.run.refused[client]
        self.streams[client] += [
            stream[place]
            for place in range(self.done[client], end)
            if stream[place][0] not in OPERATIONS and place not in refused
        ]
        self.done[client] = max(self.done[client], end)

    def draw(self, names):
        """The drawings of one frame."""
        last = None
        for client, place in names:
            if last not in (None, client):
                self.streams[last].append(Placed((GIVE, (client + 1,), b"")))
                self.streams[client].append(Placed((TAKE, (client + 1,), b"")))
            self.go_to(client, place + 1)
            last = client

    def swap(self, frame):
        """Ends a frame."""
        for client, swaps in enumerate(self.run.swaps):
            self.go_to(client, swaps[frame])
            self.streams[client].append(Placed((SWAP, (), b"")))


def scene_of(run, order):
    """The scene that draws some drawings in this order. It has one permitted order of them."""
    made, frames = Ordered(run), [[] for _ in range(len(run.swaps[0]) + 1)]
    for name in order:
        frames[run.frame_of(*name)].append(name)
    for frame, names in enumerate(frames):
        made.draw(names)
        if frame < len(frames) - 1:
            made.swap(frame)
    for client, end in enumerate(run.reach):
        made.go_to(client, end)
    scene = run.scene
    units = [0] * len(made.streams)
    return Scene(
        scene.width, scene.height, scene.shared, [], units, made.streams, scene.version
    )


def begin_of(stream, place, refused):
    """Where a drawing begins: of a block its Begin, which is taken."""
    if stream[place][0] != END:
        return place
    return next(
        at for at in range(place, -1, -1) if stream[at][0] == BEGIN and at not in refused
    )
