#!/usr/bin/env python3
"""Tells the races of a scene, one after the other, where `render_cli race` tells the first.

    python3 tools/all_races.py < scene.rcs
    python3 tools/all_races.py --most 100 --filters "drop Barrier" < scene.txt

A race that is told is put in the order that its line has, by a unit that the first client gives and
the second one takes, and `race` is asked again. So a race that is mended by mending one before it
isn't told. Each line is that of `race`, with the scene's own places, for tools/where.py; the last
one tells how many there are.
"""
import command
import orders
import running
import scene_bytes
import scene_text
from scene_bytes import GIVE, TAKE, Placed, Scene


class Mended:
    """A scene with some races put in order: by both clients, behind which commands of the first one
    stand in front of which commands of the second.
    """

    def __init__(self, scene):
        self.scene, self.refused = scene, orders.refused_places(scene)
        self.pairs, self.places = {}, None

    def add(self, first, second):
        """The first command comes before the second one. What that orders too isn't kept."""
        (client, place), (other, behind) = first, second
        behind = orders.begin_of(self.scene.streams[other], behind, self.refused[other])
        kept = self.pairs.get((client, other), [])
        kept = [pair for pair in kept if not (pair[0] <= place and behind <= pair[1])]
        self.pairs[client, other] = sorted([*kept, (place, behind)])

    def spelled(self):
        """The scene with its units, and the places that its commands have in the first one."""
        scene, count = self.scene, len(self.scene.semaphores)
        if count + len(self.pairs) > 64:
            raise command.Wrong("the scene's semaphores and those of its races are more than 64")
        put = [{} for _ in scene.streams]
        for name, ((client, other), pairs) in enumerate(self.pairs.items(), count + 1):
            for place, behind in pairs:
                # gives come before takes, so that two clients don't wait for each other
                put[client].setdefault(place + 1, ([], []))[0].append((GIVE, (name,), b""))
                put[other].setdefault(behind, ([], []))[1].append((TAKE, (name,), b""))
        streams, self.places = [], []
        for stream, more in zip(scene.streams, put):
            made, places = [], []
            for place, placed in enumerate([*stream, None]):
                added = [Placed(one) for part in more.get(place, ()) for one in part]
                made += added + ([placed] if placed is not None else [])
                places += [None] * len(added) + [place]
            streams.append(made)
            self.places.append(places)
        units = scene.semaphores + [0] * len(self.pairs)
        return Scene(
            scene.width, scene.height, scene.shared, scene.barriers, units, streams, scene.version
        )

    def journal(self, made):
        """The journal of a scene that was spelled, without its units, by the first one's places."""
        count = len(self.scene.semaphores)
        return [
            (entry.kind, entry.name, [(c, self.places[c][place]) for c, place in entry.members])
            for entry in orders.Run(made).entries
            if not (entry.kind in ("SemP", "SemV") and entry.name > count)
        ]


def races(program, scene, most, print_=print):
    """The lines of the races, each told at once; and what is left behind them, in words."""
    mended = Mended(scene)
    made, found = mended.spelled(), []
    first_journal = mended.journal(made)
    while True:
        match = running.race(program, made)
        if match is None:
            return found, "and with these in order none is left"
        if len(found) == most:
            return found, f"and more: --most tells how many are looked for ({most})"
        numbers = [int(number) for number in match.groups()[:4]]
        names = [
            (client, mended.places[client][place])
            for client, place in zip(numbers[::2], numbers[1::2])
        ]
        meeting = f"pixel {match[5]} {match[6]}" if match[5] else f"shared {match[7]}"
        found.append(" ".join(map(str, ["race", *names[0], *names[1], meeting])))
        print_(found[-1])
        mended.add(*names)
        made = mended.spelled()
        if mended.journal(made) != first_journal:
            return found, "and with these in order the scene has another journal: mend these first"


def main():
    words = command.Words(__doc__)
    words.add_argument(
        "--most", type=command.number_in(1, 10_000), default=20, help="of how many it tells (20)"
    )
    words.add_argument(
        "--filters", type=scene_bytes.filter_words, default=[], help="the filters' words of the run"
    )
    running.add_program(words)
    given = words.parse_args()
    program = running.built(given.program)
    scene = scene_text.read_any(command.read_input(), given.filters)[0]
    found, rest = races(program, scene, given.most, lambda line: print(line, flush=True))
    print(f"races {len(found)}, {rest}" if found else "race none")


if __name__ == "__main__":
    command.run(main)
