#!/usr/bin/env python3
"""Draws what a race does to the picture: the frame with either of its two commands first, side by
side, and the pixels that differ.

    python3 tools/both_orders.py NAME < scene.rcs
        NAME.png: the race that `render_cli race` tells, drawn both ways
    python3 tools/both_orders.py NAME --race "0 15 1 7" --filters "drop Barrier" < scene.txt
        another race of the scene, by both commands; the scene behind filters

Both pictures are of permitted orders, which differ in nothing but these two commands: all that is
before one of them comes first, then the two side by side, then the rest in the default order. The
frame is the first that differs, else the one in which the race stands. `--scenes` writes both
orders as scenes too, NAME-1.rcs and NAME-2.rcs, for any job.
"""
import argparse
import re

import command
import difference
import orders
import pair
import running
import scene_bytes
import scene_forms
import scene_text


def two_commands(word):
    """Both commands of a race, as the notes have them: `0 15 1 7`, with what stands around it."""
    match = re.fullmatch(r"(?:race )?(\d{1,7}) (\d{1,7}) (\d{1,7}) (\d{1,7})(?: \w+ [\d ]+)?", word)
    if not match:
        raise argparse.ArgumentTypeError(f"{word!r} isn't of the form `0 15 1 7`")
    numbers = [int(number) for number in match.groups()]
    return tuple(numbers[:2]), tuple(numbers[2:])


def judge_race(run, first, second):
    """Both draw or write a shared texture, and nothing orders them."""
    for client, place in (first, second):
        if client >= len(run.reach) or place >= len(run.scene.streams[client]):
            raise command.Wrong(f"client {client} has no command {place}")
        if place >= run.reach[client]:
            raise command.Wrong(f"client {client} never comes to its command {place}")
        placed = run.scene.streams[client][place]
        if placed[0] not in orders.DRAWING or place in run.refused[client]:
            told = scene_bytes.told(placed)
            raise command.Wrong(f"client {client}, command {place}: {told} draws nothing")
    if run.is_before(first, second) or run.is_before(second, first):
        raise command.Wrong("these two commands are ordered: they don't race")


def first_difference(program, scenes, frame):
    """The number of the first frame that differs, and both images; of none that of the race."""
    kept = None
    with running.drawing(program, scenes[0]) as left, running.drawing(program, scenes[1]) as right:
        for number, images in enumerate(zip(left, right)):
            if images[0] != images[1]:
                return number, images
            if number == frame:
                kept = number, images
    return kept


def main():
    words = command.Words(__doc__)
    words.add_argument("name", type=command.file_name, help="the picture's name without .png")
    words.add_argument(
        "--race", type=two_commands, metavar="'C I D J'", help="the two commands (what `race` says)"
    )
    words.add_argument(
        "--filters", type=scene_bytes.filter_words, default=[], help="the filters' words of the run"
    )
    words.add_argument(
        "--scale", type=command.number_in(1, 16), default=1, help="how large a pixel is drawn (1)"
    )
    words.add_argument("--scenes", action="store_true", help="write both scenes too")
    running.add_program(words)
    given = words.parse_args()
    program = running.built(given.program)
    scene = scene_text.read_any(command.read_input(), given.filters)[0]
    pair.judge_scale(scene.width, scene.height, given.scale)
    names = given.race
    if names is None:
        match = running.race(program, scene)
        if match is None:
            raise command.Wrong("this scene has no race")
        print(match[0])
        names = tuple(zip(*[map(int, match.groups()[:4])] * 2))
    run = orders.Run(scene)
    if not run.swaps[0]:
        raise command.Wrong("the scene has no frame: nothing is shown before a Swap of all clients")
    judge_race(run, *names)
    scenes = [orders.scene_of(run, order) for order in orders.both_orders(run, *names)]
    if given.scenes:
        for number, made in enumerate(scenes, 1):
            path = f"{given.name}-{number}.rcs"
            command.write_file(path, scene_forms.scene_bytes(made))
            print(path)
    found = first_difference(program, scenes, run.frame_of(*names[0]))
    if found is None:
        raise command.Wrong("no frame shows it: it stands behind the last Swap")
    number, images = found
    mask = difference.mask_of(*images)
    print(f"frame {number}: {difference.told(mask, scene.width)}")
    if not mask.count(255):
        print("these two make no difference there: --race takes another race of the scene")
    labels = [f"{client} {place} first" for client, place in names] + [f"{mask.count(255)} pixels"]
    pictures = [*images, difference.marked(images[0], mask)]
    pair.write_beside(given.name, pictures, labels, given.scale)


if __name__ == "__main__":
    command.run(main)
