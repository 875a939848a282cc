#!/usr/bin/env python3
"""Shows what the clients of a scene draw apart, and all of it put together by depth.

    python3 tools/layers.py client N < scene.txt > layer.txt
        the scene with client N's blocks alone, without Clears
    python3 tools/layers.py NAME < images.ppm
        NAME.png: the layers of all clients in turn, and last the whole, side by side
"""
import sys

import command
import letters
import png
import ppm

GAP = 8


def alone(lines, client):
    """The lines of a scene's text without the blocks of the other clients and without Clears."""
    now, inside = -1, False
    for line in lines:
        word = line.split()[0] if line.split() else b""
        if word == b"client":
            now += 1
        inside = inside or word == b"Begin"
        if word != b"Clear" and not (inside and now != client):
            yield line
        inside = inside and word != b"End"
    if client > now:
        raise command.Wrong(f"the text has {now + 1} clients, and none of number {client}")


def write_layers(name):
    """The images beside each other, each with its label."""
    images = list(ppm.frames(command.standard_input()))
    if len(images) < 2 or any(picture[:2] != images[0][:2] for picture in images):
        raise command.Wrong("not two images or more of one size")
    width, height, rgb = ppm.beside(images, GAP)
    whole = width, height, bytearray(rgb)
    for number in range(len(images)):
        label = f"client {number}" if number < len(images) - 1 else "all clients"
        letters.write_label(whole, number * (images[0][0] + GAP) + 8, 8, label, 2)
    command.write_file(f"{name}.png", png.png(width, height, bytes(whole[2])))
    print(f"{name}.png")


def main():
    words = command.Words(__doc__)
    words.add_argument(
        "name",
        type=command.file_name,
        help="the picture's name without .png; or the word `client`",
    )
    words.add_argument(
        "client",
        nargs="?",
        type=command.number_in(0, 7),
        metavar="N",
        help="behind `client`: its number",
    )
    given = words.parse_args()
    if given.client is None and given.name != "client":
        write_layers(given.name)
    elif given.client is None or given.name != "client":
        words.error("`client N`, or a NAME alone")
    else:
        lines = command.read_input().splitlines(keepends=True)
        if not any(line.split()[:1] == [b"scene"] for line in lines):
            raise command.Wrong("this is no scene's text")
        sys.stdout.buffer.writelines(list(alone(lines, given.client)))


if __name__ == "__main__":
    command.run(main)
