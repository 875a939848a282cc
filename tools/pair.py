#!/usr/bin/env python3
"""Shows two images of one size side by side, each with a label.

    render < first.rcs > both.ppm
    render < second.rcs >> both.ppm
    python3 tools/pair.py NAME < both.ppm         NAME.png, labelled `version 1` and `version 2`
    python3 tools/pair.py NAME --scale 4 --left "with the barrier" --right "without it" < both.ppm
    python3 tools/pair.py NAME --difference < both.ppm
        beside them a third one, in which the pixels that differ are marked; their number is told

`--scale N` draws each pixel as a square of N pixels a side. A label of no letters isn't written.
"""
import command
import difference
import letters
import png
import ppm

MOST_PIXELS = 2**26


def judge_scale(width, height, scale):
    """The picture has room."""
    if width * height * scale**2 > MOST_PIXELS:
        raise command.Wrong("the picture would be too large: take a smaller --scale")


def write_beside(name, images, labels, scale):
    """Images of one size beside each other, each with its label, as NAME.png."""
    images = [ppm.scaled(picture, scale) for picture in images]
    width, height, rgb = ppm.beside(images)
    whole = width, height, bytearray(rgb)
    for number, label in enumerate(labels):
        letters.write_label(whole, number * (images[0][0] + 8) + 8, 8, label, 2)
    path = f"{name}.png"
    command.write_file(path, png.png(width, height, bytes(whole[2])))
    print(path)


def main():
    words = command.Words(__doc__)
    words.add_argument("name", type=command.file_name, help="the file's name without .png")
    words.add_argument(
        "--scale", type=command.number_in(1, 16), default=1, help="how large a pixel is drawn (1)"
    )
    words.add_argument(
        "--left", default="version 1", help="the label of the first image (version 1)"
    )
    words.add_argument(
        "--right", default="version 2", help="the label of the second image (version 2)"
    )
    words.add_argument("--difference", action="store_true", help="mark the pixels that differ")
    given = words.parse_args()
    images = list(ppm.frames(command.standard_input()))
    difference.judge_sizes(images)
    judge_scale(*images[0][:2], given.scale)
    labels = [given.left, given.right]
    if given.difference:
        mask = difference.mask_of(*images)
        print(difference.told(mask, images[0][0]))
        images.append(difference.marked(images[0], mask))
        labels.append(f"{mask.count(255)} pixels")
    write_beside(given.name, images, labels, given.scale)


if __name__ == "__main__":
    command.run(main)
