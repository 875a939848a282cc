"""The part of try_tools.py for png.py, tiles.py, pair.py and layers.py: their files are read by
png_reader.py, and pictures of docs/ that they made are made again.
"""
import random
import resource
import subprocess
import sys

import png_reader
from tool_calls import (
    DOCS,
    EXAMPLES,
    body,
    check,
    drawn,
    image,
    packed,
    picture,
    refuses,
    run,
    same,
)

READING = ("png.py", "tiles.py", "pair.py", "layers.py", "page.py")


def pixels_of(path):
    return png_reader.read(path.read_bytes())[0]


def wrong_images():
    """What is no image, or not a whole one."""
    sound = image(4, 2)
    return {
        "no input": b"",
        "a scene's bytes": (EXAMPLES / "red.rcs").read_bytes(),
        "P6 alone": b"P6",
        "a cut header": b"P6\n4 2",
        "a cut image": sound[:-1],
        "half an image": sound[:14],
        "a second image that is cut": sound + sound[:-4],
        "a byte more": sound + b"x",
        "a comment": sound.replace(b"P6\n", b"P6\n# by hand\n"),
        "another depth": sound.replace(b"255", b"127"),
        "P5": sound.replace(b"P6", b"P5"),
        "no pixels": b"P6\n0 2\n255\n",
        "huge sides": b"P6\n99999 99999\n255\n",
        "random bytes": random.Random(3).randbytes(5000),
    }


def try_wrong_images(calls, folder):
    """Each tool that reads images is given none, cut ones, and what is no image."""
    for name in READING:
        for what, data in wrong_images().items():
            # images before the wrong one may have been written
            status, _, err = run(name, *calls[name], data=data, cwd=folder)
            is_one = len(err) == 1 and err[0].startswith(f"{name}: ")
            check(f"{name}: {what}", status == 1 and is_one, (status, err))


def try_png(folder):
    pick = random.Random(5)
    smooth = bytes(n & 255 for y in range(60) for x in range(80) for n in (2 * x, 3 * y, x + y))
    pictures = {
        "random": (7, 5, pick.randbytes(105)),
        "smooth": (80, 60, smooth),
        "one pixel": (1, 1, b"abc"),
        "a column": (1, 40, pick.randbytes(120)),
        "blank": (64, 200, bytes(3 * 64 * 200)),
    }
    for what, made in pictures.items():
        got = run("png.py", "made", data=picture(*made), cwd=folder)
        same(f"png.py: {what}", got, (0, b"made.png\n", []))
        read = png_reader.read((folder / "made.png").read_bytes())
        same(f"png.py: {what}, read again", read, ([made], []))


def try_several(folder):
    several = [image(9, 4, seed) for seed in range(3)]
    whole = b"".join(several)
    names = b"more-1.png\nmore-2.png\nmore-3.png\n"
    same("png.py: names of several", run("png.py", "more", data=whole, cwd=folder)[1], names)
    for number, data in enumerate(several, 1):
        read = pixels_of(folder / f"more-{number}.png")
        same(f"png.py: image {number}", read, [(9, 4, body(data, 9, 4))])
    words = ["moving", "--apng", "--fps", "8"]
    got = run("png.py", *words, data=whole, cwd=folder)[1]
    same("png.py: the name of a moving one", got, b"moving.png\n")
    images, delays = png_reader.read((folder / "moving.png").read_bytes())
    same("png.py: images of a moving one", images, [(9, 4, body(data, 9, 4)) for data in several])
    same("png.py: its delays", delays, [(1, 8)] * 3)
    run("png.py", "moving", "--apng", "--fps", "23.976", data=whole, cwd=folder)
    delays = png_reader.read((folder / "moving.png").read_bytes())[1]
    # 23.976 is 2997 / 125
    same("png.py: delays of a rate that isn't whole", delays, [(125, 2997)] * 3)
    for what, more in {"a cut one": several[1][:-1], "sizes that differ": image(4, 9)}.items():
        refuses(what, 1, "png.py", "broken", "--apng", data=several[0] + more, cwd=folder)
        check(f"png.py: nothing is left of {what}", not (folder / "broken.png").exists())
    version = subprocess.run(["sh", "-c", "convert -version"], capture_output=True, check=False)
    if version.stdout.startswith(b"Version: ImageMagick"):
        words = ["convert", str(folder / "more-2.png"), "-depth", "8", "rgb:-"]
        other = subprocess.run(words, capture_output=True, check=False).stdout
        same("png.py: as ImageMagick reads it", other, body(several[1], 9, 4))


def try_speed(folder):
    """A frame of 1024 by 768, the start of Python included."""
    both = ((x, y) for y in range(768) for x in range(1024))
    smooth = bytes(n & 255 for x, y in both for n in (x // 4, y // 3, (x + y) // 7))
    for what, rgb in (("smooth", smooth), ("random", random.Random(7).randbytes(len(smooth)))):
        before = resource.getrusage(resource.RUSAGE_CHILDREN).ru_utime
        status = run("png.py", "large", data=picture(1024, 768, rgb), cwd=folder)[0]
        spent = resource.getrusage(resource.RUSAGE_CHILDREN).ru_utime - before
        print(f"png.py: a {what} frame of 1024 by 768 took {spent:.2f} s of a processor")
        check(f"png.py: a {what} frame within 0.4 s", status == 0 and spent < 0.4, spent)


def tile_of(rgb, size, cut, tile):
    """The image of a tile, pixel by pixel as docs/cluster.md cuts the window."""
    (width, height), (columns, rows) = size, cut
    column, row = tile % columns, tile // columns
    left, right = column * width // columns, (column + 1) * width // columns
    bottom, top = row * height // rows, (row + 1) * height // rows
    made = b""
    for y in range(top - 1, bottom - 1, -1):
        for x in range(left, right):
            made += rgb[3 * ((height - 1 - y) * width + x) :][:3]
    return picture(right - left, top - bottom, made)


def try_each(folder):
    """The parts of two frames of 11 by 7 in 3 by 2 tiles."""
    frames = [image(11, 7, seed) for seed in (11, 12)]
    status, out, err = run("tiles.py", "wall", "3x2", "--each", data=b"".join(frames), cwd=folder)
    names = [f"wall-tile-{tile}.ppm" for tile in range(6)]
    same("tiles.py: names of --each", (status, out.decode().split(), err), (0, names, []))
    for tile, name in enumerate(names):
        due = b"".join(tile_of(body(frame, 11, 7), (11, 7), (3, 2), tile) for frame in frames)
        same(f"tiles.py: pixels of tile {tile}", (folder / name).read_bytes(), due)
        (folder / name).unlink()
    words = ["wall", "8x1", "--each"]
    refuses("tiles for a smaller window", 1, "tiles.py", *words, data=image(4, 2), cwd=folder)


def try_tiles(folder):
    words = ["made", "2x2", "notes.txt"]
    refuses("notes of other tiles", 1, "tiles.py", *words, data=image(4, 2), cwd=folder)
    frame = image(40, 20)
    got = run("tiles.py", "made", "2x1", "notes.txt", data=frame, cwd=folder)[:2]
    same("tiles.py: the name", got, (0, b"made.png\n"))
    ((_, _, tinted),) = pixels_of(folder / "made.png")
    # the corner of tile 0 is moved by 0.8 to its colour, the hue 0 at 0.75: 255, 63, 63
    corner = body(frame, 40, 20)[-3 * 40 :][:3]
    due = [byte + int((channel - byte) * 0.8) for byte, channel in zip(corner, (255, 63, 63))]
    same("tiles.py: the border of tile 0", list(tinted[-3 * 40 :][:3]), due)


def try_pair(folder):
    left, right = image(30, 20, 1), image(30, 20, 2)
    refuses("one image", 1, "pair.py", "made", data=left, cwd=folder)
    refuses("sizes that differ", 1, "pair.py", "made", data=left + image(20, 30), cwd=folder)
    words = ["made", "--left", "", "--right", "", "--scale", "2"]
    got = run("pair.py", *words, data=left + right, cwd=folder)[:2]
    same("pair.py: the name", got, (0, b"made.png\n"))
    ((width, height, rgb),) = pixels_of(folder / "made.png")
    same("pair.py: its size", (width, height), (2 * 60 + 8, 40))
    bodies = body(left, 30, 20), body(right, 30, 20)
    for x, y in ((0, 0), (59, 39), (31, 7), (62, 3), (68, 0), (127, 39), (99, 17)):
        part, column = (0, x) if x < 60 else (1, x - 68)
        due = bodies[part][3 * (y // 2 * 30 + column // 2) :][:3]
        due = b"\xff" * 3 if 60 <= x < 68 else due
        same(f"pair.py: pixel {x} {y}", rgb[3 * (y * width + x) :][:3], due)


def try_layers(folder):
    text = (EXAMPLES / "barrier.txt").read_bytes()
    status, out, _ = run("layers.py", "client", "1", data=text)
    lines = out.decode().splitlines()
    counts = [lines.count(line) for line in ("Begin 1", "Begin 0", "client", "Swap")]
    same("layers.py: the blocks of client 1", (status, counts), (0, [2, 1, 2, 2]))
    refuses("a client that isn't there", 1, "layers.py", "client", "5", data=text)
    refuses("no text", 1, "layers.py", "client", "0")
    refuses("one image", 1, "layers.py", "made", data=image(4, 2), cwd=folder)


def halves(picture_, count, gap=8):
    """The images that stand beside each other in a picture."""
    width, height, rgb = picture_
    part = (width + gap) // count - gap
    for number in range(count):
        at = 3 * number * (part + gap)
        rows = (rgb[3 * width * y + at :][: 3 * part] for y in range(height))
        yield picture(part, height, b"".join(rows))


def try_from_pictures(folder):
    """What stands beside each other in docs/ is parted, and put together again: the labels come
    to where they are. And the sunset is tinted and lettered, with the parcels of its boxes.
    """
    for name, stem, count in (("pair.py", "road", 2), ("layers.py", "layers", 3)):
        parts = b"".join(halves(pixels_of(DOCS / f"{stem}.png")[0], count))
        make_again(name, parts, folder, stem)
    parcels = (4, 6, 11, 8, 7, 8, 11, 10, 5, 5, 5, 5)
    lines = [f"tile {tile} parcels {sent} sets 1 looks 0" for tile, sent in enumerate(parcels)]
    (folder / "told.txt").write_text("\n".join(lines))
    sunset = picture(*pixels_of(DOCS / "sunset.png")[0])
    make_again("tiles.py", sunset, folder, "cluster", "4x3", "told.txt")


def make_again(name, data, folder, *words):
    """A picture of docs/ has to come out pixel for pixel."""
    stem = words[0]
    run(name, *words, data=data, cwd=folder)
    made = folder / f"{stem}.png"
    got = pixels_of(made) if made.exists() else None
    same(f"{name}: docs/{stem}.png", got, pixels_of(DOCS / f"{stem}.png"))


def try_pictures(folder):
    """Pictures of docs/ that the tools made are made again, by the program's images."""
    frames, notes = drawn((EXAMPLES / "sunset.rcs").read_bytes(), "render", "--tiles", "4x3")
    (folder / "told.txt").write_text(notes)
    make_again("tiles.py", frames, folder, "cluster", "4x3", "told.txt")
    make_again("png.py", frames, folder, "sunset")
    words = [sys.executable, str(EXAMPLES / "make.py"), "road", "1"]
    first = packed(subprocess.run(words, capture_output=True, check=True).stdout)
    second = (EXAMPLES / "road.rcs").read_bytes()
    make_again("pair.py", drawn(first, "render")[0] + drawn(second, "render")[0], folder, "road")
    layers = b""
    for client in ("0", "1"):
        text = run("layers.py", "client", client, data=(EXAMPLES / "links.txt").read_bytes())[1]
        layers += drawn(packed(text), "serial")[0]
    layers += drawn((EXAMPLES / "links.rcs").read_bytes(), "last")[0]
    make_again("layers.py", layers, folder, "layers")


def try_all(calls, folder):
    try_wrong_images(calls, folder)
    try_png(folder)
    try_several(folder)
    try_speed(folder)
    try_each(folder)
    try_tiles(folder)
    try_pair(folder)
    try_layers(folder)
    try_from_pictures(folder)
