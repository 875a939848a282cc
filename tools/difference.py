"""In which pixels two images of one size differ: how many these are, where they lie, and a picture
that marks them.
"""
from command import Wrong

MARK = (255, 0, 255)
# How bright the first image stays around the marks.
DIM = 0.4
WEIGHTS = (0.30, 0.59, 0.11)


def judge_sizes(images):
    """Two images of one size."""
    if len(images) != 2 or images[0][:2] != images[1][:2]:
        raise Wrong("not two images of one size")


def mask_of(first, second):
    """A byte for each pixel: 255 where the two differ, else 0."""
    bodies = [int.from_bytes(picture[2], "little") for picture in (first, second)]
    changed = (bodies[0] ^ bodies[1]).to_bytes(len(first[2]), "little")
    channels = [int.from_bytes(changed[at::3], "little") for at in range(3)]
    any_ = (channels[0] | channels[1] | channels[2]).to_bytes(len(first[2]) // 3, "little")
    return any_.translate(b"\0" + b"\xff" * 255)


def box_of(mask, width):
    """Left, top, right and bottom of what differs, from the upper left; None where nothing does."""
    rows = [mask[at : at + width] for at in range(0, len(mask), width)]
    found = [y for y, row in enumerate(rows) if any(row)]
    if not found:
        return None
    left = min(width - len(rows[y].lstrip(b"\0")) for y in found)
    right = max(len(rows[y].rstrip(b"\0")) for y in found)
    return left, found[0], right, found[-1] + 1


def told(mask, width):
    """How many pixels differ, and where they lie."""
    count = mask.count(255)
    if not count:
        return f"0 of {len(mask)} pixels differ"
    left, top, right, bottom = box_of(mask, width)
    return (
        f"{count} of {len(mask)} pixels differ: columns {left} to {right - 1}, "
        f"rows {top} to {bottom - 1} from the top"
    )


def marked(picture, mask):
    """The image in dim grey, and what differs in a colour that no grey has."""
    width, height, rgb = picture
    size = len(mask)
    grey = 0
    for at, weight in enumerate(WEIGHTS):
        table = bytes(int(byte * weight * DIM) for byte in range(256))
        grey += int.from_bytes(rgb[at::3].translate(table), "little")
    chosen, made = int.from_bytes(mask, "little"), bytearray(len(rgb))
    kept = grey & ~chosen
    for at, channel in enumerate(MARK):
        colour = chosen & int.from_bytes(bytes([channel]) * size, "little")
        made[at::3] = (kept | colour).to_bytes(size, "little")
    return width, height, bytes(made)
