"""What the clients of a scene send to which tile: the boxes of drawings, by docs/cluster.md
('Boxes', 'Parcels').

The boxes are those of scene_boxes.py. What was refused is told by the notes, and is left out here.
"""
import scene_bytes
from command import Wrong
import scene_boxes as boxes
from scene_bytes import BARRIER, CLEAR, END, GIVE, SHARED_IMAGE, SWAP, TAKE, name_of

OPERATIONS = (BARRIER, TAKE, GIVE, SWAP)
# Boxes of more vertices aren't computed.
MOST_VERTICES = 300_000


class Drawing:
    """A block, a Clear or a write of a shared texture, with its box: left, bottom, right, top, or
    None for no pixel.
    """

    def __init__(self, client, place, kind, what, box, lines):
        self.client, self.place, self.kind, self.what, self.box, self.lines = (
            client,
            place,
            kind,
            what,
            box,
            lines,
        )


def block_box(context, version, block):
    """The pixels that a block may touch, as its client computes them."""
    shape, vertices = block
    if version > 1:
        return context.over(shape, vertices)[0]
    clip = [
        boxes.applied(context.matrices[1][-1], boxes.applied(context.matrices[0][-1], v))
        for v in vertices
    ]
    places = []
    for triple in boxes.triangles(shape, len(vertices)):
        corners = [context.place(clip[at]) for at in triple]
        if None not in corners and context.is_shown(corners):
            places += corners
    if not places:
        return None
    xs, ys = [x for x, _ in places], [y for _, y in places]
    return context.visible(((min(xs), max(xs)), (min(ys), max(ys))))


def cut_to(window, box):
    """The part of a box in the window, or None where no pixel is left."""
    if box is None:
        return None
    left, bottom, right, top = (
        max(box[0], 0),
        max(box[1], 0),
        min(box[2], window[0]),
        min(box[3], window[1]),
    )
    return (left, bottom, right, top) if left < right and bottom < top else None


def lines_of(placed, first=None):
    """The lines of a command, or of a block from its Begin on, where they are known."""
    line, start = getattr(placed, "line", None), getattr(first, "line", None)
    return (start or line, line) if line else None


def client_drawings(scene, client, refused, with_boxes):
    """What one client draws, in the order of its stream; without boxes each box is the window."""
    context, window = boxes.Context(scene.width, scene.height), (scene.width, scene.height)
    whole, begun = (0, 0, *window), None
    for place, placed in enumerate(scene.streams[client]):
        if (client, place) in refused:
            continue
        name, numbers = name_of(placed), placed[1]
        begun = placed if name == "Begin" else begun
        block = context.issue(name, numbers)
        if placed[0] == END:
            box = block_box(context, scene.version, block) if with_boxes else whole
            what = f"{scene_bytes.told(begun)} .. End, {len(block[1])} vertices"
            yield Drawing(
                client, place, "block", what, cut_to(window, box), lines_of(placed, begun)
            )
        elif placed[0] == CLEAR:
            x, y, wide, high = context.values["Scissor"] if context.scissor_on else (0, 0, *window)
            box = cut_to(window, (x, y, x + wide, y + high))
            yield Drawing(client, place, "clear", scene_bytes.told(placed), box, lines_of(placed))
        elif placed[0] == SHARED_IMAGE:
            yield Drawing(
                client, place, "shared", scene_bytes.told(placed), whole, lines_of(placed)
            )


def drawings(scene, refused):
    """All drawings by their client and place, and whether their boxes were computed."""
    vertices = sum(name_of(placed) == "Vertex" for stream in scene.streams for placed in stream)
    with_boxes = vertices <= MOST_VERTICES
    try:
        made = [
            drawing
            for client in range(len(scene.streams))
            for drawing in client_drawings(scene, client, refused, with_boxes)
        ]
    except (IndexError, TypeError, ZeroDivisionError):
        raise Wrong(
            "the notes aren't those of this scene: they don't tell the commands that it has refused"
        ) from None
    return {(drawing.client, drawing.place): drawing for drawing in made}, with_boxes


def is_sent(drawing, rectangle):
    """Whether a tile, of these pixels from the bottom, gets a drawing."""
    if drawing.kind == "shared":
        return True
    left, bottom, right, top = drawing.box or (0, 0, 0, 0)
    return max(left, rectangle[0]) < min(right, rectangle[2]) and max(bottom, rectangle[1]) < min(
        top, rectangle[3]
    )


def parcels(scene, refused, made, rectangle):
    """How many parcels the clients send to a tile, the `End` of each among them."""
    operations = sum(
        placed[0] in OPERATIONS and (client, place) not in refused
        for client, stream in enumerate(scene.streams)
        for place, placed in enumerate(stream)
    )
    return (
        operations
        + len(scene.streams)
        + sum(is_sent(drawing, rectangle) for drawing in made.values())
    )
