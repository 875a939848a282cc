"""What stands in the window at the beginning of each frame, along the default order: whether it is
one colour and one depth, and from which frame on it has to be drawn so that a later one is right.
"""
from contexts import DEPTH, Context, write_part
from scene_bytes import CLEAR, END, SHARED_IMAGE

COLOR_BIT, DEPTH_BIT = 1, 2
# What the window has at first, as a Clear would say it.
FIRST = (0, 0, 0, 0), (65536,)


class Drawing:
    """What a drawing does to the window: which planes it clears as a whole, and whether it tests or
    stores depth.
    """

    def __init__(self, command, context):
        values = context.values
        self.is_clear = command[0] == CLEAR
        self.tests = self.stores = False
        self.color = self.depth = None
        self.spoils_color = not self.is_clear
        if self.is_clear:
            mask, is_whole = command[1][0], context.is_whole()
            has_color, has_depth = mask & COLOR_BIT, mask & DEPTH_BIT and values["DepthMask"][0]
            if has_color and is_whole and all(values["ColorMask"]):
                self.color = values["ClearColor"]
            elif has_color:
                self.spoils_color = True
            if has_depth and is_whole:
                self.depth = values["ClearDepth"]
            elif has_depth:
                self.stores = True
        elif DEPTH in context.enabled:
            self.tests, self.stores = True, bool(values["DepthMask"][0])


def drawings_of(scene, refused, ends):
    """By client and place each drawing of the streams up to their ends."""
    made = {}
    for client, end in enumerate(ends):
        context = Context(scene)
        for place, command in enumerate(scene.streams[client][:end]):
            if place in refused[client]:
                continue
            context.issue(command)
            if command[0] in (CLEAR, END):
                made[client, place] = Drawing(command, context)
    return made


class Window:
    """What stands in the window, drawing by drawing, where it is one colour and one depth."""

    def __init__(self):
        self.color, self.depth = FIRST

    def draw(self, drawing):
        if drawing.spoils_color:
            self.color = None
        if drawing.stores:
            self.depth = None
        self.color = drawing.color or self.color
        self.depth = drawing.depth or self.depth


def behind(drawings, stale):
    """Which of colour and depth depend on what stood before some drawings, where these did."""
    color, depth = stale
    for drawing in drawings:
        color = color or drawing.tests and depth
        color = color and drawing.color is None
        depth = depth and drawing.depth is None
    return color, depth


STATES = [(False, False), (True, False), (False, True), (True, True)]


def first_frame(frames, first):
    """From which frame on what is drawn has to be drawn so that the images from `first` on are
    right; and the colour and the depth that stand before it, None for what doesn't matter.

    `frames` has the drawings of each frame, the last of which is the last one that is shown.
    """
    windows, window = [], Window()
    for drawings in frames[: first + 1]:
        windows.append((window.color, window.depth))
        for drawing in drawings:
            window.draw(drawing)
    # of each frame what may be unknown before it
    right = set(STATES)
    for number in range(len(frames) - 1, -1, -1):
        right = {
            state
            for state in STATES
            if (after := behind(frames[number], state)) in right
            and not (number >= first and after[0])
        }
        if number > first:
            continue
        color, depth = windows[number]
        known = (color is None, depth is None)
        if known in right:
            # what is known and needn't be is left out
            unknown = max(
                (state for state in right if state[0] >= known[0] and state[1] >= known[1]),
                key=sum,
            )
            return number, None if unknown[0] else color, None if unknown[1] else depth
    raise AssertionError("the window is known before the first frame")


def shared_textures(scene, names):
    """What the shared textures hold behind some drawings, of those that were written."""
    held = {}
    for client, place in names:
        command = scene.streams[client][place]
        if command[0] == SHARED_IMAGE:
            name, *numbers = command[1]
            w, h = scene.shared[name - 1]
            write_part(held.setdefault(name, bytearray(4 * w * h)), w, numbers, command[2])
    return held
