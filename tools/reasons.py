"""Why a command is refused, in words: the rules of docs/drawing.md ('Clears, frames and refused
commands') and of call lists, each with what it was that broke it.

`Judge` follows one client's context, command by command. `refusals(scene, client)` gives the fault
and the reason of each command that is refused, by its place; `list_refusals` the same of list
commands.
"""
import copy

import scene_faults
import scene_lists
from contexts import BLEND, DEPTH, Context
from scene_bytes import (
    ALL_OPCODES,
    CLEAR,
    CODES,
    END,
    FIELDS,
    name_of,
)

STACKS = ("modelview", "projection")
DECLARED = {"Barrier": "barrier", "SemP": "semaphore", "SemV": "semaphore"}


def where(placed, place):
    """Where a command stands: its line where it has one, else its place."""
    line = getattr(placed, "line", None)
    return f"line {line}" if line else f"command {place}"


def not_declared(noun, number, count):
    have = {0: "there are none", 1: "there is one"}.get(count, f"there are {count}")
    return f"{noun} {number} isn't declared: {have}"


class Judge(scene_faults.Context):
    """A client's context, as far as it decides what is refused, and what its reasons speak of."""

    def __init__(self, scene):
        super().__init__(scene)
        # where the open block began, how the last one ended, and which images were refused
        self.opened, self.before, self.lost = None, "no Begin stands before it", {}

    def copy(self):
        """The same context, which is followed by itself."""
        made = copy.copy(self)
        made.stacks = tuple(list(stack) for stack in self.stacks)
        made.images, made.lost = dict(self.images), dict(self.lost)
        return made

    def issue(self, place, placed):
        """A command's fault and its reason, or None where it is taken."""
        name, numbers = name_of(placed), placed[1]
        fault = self.fault(name, numbers)
        if fault is None:
            self.take(name, numbers)
            if name == "Begin":
                self.opened = where(placed, place)
            elif name == "End":
                self.before = f"the End of {where(placed, place)} has ended the block before"
            elif name == "TexImage":
                self.lost.pop(numbers[0], None)
            return None
        reason = self.reason(fault, name, numbers)
        if name == "Begin" and self.vertices is None:
            self.before = f"the Begin of {where(placed, place)} was refused"
        elif name == "TexImage":
            self.lost.setdefault(numbers[0], where(placed, place))
        return fault, reason

    def judge_recorded(self, name, numbers):
        """Why a command would be refused wherever its list is called, or None."""
        if name in scene_faults.CODES:
            if any(code >= count for code, count in zip(numbers, scene_faults.CODES[name])):
                return wrong_code(name, numbers)
        if name not in ("Vertex", "MultMatrix") and not self.has_values(name, numbers):
            return self.wrong_value(name, numbers)
        return None

    def reason(self, fault, name, numbers):
        """Why a command has this fault, which is the first that it has."""
        if fault == "INVALID_ENUM":
            return wrong_code(name, numbers)
        if fault == "INVALID_OPERATION":
            return self.wrong_place(name, numbers)
        if fault == "STACK_OVERFLOW":
            most = scene_faults.MOST_MATRICES
            return f"the {STACKS[self.mode]} stack has {most} matrices, which is the most"
        if fault == "STACK_UNDERFLOW":
            return f"the {STACKS[self.mode]} stack has one matrix, and none below it"
        if name in ("TexPart", "SharedImage") and self.has_values(name, numbers):
            return self.wrong_part(name, numbers)
        return self.wrong_value(name, numbers)

    def wrong_place(self, name, numbers):
        if self.vertices is not None:
            return (
                f"it stands inside the block that {self.opened} opens, where only Vertex, Color, "
                "TexCoord and End may stand"
            )
        if name in ("Vertex", "End"):
            return f"no block is open: {self.before}"
        lost = self.lost.get(numbers[0])
        more = f": the TexImage of {lost} was refused" if lost else ": it needs a TexImage first"
        return f"texture {numbers[0]} has no image{more}"

    def wrong_part(self, name, numbers):
        texture, x, y, w, h = numbers
        wide, high = (
            self.images[texture] if name == "TexPart" else self.scene.shared[texture - 1]
        )
        if x + w > wide:
            return f"columns {x} to {x + w} aren't inside the texture, which is {wide} wide"
        return f"rows {y} to {y + h} aren't inside the texture, which is {high} high"

    def wrong_value(self, name, n):
        """What isn't in its range."""
        scene = self.scene
        if name == "Vertex":
            return f"a block has at most {scene_faults.MOST_VERTICES} vertices"
        if name == "MultMatrix":
            return "an entry of the product doesn't fit 16.16 fixed point (-32768 to 32768)"
        if name == "Viewport":
            return wrong_viewport(n)
        if name == "Scissor":
            return f"its sides are {n[2]} by {n[3]}, and may not be negative"
        if name == "Clear":
            return f"{n[0]} has other bits than 1 (colour) and 2 (depth)"
        if name in DECLARED:
            all_ = scene.barriers if name == "Barrier" else scene.semaphores
            return not_declared(DECLARED[name], n[0], len(all_))
        if name == "SharedImage" or name == "BindTexture" and n[0] == 1:
            return not_declared("shared texture", n[name == "BindTexture"], len(scene.shared))
        texture = n[1] if name == "BindTexture" else n[0]
        if not 1 <= texture <= scene_faults.MOST_NAMES:
            return f"private textures are 1 to {scene_faults.MOST_NAMES}, and this is {texture}"
        most = scene_faults.LONGEST_SIDE
        if max(n[1:]) > most:
            return f"{n[1]} by {n[2]} is above {most} by {most}"
        return f"{n[1]} by {n[2]} has no texels: sides are 1 to {most}"


def wrong_code(name, numbers):
    """The first field that has none of its codes."""
    fields = FIELDS[name].split()
    counts = scene_faults.CODES[name]
    at = next(at for at, count in enumerate(counts) if numbers[at] >= count)
    names = CODES[name, at][: counts[at]]
    known = ", ".join(f"{number} {code}" for number, code in enumerate(names))
    return f"{fields[at]} {numbers[at]} is none of {known}"


def wrong_viewport(numbers):
    for field, corner in zip("xy", numbers):
        if not -32768 <= corner <= 32767:
            return f"{field} is {corner}: a corner is from -32768 to 32767"
    return f"its sides are {numbers[2]} by {numbers[3]}: each is from 0 to 2048"


def refusals(scene, client):
    """The fault and the reason of each refused command of a client, by its place."""
    judge, found = Judge(scene), {}
    for place, placed in enumerate(scene.streams[client]):
        told = judge.issue(place, placed)
        if told:
            found[place] = told
    return found


# ---- what keeps a scene from `last`


def last_reason(scene, client, place):
    """Why `last` doesn't draw a scene that has this command, by docs/cluster.md ('Sort-first and
    sort-last').
    """
    opcode = scene.streams[client][place][0]
    if opcode == CLEAR:
        which = "of another client than 0" if client else "behind a block of its frame"
        return f"a Clear {which}"
    if opcode != END:
        return f"{name_of(scene.streams[client][place])} orders clients, and each is drawn alone"
    context = Context(scene)
    for placed in scene.streams[client][: place + 1]:
        context.issue(placed)
    values = context.values
    broken = {
        "without the depth test": DEPTH not in context.enabled,
        "whose depth function isn't LESS": values["DepthFunc"] != (1,),
        "that stores no depth": not values["DepthMask"][0],
        "that is blended": BLEND in context.enabled,
        "that leaves a channel out": not all(values["ColorMask"]),
    }
    return next((f"a block {words}" for words, is_so in broken.items() if is_so), "")


# ---- list commands

NEW_LIST, END_LIST = (ALL_OPCODES[name] for name in ("NewList", "EndList"))


def list_reason(placed, recording):
    """Why a list command is refused; `recording` says where a list that is being recorded began."""
    if placed[0] == NEW_LIST and recording:
        return f"the list that {recording} begins is still being recorded"
    if placed[0] == END_LIST:
        return "no list is being recorded"
    return f"lists are 1 to 64, and this is {placed[1][0]}"


def list_refusals(stream):
    """The fault and the reason of each refused list command of a stream, by its place."""
    recording, found = None, {}
    for place, placed in enumerate(stream):
        fault = scene_lists.fault_of(placed, recording is not None)
        if fault:
            found[place] = fault, list_reason(placed, recording)
        elif placed[0] == NEW_LIST:
            recording = where(placed, place)
        elif placed[0] == END_LIST:
            recording = None
    return found
