"""Display lists: recorded calls, with the vertices between a glBegin and its glEnd as one run."""
import struct

from .limits import DEEPEST_LIST
from .shading import Run
from .texture_calls import as_bytes
from .vertex_calls import TYPES

CURRENT = ("Normal", "Color", "TexCoord")


class Recording:
    """A list's calls so far: a handler with its arguments, or None with a run."""

    def __init__(self, name, mode):
        self.name, self.mode, self.calls = name, mode, []


class List:
    """What a list does where it is drawn, and what it leaves where nothing is."""

    def __init__(self, calls):
        self.calls = with_runs(calls)
        self.undrawn = without_runs(self.calls)
        self.steps = sum(len(arguments.points) if handler is None else 1
                         for handler, arguments in self.calls)


def without_runs(calls):
    """What calls leave where nothing is drawn: of runs that follow one another a run of one
    vertex, which has their last values."""
    kept, left = [], None
    for handler, arguments in calls:
        if handler is None and arguments.of_arrays:
            continue
        if handler is not None:
            kept += [(None, left)] if left else []
            left = None
            kept.append((handler, arguments))
            continue
        before, left = left, Run(arguments.mode)
        left.points = arguments.points[-1:]
        for name in ("normals", "colors", "coordinates"):
            last = getattr(arguments, name)[-1]
            if last is None and before:
                last = getattr(before, name)[-1]
            setattr(left, name, [last])
    return kept + ([(None, left)] if left else [])


def with_runs(calls):
    """The calls with runs in place of vertex calls, where nothing else stands between them."""
    kept, at = [], 0
    while at < len(calls):
        handler, arguments = calls[at]
        if handler is not None and handler.base == "Begin" and len(arguments) == 1:
            run, end = run_from(calls, at)
            if run:
                kept.append((None, run))
                at = end
                continue
        kept.append(calls[at])
        at += 1
    return kept


def run_from(calls, at):
    """The run that begins here and the place behind its end; None where another call is in it."""
    run, current = Run(calls[at][1][0]), {name: None for name in CURRENT}
    for i in range(at + 1, len(calls)):
        handler, arguments = calls[i]
        base = handler.base if handler else None
        if base == "Vertex" and 2 <= len(arguments) <= 4:
            run.points.append((*arguments, *(0.0, 1.0)[len(arguments) - 2:]))
            run.normals.append(current["Normal"])
            run.colors.append(current["Color"])
            run.coordinates.append(current["TexCoord"])
        elif base in current:
            current[base] = CURRENT_MADE[base](*arguments)
        elif base == "End":
            return (run, i + 1) if run.points and unchanged(run, current) else (None, at)
        else:
            break
    return None, at


def unchanged(run, current):
    """Whether a run's last vertex has the values that are current behind it."""
    last = run.normals[-1], run.colors[-1], run.coordinates[-1]
    return all(value is current[name] for name, value in zip(CURRENT, last))


CURRENT_MADE = {"Normal": lambda x, y, z: (x, y, z),
                "Color": lambda r, g, b, a=1.0: (r, g, b, a),
                "TexCoord": lambda s, t=0.0, r=0.0, q=1.0: (s, t, r, q)}


class ListCalls:
    """What a machine does at calls of lists."""

    def begin_lists(self):
        self.lists, self.recording, self.depth = {}, None, 0

    def record(self, handler, arguments):
        self.recording.calls.append((handler, arguments))

    def do_NewList(self, name, mode):
        if self.recording is None:
            self.recording = Recording(name, mode)

    def do_EndList(self):
        if self.recording is not None:
            self.lists[self.recording.name] = List(self.recording.calls)
            self.recording = None

    def do_CallList(self, name):
        found = self.lists.get(name)
        if found is None or self.depth >= DEEPEST_LIST:
            return
        self.depth += 1
        calls = found.calls if self.wanted else found.undrawn
        self.step(found.steps + 1 if self.wanted else len(calls))
        for handler, arguments in calls:
            if handler is None:
                self.draw_run(arguments)
            else:
                if handler.changes:
                    self.setting = None
                handler.method(*arguments)
        self.depth -= 1

    def do_CallLists(self, count, kind, names):
        data = as_bytes(names)
        if data is not None and kind in TYPES:
            names = struct.unpack_from(f"<{count}{TYPES[kind]}", data)
        elif data is not None:
            self.notes.left_out(f"glCallLists({kind})")
            return
        for name in names[:count]:
            self.do_CallList(self.values["list_base"] + name)

    def do_ListBase(self, base):
        self.values["list_base"] = int(base)

    def do_DeleteLists(self, first, count):
        if count > len(self.lists):
            self.lists = {name: made for name, made in self.lists.items()
                          if not first <= name < first + count}
            return
        for name in range(first, first + count):
            self.lists.pop(name, None)
