"""Prints how long captured scenes of real programs take: ratios of one run, the least of five.

    real_programs.py [PROGRAM [MESA]] [SCENE.rcs ..]

Without scenes these are the captured ones of examples/ (docs/real-programs.md). Each is drawn by
`serial`, by `render --tiles 4x3`, and by Mesa's llvmpipe and softpipe where MESA, mesa.c compiled,
is given; run.sh gives both. Mesa draws one client's commands, so it is given the scene of one
client that draws the same: call lists expanded, and the clients' commands between two barriers one
client after the other. Milliseconds by the clock of whole runs, reading and writing included; the
runs take turns, since clocks vary.
"""
import os
import pathlib
import subprocess
import sys
import tempfile
import time

sys.path.append(str(pathlib.Path(__file__).resolve().parents[2] / "tools"))

import scene_faults
import scene_forms
import scene_lists
from command import Words
from command_table import CAPABILITIES, first_values
from program import EXAMPLES, built

CAPTURED = ("glxgears", "cityflow", "voronoi", "programs")
TIMES = 5
MEETING = tuple(scene_forms.OPCODES[name] for name in ("Barrier", "Swap"))
ENABLE, DISABLE, TEX_IMAGE = (scene_forms.OPCODES[name] for name in (
    "Enable", "Disable", "TexImage"))


class State:
    """What a client has set so far outside of blocks. A client's commands go on under its own
    state, so where clients take turns in one stream each has to set the state anew."""

    def __init__(self, scene):
        first = first_values(scene.width, scene.height)
        self.values = {scene_forms.OPCODES[name]: numbers for name, numbers in first.items()
                       if name not in scene_faults.IN_BLOCKS}
        self.switches, self.images = dict.fromkeys(range(len(CAPABILITIES.split())), False), {}

    def take(self, command):
        opcode, numbers, _ = command
        if opcode in self.values:
            self.values[opcode] = numbers
        elif opcode in (ENABLE, DISABLE):
            self.switches[numbers[0]] = opcode == ENABLE
        elif opcode == TEX_IMAGE:
            self.images[numbers[0]] = command

    def since(self, other):
        """The commands that bring what another client left to this state."""
        commands = [image for name, image in self.images.items() if other.images.get(name) != image]
        commands += [(opcode, numbers, b"") for opcode, numbers in self.values.items()
                     if other.values[opcode] != numbers]
        commands += [(ENABLE if on else DISABLE, (name,), b"")
                     for name, on in self.switches.items() if other.switches[name] != on]
        return commands


def rounds(stream):
    """A stream's commands up to each barrier and swap, and that command."""
    found = [[]]
    for command in stream:
        if command[0] in MEETING:
            yield found[-1], command
            found.append([])
        else:
            found[-1].append(command)
    yield found[-1], None


def of_one_client(scene):
    """The same frames as one client draws them, for scenes whose clients meet in rounds and draw
    with the identity as their matrices, as captured scenes do."""
    commands, states = [], [State(scene) for _ in scene.streams]
    before = None
    for parts in zip(*map(rounds, scene.streams)):
        for state, (part, _) in zip(states, parts):
            if before is not None and before is not state and part:
                commands += state.since(before)
            for command in part:
                state.take(command)
            commands += part
            before = state if part else before
        mark = parts[0][1]
        if mark is not None and mark[0] == scene_forms.OPCODES["Swap"]:
            commands.append(mark)
    return scene_forms.Scene(scene.width, scene.height, [], [], [], [commands], 1)


def least(runs):
    """The least milliseconds of each of these runs, a command, its input and its environment."""
    found = [float("inf")] * len(runs)
    for _ in range(TIMES):
        for number, (command, path, environment) in enumerate(runs):
            with open(path, "rb") as source:
                begun = time.perf_counter()
                done = subprocess.run(command, stdin=source, stdout=subprocess.DEVNULL,
                                      stderr=subprocess.DEVNULL, env=environment)
                found[number] = min(found[number], 1000 * (time.perf_counter() - begun))
            if done.returncode:
                sys.exit(f"real_programs.py: {' '.join(command)} ends with {done.returncode}")
    return found


def drawn(program, path):
    """The frames that `serial` draws."""
    with open(path, "rb") as source:
        return subprocess.run([program, "serial"], stdin=source, stdout=subprocess.PIPE,
                              stderr=subprocess.DEVNULL).stdout


def row(path, program, mesa, work):
    """A line of the table."""
    scene, _ = scene_lists.read(path.read_bytes())
    commands = sum(map(len, scene.streams))
    alone = pathlib.Path(work, path.name)
    alone.write_bytes(scene_forms.scene_bytes(of_one_client(scene)))
    if drawn(program, path) != drawn(program, alone):
        sys.exit(f"real_programs.py: {path.name} and its scene of one client differ")
    runs = [([program, "serial"], path, None), ([program, "render", "--tiles", "4x3"], path, None)]
    if mesa:
        runs += [([mesa], alone, dict(os.environ, GALLIUM_DRIVER=driver))
                 for driver in ("llvmpipe", "softpipe")]
    serial, render, *peers = least(runs)
    told = [f"{peer / serial:.2f}" for peer in peers] or ["-", "-"]
    return (path.stem, len(scene.streams), scene.frames(), commands, path.stat().st_size,
            f"{serial:.1f}", f"{render / serial:.2f}", *told)


def words():
    """The program and that of Mesa, each None where it isn't named, and the scenes."""
    parser = Words(__doc__)
    parser.add_argument("program", metavar="PROGRAM", nargs="?",
                        help="the built program (crates/render_cli/out/render_cli)")
    parser.add_argument("mesa", metavar="MESA", nargs="?",
                        help="mesa.c compiled; where it isn't there, its columns are empty")
    parser.add_argument("scenes", metavar="SCENE.rcs", nargs="*", help="the captured of examples/")
    args = parser.parse_args()
    given = [word for word in (args.program, args.mesa, *args.scenes) if word is not None]
    scenes = [word for word in given if word.endswith(".rcs")]
    programs = [word for word in given if not word.endswith(".rcs")]
    if len(programs) > 2:
        parser.error(f"{programs[2]} is no scene, whose name ends with .rcs")
    for scene in scenes:
        if not os.path.isfile(scene):
            parser.error(f"there is no scene {scene}")
    return *programs, *[None] * (2 - len(programs)), scenes


def main():
    program, mesa, scenes = words()
    program = built(program)
    mesa = mesa if mesa and os.path.exists(mesa) else None
    paths = scenes or [EXAMPLES / f"{name}.rcs" for name in CAPTURED]
    head = ("scene", "clients", "frames", "commands", "bytes", "serial ms", "render 4x3 : serial",
            "llvmpipe : serial", "softpipe : serial")
    print("| " + " | ".join(head) + " |\n" + "|---" * len(head) + "|")
    with tempfile.TemporaryDirectory() as work:
        for path in map(pathlib.Path, paths):
            cells = map(str, row(path, program, mesa, work))
            print("| " + " | ".join(cells) + " |", flush=True)


if __name__ == "__main__":
    main()
