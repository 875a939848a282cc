"""Runs the program on the scenes of scenes.py and prints processor seconds, memory and ratios. run.sh calls it.

    measure.py PROGRAM SCENES FOLDER

SCENES is scenes.py, whose scenes go into the folder; where it has `mesa`, which is mesa.c compiled, Mesa draws them too.

Drawing is that of `serial`; what the stepped cluster takes is `simulate` to that, and what the cluster on threads takes is `render` to both, by the clock
and in processor seconds. What reading takes is measured on the same scene with a width of 0, which is refused after it was read; drawing is the scene without swaps less that,
and writing what the swaps add. Mesa prints its own seconds of drawing, those of all its threads together. Processor seconds are user and system time, so that
what else the machine does counts little.

Where BEFORE names a program that was built earlier, reading and drawing of scenes without lists and filters are compared with it.
"""
import os
import pathlib
import subprocess
import sys
import time

sys.path.append(str(pathlib.Path(__file__).resolve().parents[2] / "tools"))

from command import Words
from program import built

PIXELS = 1024 * 768


def words():
    """The program, the script that makes scenes, and the folder that they go into."""
    parser = Words(__doc__)
    parser.add_argument("program", metavar="PROGRAM", help="the built program")
    parser.add_argument("scenes", metavar="SCENES", help="scenes.py")
    parser.add_argument("work", metavar="FOLDER", help="where scenes are made, and where `mesa` is, if it is anywhere")
    args = parser.parse_args()
    if not os.path.isfile(args.scenes):
        parser.error(f"there is no script {args.scenes}")
    if not os.path.isdir(args.work):
        parser.error(f"there is no folder {args.work}")
    return built(args.program), args.scenes, args.work


def path(*words):
    """The scene of these words, made once; the word `unread` stands for a width of 0."""
    name = os.path.join(work, "-".join(words) + ".rcs")
    if not os.path.exists(name):
        made = subprocess.run([sys.executable, scenes, *[w for w in words if w != "unread"]], check=True, stdout=subprocess.PIPE).stdout
        if "unread" in words:
            made = made[:4] + b"\0\0" + made[6:]
        with open(name, "wb") as file:
            file.write(made)
    return name


def run(words, scene, output=os.devnull):
    """The best of three runs of the program with these words."""
    return best_of([program, *words.split()], scene, output)


def best_of(command, scene, output=os.devnull):
    """The best of three runs: processor seconds, the most memory that the program held, in MB, and its status."""
    best = None
    for _ in range(3):
        with open(scene, "rb") as source, open(output, "wb") as image:
            child = subprocess.Popen(command, stdin=source, stdout=image, stderr=subprocess.DEVNULL)
            _, status, usage = os.wait4(child.pid, 0)
            seconds = usage.ru_utime + usage.ru_stime
        if best is None or seconds < best[0]:
            best = (seconds, usage.ru_maxrss / 1024, os.waitstatus_to_exitcode(status))
    return best


def own_and_whole(job, scene, times=25):
    """Processor seconds of the least of so many runs, without the kernel's part and with it."""
    runs = []
    for _ in range(times):
        with open(scene, "rb") as source:
            child = subprocess.Popen([program, job], stdin=source, stdout=subprocess.DEVNULL, stderr=subprocess.DEVNULL)
            _, _, usage = os.wait4(child.pid, 0)
        runs.append((usage.ru_utime + usage.ru_stime, usage.ru_utime))
    whole, own = min(runs)
    return own, whole


def clocked(command, scene, times=5, environment=None):
    """The least of so many runs by the clock: seconds by the clock, processor seconds of all threads, and the status."""
    best = None
    for _ in range(times):
        with open(scene, "rb") as source:
            begun = time.perf_counter()
            child = subprocess.Popen(command, stdin=source, stdout=subprocess.DEVNULL, stderr=subprocess.DEVNULL, env=environment)
            _, status, usage = os.wait4(child.pid, 0)
            seconds = time.perf_counter() - begun
        if best is None or seconds < best[0]:
            best = (seconds, usage.ru_utime + usage.ru_stime, os.waitstatus_to_exitcode(status))
    return best


def mesa_seconds(driver, scene):
    """The best of three: seconds of drawing alone, or None without Mesa."""
    if not os.path.exists(mesa):
        return None
    best = None
    for _ in range(3):
        with open(scene, "rb") as source:
            environment = dict(os.environ, GALLIUM_DRIVER=driver)
            told = subprocess.run([mesa], stdin=source, stdout=subprocess.DEVNULL, stderr=subprocess.PIPE, env=environment).stderr
        seconds = float(told.split()[-1])
        best = seconds if best is None else min(best, seconds)
    return best


def parts(name):
    """Seconds of reading, drawing and writing of a scene, and the whole run."""
    read, drawn, whole = run("serial", path(name, "unread")), run("serial", path(name, "noswap")), run("serial", path(name))
    return read[0], max(drawn[0] - read[0], 1e-9), max(whole[0] - drawn[0], 0.0), whole


def main():
    print("scene        reading  drawing  writing   memory  status   drawing to softpipe  to llvmpipe")
    drawing = {}
    for name in ("usual", "fill", "plain", "smooth", "tested", "blended", "small", "state", "depth"):
        read, draw, write, (_, memory, status) = parts(name)
        drawing[name] = draw
        peers = [mesa_seconds(driver, path(name, "noswap")) for driver in ("softpipe", "llvmpipe")]
        ratios = ["        -" if peer is None else f"1 : {peer / draw:5.2f}" for peer in peers]
        print(f"{name:<10} {read:8.3f} {draw:8.3f} {write:8.3f} {memory:6.1f} MB {status:6}   {ratios[0]:>19}  {ratios[1]:>11}", flush=True)

    plain = drawing["plain"] / (100 * PIXELS)
    print(f"\na covered pixel: plain {plain * 1e9:.2f} ns; to plain:", end="")
    for name, windows in (("smooth", 100), ("tested", 100), ("blended", 100), ("fill", 40)):
        print(f" {name} {drawing[name] / (windows * PIXELS) / plain:.1f}", end="")
    triangle = drawing["small"] / 100_000
    # Vertices at one place are issued and brought to the window as well, and cover nothing. The two take turns, since clocks vary.
    covered, bare = [], []
    for _ in range(9):
        covered.append(run("serial", path("small", "noswap"))[0])
        bare.append(run("serial", path("small", "noswap", "nodraw"))[0])
    pixels = (min(covered) - min(bare)) / 100_000
    print(f"\na triangle: small {triangle * 1e9:.0f} ns, {pixels * 1e9:.0f} of them for its pixels; to small:", end="")
    for name, count in (("usual", 400_000), ("state", 20_000), ("depth", 2_000)):
        print(f" {name} {drawing[name] / count / triangle:.1f}", end="")
    print()

    def show(name, result):
        print(f"{name:<48} {result[0]:7.3f} s  {result[1]:7.1f} MB  status {result[2]}", flush=True)

    show("2048 by 2048, 8 clears and 8 swaps", run("serial", path("clears")))
    for frames in ("9", "200"):
        show(f"2048 by 2048, {frames} clears and swaps, render", run("render", path("clears", "2048", frames)))
    four = path("usual", "4")
    size = os.path.getsize(four) / 1e6
    read = run("render", path("usual", "4", "unread"))
    show(f"four clients, {size:.1f} MB, read and judged", read)
    print(f"memory : input = {read[1] / size:.1f} : 1")
    text = os.path.join(work, "four.txt")
    unpacked = run("unpack", four, text)
    show("four clients, unpack", unpacked)
    packed = run("pack", text)
    show(f"four clients, pack of {os.path.getsize(text) / 1e6:.1f} MB of text", packed)
    print(f"reading bytes : printing text : parsing text = 1 : {unpacked[0] / read[0]:.1f} : {packed[0] / read[0]:.1f}")
    checked, serial = run("check", four), run("serial", four)
    show("four clients, check", checked)
    show("four clients, serial", serial)
    print(f"contexts, book and order : the rest of serial but reading = 1 : {(serial[0] - checked[0]) / max(checked[0] - read[0], 1e-9):.1f}")
    commands, unread = run("check", path("commands")), run("render", path("commands", "unread"))
    show("1,048,576 commands, check", commands)
    print(f"reading them : checking them = 1 : {(commands[0] - unread[0]) / unread[0]:.1f}")
    list_ratios()
    filter_ratios()
    version_ratios()
    state_ratios()
    cluster_ratios()
    thread_ratios()
    depth_ratios()


def depth_ratios():
    """What putting layers together by depth takes to drawing in one order, by the clock and in processor seconds."""
    print()
    for name in ("apart", "frames"):
        serial, last = (clocked([program, word], path(name)) for word in ("serial", "last"))
        for word, told in (("serial", serial), ("last", last)):
            print(f"{name}, {word:<40} {told[0]:7.3f} s by the clock  {told[1]:7.3f} s of processors  status {told[2]}", flush=True)
        print(f"{name}, serial : last = 1 : {last[0] / serial[0]:.2f} by the clock, 1 : {last[1] / serial[1]:.2f} of processors")


def ratio(first, second):
    """What drawing the second scene takes to drawing the first one. The two take turns, since clocks vary."""
    read = [run("serial", path(*words, "unread"))[0] for words in (first, second)]
    drawn = [[], []]
    for _ in range(5):
        for seconds, words in zip(drawn, (first, second)):
            seconds.append(run("serial", path(*words, "noswap"))[0])
    one, other = (max(min(seconds) - before, 1e-9) for seconds, before in zip(drawn, read))
    return other / one


def in_turns(*runs, times=5):
    """The least processor seconds of each of these runs, a program, its words and a scene. They take turns, since clocks vary."""
    least = [float("inf")] * len(runs)
    for _ in range(times):
        for number, (which, words, scene) in enumerate(runs):
            least[number] = min(least[number], best_of([which, *words.split()], scene)[0])
    return least


def list_ratios():
    """What a command takes that a list gives, beside one that is read. Both scenes have a command too many, so they are refused behind that.

    The commands fill 75 MB. Handing out these pages is the kernel's part, which differs much from machine to machine, so each figure stands without it too.
    """
    count = 1_048_577
    called, unread, written = (own_and_whole("check", path(*words)) for words in (("called",), ("called", "unread"), ("written",)))
    expanding = [max(whole - before, 1e-9) for whole, before in zip(called, unread)]
    told = [f"{all_of / count * 1e9:.1f} ns ({own / count * 1e9:.1f} without the kernel)" for own, all_of in (expanding, written)]
    print(f"\na command that a list gives {told[0]}, one that is read {told[1]}: reading : expanding = 1 : {expanding[1] / written[1]:.2f}")
    sizes = [os.path.getsize(path(name)) for name in ("called", "written")]
    print(f"bytes of the scene with a list to those of its expansion = 1 : {sizes[1] / sizes[0]:.0f}", flush=True)


FILTERS = ("recolour 255 255 255 255", "count", "cull", "drop TexPart", " ".join(["recolour 255 255 255 255"] * 16))


def filter_ratios():
    """What runs behind filters take that leave a scene as it is, to the same runs without; and runs without, to those of an earlier program."""
    for name in ("usual", "small", "commands"):
        for job in ("serial", "check") if name != "commands" else ("check",):
            bare, *chains = in_turns(*((program, f"{filters} {job}", path(name)) for filters in ("", *FILTERS)))
            told = "  ".join(f"{words} {seconds / bare:.2f}" for words, seconds in zip((*FILTERS[:-1], "16 of recolour"), chains))
            print(f"{name}, {job} = 1 :  {told}", flush=True)
    before = os.environ.get("BEFORE")
    for name in ("usual", "small", "commands") if before else ():
        for words, scene in (("reading", path(name, "unread")), ("all of check", path(name)), ("all of serial", path(name))):
            job = "serial" if words == "all of serial" else "check"
            earlier, now = in_turns((before, job, scene), (program, job, scene), times=20)
            print(f"{name}, {words}: before : now = 1 : {now / earlier:.3f}", flush=True)


def version_ratios():
    """What version 2 takes where no triangle crosses the near plane, and what it takes where half of them do."""
    print("\ndrawing as version 2, without a crossing, to version 1:", end="")
    for name in ("usual", "small", "depth", "plain", "fill"):
        print(f" {name} {ratio((name,), (name, 'v2')):.2f}", end="", flush=True)
    print(f"\n100,000 triangles of which half cross the near plane, to as many in front of it: near to front {ratio(('front',), ('near',)):.2f}")
    seconds = [clocked([program, "render", "--tiles", "4x4"], path(name))[1] for name in ("front", "near")]
    print(f"the same on a cluster of 4x4, all processors together: {seconds[1] / seconds[0]:.2f}", flush=True)


def state_ratios():
    """What a pixel of a full window takes in each state, and its ratio to blending by SRC_ALPHA, ONE_MINUS_SRC_ALPHA."""
    names = subprocess.run([sys.executable, scenes, "ways"], check=True, stdout=subprocess.PIPE, text=True).stdout.splitlines()
    read = run("serial", path("way", "0", "unread"))[0]
    pixels = {}
    for n, name in enumerate(names):
        drawn = run("serial", path("way", str(n), "noswap"))[0]
        os.remove(path("way", str(n), "noswap"))
        pixels[name] = max(drawn - read, 0.0) / (40 * PIXELS)
    over = pixels["SRC_ALPHA, ONE_MINUS_SRC_ALPHA"]
    print("\na pixel in each state: ns, and to SRC_ALPHA, ONE_MINUS_SRC_ALPHA")
    for name, seconds in pixels.items():
        print(f"{name:<64} {seconds * 1e9:6.2f} {seconds / over:6.2f}", flush=True)


def told(words, scene):
    """What all tiles were sent, by the report of a run: parcels and sets."""
    with open(scene, "rb") as source:
        notes = subprocess.run([program, *words.split()], stdin=source, stdout=subprocess.DEVNULL, stderr=subprocess.PIPE).stderr
    lines = [line.split() for line in notes.decode().splitlines() if line.startswith("tile ")]
    return sum(int(line[3]) for line in lines), sum(int(line[5]) for line in lines)


def cluster_ratios():
    """Processor seconds of the stepped cluster to those of the serial renderer, and what goes over its lanes."""
    for name in (("usual",), ("usual", "4"), ("fill",), ("small",)):
        scene = path(*name)
        serial = run("serial", scene)[0]
        print(f"serial : stepped cluster on {' '.join(name)} = 1 :", end="")
        for tiles in ("1x1", "2x2", "4x4", "8x4"):
            seconds, _, status = run(f"simulate --seed 1 --tiles {tiles}", scene)
            ratio = f"{seconds / serial:.2f}" if status == 0 else f"status {status}"
            print(f"  {tiles} {ratio}", end="", flush=True)
        parcels, sets = told("simulate --seed 1 --tiles 4x4", scene)
        print(f"   (4x4: {parcels} parcels, {sets} sets, of {os.path.getsize(scene) / 1e6:.1f} MB)", flush=True)
    gives = path("gives")
    seconds, memory, status = run("simulate --seed 1 --tiles 8x4", gives)
    parcels, _ = told("simulate --seed 1 --tiles 8x4", gives)
    print(f"much synchronisation, 8x4: {seconds:.2f} s, {seconds / max(parcels, 1) * 1e9:.0f} ns a parcel, {memory:.1f} MB, status {status}", flush=True)


def thread_ratios():
    """The cluster on threads beside the serial renderer, the stepped cluster and Mesa, by the clock and in processor seconds of all threads.

    Mesa reads and draws the same scene, and writes no image.
    """
    print(f"\non {os.cpu_count()} processors, by the clock (and all processors together):")
    for name, tiles in ((("usual", "4"), "4x3"), (("fill",), "4x4"), (("small",), "4x4")):
        scene = path(*name)
        serial, threads = clocked([program, "serial"], scene), clocked([program, "render", "--tiles", tiles], scene)
        line = f"{' '.join(name):<10} serial {serial[0]:.3f} s   render {tiles} {threads[0]:.3f} s ({threads[1]:.3f})   render : serial = {threads[0] / serial[0]:.2f} : 1"
        if os.path.exists(mesa):
            for driver in ("softpipe", "llvmpipe"):
                peer = clocked([mesa], scene, environment=dict(os.environ, GALLIUM_DRIVER=driver))
                line += f"   {driver} {peer[0]:.3f} s ({peer[1]:.3f})"
        print(line, flush=True)
    made = os.path.join(work, "generated.rcs")
    with open(made, "wb") as file:
        subprocess.run([program, "gen", "--seed", "1", "--size", "1024"], check=True, stdout=file)
    for name, scene, words in (("gen, 1,024 rounds", made, "--tiles 8x4 --depth 1"), ("gives", path("gives"), "--tiles 8x4")):
        threads = clocked([program, "render", *words.split()], scene)
        stepped = clocked([program, "simulate", "--seed", "1", *words.split()], scene)
        print(f"{name}, {words}: render {threads[0]:.3f} s ({threads[1]:.3f})   simulate {stepped[0]:.3f} s   render : simulate = {threads[0] / stepped[0]:.2f} : 1", flush=True)


if __name__ == "__main__":
    program, scenes, work = words()
    mesa = os.path.join(work, "mesa")
    main()
