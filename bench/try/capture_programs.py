"""The programs that captures.py goes over, how each is traced, and what it says of itself."""
import collections
import os
import pathlib
import shutil
import signal
import subprocess
import time

SAVERS = pathlib.Path("/usr/libexec/xscreensaver")
PATH = os.environ.get("PATH", "") + f":/usr/games:{SAVERS}"
PACKAGES = ("xscreensaver-gl", "xscreensaver-gl-extra")
# Files of those packages that are no programs of their own, and a program that shows what a network
# has. Those that show pictures of a screen or a disk show colour bars, where xscreensaver itself is
# installed, and else wait for ever.
NO_PROGRAMS = {"mapscroller.pl", "xscreensaver-gl-visual"}
OF_A_NETWORK = {"mapscroller"}
COLOR_BARS = "grabDesktopImages: False\ngrabVideoFrames: False\nchooseRandomImages: False\n"
# Programs that draw by shaders where they find them, and without them under OpenGL 1.5.
BY_SHADERS = {"MESA_GL_VERSION_OVERRIDE": "1.5"}
SHADED = {"etruscanvenus", "hypertorus", "klein", "projectiveplane", "romanboy", "sphereeversion"}

# What makes a program's frames: words, by which interface apitrace traces it, and what is in its
# environment.
Program = collections.namedtuple("Program", "name words api env")


MOST_BYTES = 100_000_000    # of a trace


def program(name, *words, api="gl", env=None):
    return Program(name, words or (name,), api, env or {})


# Games and demonstrations of Debian, by their packages' names.
GAMES = [
    program("chromium-bsu", "chromium-bsu", "--window", "--vidmode", "0", "--noaudio"),
    program("briquolo", "briquolo", "-w"),
    program("gltron", "gltron"),
    program("armagetronad", "armagetronad", "-w"),
    program("gl-117", "gl-117"),
    program("extremetuxracer", "etr"),
    program("neverball"),
    program("neverputt"),
    program("billard-gl"),
    program("csmash", "csmash"),
    program("crack-attack", "crack-attack", "--solo"),
    program("blockout2"),
    program("brutalchess"),
    program("enemylines3"),
    program("enemylines7"),
    program("gunroar", "gunroar", "-window", "-nosound"),
    program("torus-trooper", "torus-trooper", "-window", "-nosound"),
    program("parsec47", "parsec47", "-window", "-nosound"),
    program("rrootage", "rrootage", "-window", "-nosound"),
    program("titanion", "titanion", "-window", "-nosound"),
    program("mu-cade", "mu-cade", "-window", "-nosound"),
    program("val-and-rick", "val-and-rick", "-window", "-nosound"),
    program("tumiki-fighters", "tumiki-fighters", "-window", "-nosound"),
    program("projectl", "projectl", "-window", "-nosound"),
    program("between", "between"),
    program("antigravitaattori", "antigrav"),
    program("pong2"),
    program("tomatoes"),
    program("transcend", "Transcend"),
    program("trackballs", "trackballs", "-w"),
    program("stormbaancoureur"),
    program("openuniverse"),
    program("fracplanet"),
    program("zaz"),
    program("tatan"),
    program("gravit"),
    program("jigzo"),
    program("pink-pony"),
    program("pax-britannica"),
    program("criticalmass", "critter"),
    program("sdl-ball"),
    program("bloboats"),
    program("cultivation", "cultivation"),
    program("freetennis", "freetennis", "-newbie"),
    program("searchandrescue", "SearchAndRescue"),
    program("xracer"),
    program("dreamchess"),
    program("glxgears"),
    program("glxheads"),
]


def savers():
    """The OpenGL programs of xscreensaver that are installed."""
    told = subprocess.run(["dpkg", "-L", *PACKAGES], stdout=subprocess.PIPE,
                          stderr=subprocess.DEVNULL).stdout.decode()
    names = sorted(path.name for path in map(pathlib.Path, told.split()) if path.parent == SAVERS)
    return [program(name, str(SAVERS / name), "-geometry", "400x300", api="egl",
                    env=BY_SHADERS if name in SHADED else None)
            for name in names if name not in NO_PROGRAMS | OF_A_NETWORK]


def chosen(names):
    """The programs of these names, or all that are installed."""
    every = savers() + [game for game in GAMES if shutil.which(game.words[0], path=PATH)]
    return [program for program in every if not names or program.name in names]


def trace(program, path, seconds, environment):
    """Traces a program for so many seconds, in a home of its own and without sound.
    xscreensaver's programs are EGL programs, and apitrace waits for ever where it is told of the
    other interface. What a program's own children are traced to lies beside it."""
    path = path.resolve()
    home = path.parent / "home"
    home.mkdir(exist_ok=True)
    (home / ".xscreensaver").write_text(COLOR_BARS)
    environment = dict(environment, HOME=str(home), PATH=PATH, SDL_AUDIODRIVER="dummy",
                       ALSOFT_DRIVERS="null", **program.env)
    api = ["--api", "egl"] if program.api == "egl" else []
    child = subprocess.Popen(["apitrace", "trace", *api, "-o", str(path), *program.words],
                             env=environment, cwd=home, stdin=subprocess.DEVNULL,
                             stdout=subprocess.DEVNULL, stderr=subprocess.DEVNULL,
                             process_group=0)
    end = time.monotonic() + seconds
    while child.poll() is None and time.monotonic() < end \
            and not (path.exists() and path.stat().st_size > MOST_BYTES):
        time.sleep(0.25)
    for kind in (signal.SIGTERM, signal.SIGKILL):
        try:
            os.killpg(child.pid, kind)
        except ProcessLookupError:
            break
        time.sleep(1)
    child.wait()
