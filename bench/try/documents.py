#!/usr/bin/env python3
"""Runs every command of README.md and docs/*.md from the top of a copy of the repository, and compares what it prints with what the document says.

    documents.py [PROGRAM] [--slow] [--draw] [--only NAME] [--seconds N]
    documents.py --unbuilt

Commands stand in fenced blocks, whose first line says what they are:
- `sh`: each line is a command that has to end with status 0, or with the one that a comment behind it names: `# status 11`;
- `console`: a line `$ COMMAND`, and then what it prints on both outputs, line by line; a line `..` stands for any lines;
- `sh slow: REASON`: commands that are run with --slow alone; `sh not run: REASON`: commands that never are. Each is told by its name and its reason;
- `LANGUAGE PATH`: the block is that file, to the letter. Any other block is no command.

Then: no command stands in a block that isn't marked, and each script that a document names is there; each link leads to a file and a heading; what commands wrote into the
top folder is ignored by git; each picture of docs/ that the commands drew anew is what it was, pixel by pixel (with --draw they are written
in its place); README.md has at most 1,000 words; each script of bench/ and tools/ tells its words where it is given `--help` (not with --only). With --unbuilt, and
where nothing is built, all this is tried but for the commands and what they write; with --seconds no command begins behind so many seconds. What isn't run is told.
The last line is `N passed, M failed`, and the status is 1 where something failed.
"""
import argparse
import os
import pathlib
import re
import shlex
import shutil
import signal
import subprocess
import sys
import tempfile
import time
import zlib

sys.path.append(str(pathlib.Path(__file__).resolve().parents[2] / "tools"))

import png_reader
from program import HOW, ROOT, built, is_built

PAGES = [ROOT / "README.md", *sorted((ROOT / "docs").glob("*.md"))]
FENCE = re.compile(r"^```(.*)$")
LOOKS_LIKE_COMMAND = re.compile(r"^(\$ |\$program |render_cli |python3 |rt |cd |ffmpeg |mpv |\(cd )")
OUTSIDE_TOOLS = ("ffmpeg", "ffprobe", "mpv", "chromium", "apitrace", "cc")
MOST_WORDS = 1000
SECONDS = 600
HELP_SECONDS = 20


class Count:
    """What passed and what failed."""

    def __init__(self, seconds=None):
        self.passed, self.failed, self.skipped = 0, 0, []
        self.end = None if seconds is None else time.monotonic() + seconds

    def seconds(self):
        """How long a command may take: none where the time is over."""
        return SECONDS if self.end is None else min(SECONDS, self.end - time.monotonic())

    def skipped_for_time(self):
        return any(line.endswith("(the time is over)") for line in self.skipped)

    def judge(self, right, what, why=""):
        if right:
            self.passed += 1
        else:
            self.failed += 1
            print(f"failed: {what}" + (f": {why}" if why else ""), flush=True)


def blocks(page):
    """Each fenced block: number of its first line, what its fence says, and its lines; None for what isn't in a block."""
    lines, at = page.read_text().splitlines(), 0
    outside = []
    while at < len(lines):
        fence = FENCE.match(lines[at])
        if fence:
            end = next(k for k in range(at + 1, len(lines)) if lines[k].startswith("```"))
            yield at + 1, fence[1].strip(), lines[at + 1 : end]
            at = end
        else:
            outside.append((at + 1, lines[at]))
        at += 1
    yield 0, None, outside


def spoken(lines):
    """The commands of a `console` block, each with what it prints."""
    found = []
    for line in lines:
        if line.startswith("$ "):
            found.append((line[2:], []))
        elif found:
            found[-1][1].append(line)
    return found


def fits(told, said):
    """Whether the lines are those that the document says, `..` being any."""
    if not said:
        return not told
    if said[0] == "..":
        return any(fits(told[k:], said[1:]) for k in range(len(told) + 1))
    return bool(told) and told[0] == said[0] and fits(told[1:], said[1:])


def run(command, folder, program, seconds):
    """Status and both outputs of a command of a shell, or None where it takes longer. A player of films opens no window."""
    environment = dict(os.environ, program=program, MPV_HOME=str(folder / "player"))
    with tempfile.TemporaryFile() as told:
        done = subprocess.Popen(["bash", "-c", command], cwd=folder, env=environment, stdin=subprocess.DEVNULL, stdout=told, stderr=subprocess.STDOUT,
                                start_new_session=True)
        try:
            status = done.wait(seconds)
        except subprocess.TimeoutExpired:
            # the shell and all that it started
            os.killpg(done.pid, signal.SIGKILL)
            done.wait()
            return None
        told.seek(0)
        return status, told.read().decode(errors="replace")


def try_command(count, name, command, said, folder, program):
    due = re.search(r"# status (\d+)$", command)
    absent = [tool for tool in OUTSIDE_TOOLS if re.search(rf"(^|[|(;] *){tool} ", command) and not shutil.which(tool)]
    if absent:
        count.skipped.append(f"{name}: {command} ({absent[0]} isn't installed)")
        return
    seconds = count.seconds() if program else 0
    if seconds <= 0:
        count.skipped.append(f"{name}: {command} ({'the time is over' if program else 'nothing is built'})")
        return
    done = run(command, folder, program, seconds)
    if done is None:
        # only a command that had all its time is at fault
        if seconds < SECONDS:
            count.skipped.append(f"{name}: {command} (the time is over)")
        else:
            count.judge(False, f"{name}: {command}", f"no end after {SECONDS} s")
        return
    status, told = done
    if status != (int(due[1]) if due else 0):
        count.judge(False, f"{name}: {command}", f"status {status}, {told[-400:]!r}")
    elif said is not None and not fits(told.splitlines(), said):
        count.judge(False, f"{name}: {command}", f"it prints\n{told}")
    else:
        count.judge(True, name)


def try_block(count, page, first, kind, lines, folder, program, slow):
    name = f"{page.name}:{first}"
    words = kind.split()
    if kind == "console":
        for command, said in spoken(lines):
            try_command(count, name, command, said, folder, program)
    elif kind == "sh" or kind.startswith("sh slow:") and slow:
        for line in lines:
            if line and not line.startswith("#") and not line.startswith("program="):
                try_command(count, name, line, None, folder, program)
    elif kind.startswith(("sh slow:", "sh not run:")):
        for line in lines:
            count.skipped.append(f"{name}: {line} ({kind.split(':', 1)[1].strip()})")
    elif len(words) == 2:
        count.judge((ROOT / words[1]).read_text().splitlines() == lines, f"{name}: the block isn't {words[1]}")
    else:
        for line in lines:
            count.judge(not LOOKS_LIKE_COMMAND.match(line), f"{name}: `{line}` isn't marked as a command")


# ---- what stands outside of blocks


def slug(heading):
    """The anchor of a heading, as forges make it."""
    text = re.sub(r"\[([^]]*)\]\([^)]*\)", r"\1", heading).replace("`", "").strip().lower()
    return re.sub(r"[^\w\- ]", "", text).replace(" ", "-")


def anchors(page):
    outside = next(lines for _, kind, lines in blocks(page) if kind is None)
    return {slug(line.lstrip("#")) for _, line in outside if line.startswith("#")}


def try_links(count, page, outside):
    for number, line in outside:
        for target in re.findall(r"\]\(([^)\s]+)\)", line):
            if "://" in target:
                continue
            path, _, anchor = target.partition("#")
            there = (page.parent / path).resolve() if path else page
            right = there.exists() and (not anchor or there.suffix == ".md" and anchor in anchors(there))
            count.judge(right, f"{page.name}:{number}: the link {target} leads nowhere")


def try_named(count, page, outside):
    """A command in a block by indentation isn't marked, and a script that is named in a line has to be there."""
    for number, line in outside:
        if line.startswith("    ") and LOOKS_LIKE_COMMAND.match(line.strip()):
            count.judge(False, f"{page.name}:{number}: `{line.strip()}` isn't marked as a command")
        for script in re.findall(r"`(?:python3 )?((?:bench|tools|examples)/[\w/.-]+\.(?:py|sh|c|txt|rcs))", line):
            count.judge((ROOT / script).exists(), f"{page.name}:{number}: there is no {script}")


# ---- pictures


def shown(path):
    """What a picture of tools/png.py shows: its frames, and how long each stands. Of one that other programs wrote it is the size."""
    data = path.read_bytes()
    try:
        return png_reader.read(data)
    except (png_reader.BadPng, zlib.error):
        return data[16:24]


def try_pictures(count, folder, draw):
    """The pictures of docs/ that commands drew, against those that are there; or these are written in their place."""
    named = {name for page in PAGES for name in re.findall(r"\]\((?:docs/)?([\w-]+\.png)\)", page.read_text())}
    drawn = 0
    for name in sorted(named):
        anew, picture = folder / name, ROOT / "docs" / name
        if not anew.exists():
            continue
        drawn += 1
        same = picture.exists() and shown(anew) == shown(picture)
        if not draw:
            count.judge(same, f"docs/{name} isn't what its commands draw")
        elif not same or isinstance(shown(anew), bytes):
            shutil.copy(anew, picture)
            print(f"docs/{name} is written anew")
    return drawn


# ---- scripts


def scripts():
    """Those of bench/ and tools/: what runs its main function, as a module doesn't."""
    paths = [path for name in ("bench", "tools") for path in sorted((ROOT / name).rglob("*.py"))]
    return [path for path in paths if re.search(r'^(if __name__ == "__main__":|main\(\))', path.read_text(), re.MULTILINE)]


def try_help(count, script, folder):
    """A script that is asked for help ends soon, with its name and words on standard output and nothing on standard error."""
    command = shlex.join([sys.executable, str(script), "--help"])
    done = run(f"{command} 2> wrong", folder, "", HELP_SECONDS)
    status, told = done or (f"no end after {HELP_SECONDS} s", "")
    wrong = (folder / "wrong").read_text(errors="replace")
    right = status == 0 and script.name in told and not wrong
    count.judge(right, f"{script.relative_to(ROOT)} --help", f"status {status}, {told[-200:]!r}, and on standard error {wrong[-200:]!r}")


def copied(folder, program, slow):
    """The part of the repository that commands need, with the built program where it stands once it is built."""
    for name in ("examples", "tools", "bench", "docs"):
        shutil.copytree(ROOT / name, folder / name, ignore=shutil.ignore_patterns("__pycache__"))
    if slow:
        shutil.copytree(ROOT / "crates", folder / "crates", ignore=shutil.ignore_patterns("out"))
    for path in ROOT.iterdir():
        if path.is_file():
            shutil.copy(path, folder)
    (folder / "player").mkdir()
    (folder / "player/mpv.conf").write_text("vo=null\nao=null\nuntimed=yes\nreally-quiet=yes\n")
    stands = folder / "crates/render_cli/out/render_cli"
    stands.parent.mkdir(parents=True, exist_ok=True)
    shutil.copy(program, stands)
    return str(stands.relative_to(folder))


def is_clone():
    """Whether git can say what it ignores here."""
    return shutil.which("git") is not None and (ROOT / ".git").exists()


def main():
    parser = argparse.ArgumentParser(description=__doc__, formatter_class=argparse.RawDescriptionHelpFormatter)
    parser.add_argument("program", nargs="?", help="the built program (crates/render_cli/out/render_cli)")
    parser.add_argument("--slow", action="store_true", help="run the slow commands too, which compile")
    parser.add_argument("--draw", action="store_true", help="write the pictures that commands draw into docs/")
    parser.add_argument("--only", metavar="NAME", help="this page alone, as README.md")
    parser.add_argument("--seconds", metavar="N", type=int, help="begin no command behind so many seconds")
    parser.add_argument("--unbuilt", action="store_true", help="run no command, whatever is built")
    args = parser.parse_args()
    program = None if args.unbuilt or not args.program and not is_built() else built(args.program)
    count = Count(args.seconds)
    with tempfile.TemporaryDirectory() as work:
        for script in [] if args.only else scripts():
            try_help(count, script, pathlib.Path(work))
    if not args.only:
        print(f"--help of scripts: {count.passed} passed", flush=True)
    with tempfile.TemporaryDirectory() as work:
        folder = pathlib.Path(work)
        stands = copied(folder, program, args.slow) if program else None
        before = set(folder.iterdir())
        for page in PAGES:
            if args.only and page.name != args.only:
                continue
            begun, passed = time.monotonic(), count.passed
            for first, kind, lines in blocks(page):
                if kind is None:
                    try_links(count, page, lines)
                    try_named(count, page, lines)
                else:
                    try_block(count, page, first, kind, lines, folder, stands, args.slow)
            print(f"{page.name}: {count.passed - passed} passed, {time.monotonic() - begun:.0f} s", flush=True)
        if program and not count.skipped_for_time():
            drawn = try_pictures(count, folder, args.draw)
            print(f"pictures of docs/ that were drawn anew: {drawn}")
        for path in sorted(set(folder.iterdir()) - before) if is_clone() else []:
            known = subprocess.run(["git", "check-ignore", "-q", "--no-index", path.name], cwd=ROOT, check=False).returncode == 0
            count.judge(known, f"{path.name}, which a command writes, isn't ignored by git")
    words = len((ROOT / "README.md").read_text().split())
    count.judge(words <= MOST_WORDS, f"README.md has {words} words, and may have {MOST_WORDS}")
    for skipped in count.skipped if program else []:
        print(f"not run: {skipped}")
    if not program:
        print(f"not run: {len(count.skipped)} commands, since nothing is built ({HOW})")
    print(f"{count.passed} passed, {count.failed} failed")
    sys.exit(1 if count.failed else 0)


if __name__ == "__main__":
    main()
