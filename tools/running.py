"""How tools ask the built program: for a race, and for the frames that it draws while it draws
them.
"""
import contextlib
import subprocess
import tempfile

import command
import notes
import ppm
import program
import scene_forms

ORDERED, STUCK, RACING = 0, 5, 11


def add_program(words):
    """The option that names the program."""
    words.add_argument(
        "--program", metavar="FILE", help="the built program (crates/render_cli/out/render_cli)"
    )


def built(given):
    """The path of the program, where it is there."""
    return program.built(given)


def race(path, scene):
    """What `race` says of a scene: the match of its line, or None where there is no race."""
    data = scene_forms.scene_bytes(scene)
    done = subprocess.run([path, "race"], input=data, capture_output=True, check=False)
    lines = notes.text_lines(done.stderr)
    if done.returncode not in (ORDERED, STUCK, RACING):
        raise command.Wrong(f"`race` says: {lines[-1] if lines else done.returncode}")
    return next((match for line in lines if (match := notes.RACE.fullmatch(line))), None)


@contextlib.contextmanager
def drawing(path, scene):
    """The frames of a scene, one after the other. Who leaves before the last one ends the run."""
    with tempfile.TemporaryFile() as source, tempfile.TemporaryFile() as told:
        source.write(scene_forms.scene_bytes(scene))
        source.seek(0)
        run = subprocess.Popen(
            [path, "render"], stdin=source, stdout=subprocess.PIPE, stderr=told
        )
        try:
            yield frames_of(run, told)
        finally:
            run.kill()
            run.stdout.close()
            run.wait()


def frames_of(run, told):
    """The frames that a run writes; what it says where it writes none."""
    try:
        yield from ppm.frames(run.stdout)
    except command.Wrong:
        run.wait()
        told.seek(0)
        lines = notes.text_lines(told.read())
        raise command.Wrong(f"`render` says: {lines[-1] if lines else 'nothing'}") from None
