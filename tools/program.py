"""Where the built program stands, and how one builds it where it isn't there."""
import pathlib
import sys

ROOT = pathlib.Path(__file__).resolve().parent.parent
EXAMPLES = ROOT / "examples"
# Where it stands once it is built, whether it is there or not, and how one builds it: `rt run` gives it something to do.
PROGRAM = ROOT / "crates" / "render_cli" / "out" / "render_cli"
HOW = "build the program first: cd crates/render_cli && rt run -- render < ../../examples/red.rcs > /dev/null"


def built(given=None):
    """The path of a program: of the one that is given, else of the built one. Where it isn't there, a line says how to build it, and the status is 1."""
    path = pathlib.Path(given) if given else PROGRAM
    if path.is_file():
        return str(path.resolve())
    if given:
        sys.exit(f"{pathlib.Path(sys.argv[0]).name}: there is no program {path}")
    sys.exit(f"{pathlib.Path(sys.argv[0]).name}: {HOW}")


def is_built():
    return PROGRAM.is_file()
