"""What all tools have in common: their words, their input, and how they end.

A tool ends with status 0, with 1 where its data is wrong, and with 2 where its words are: each time
in one line on standard error and never with a traceback. A reader that goes away ends it quietly,
as it does other filters.
"""
import argparse
import os
import signal
import sys


class Wrong(Exception):
    """The data that a tool was given is wrong: what is told, in one line."""


class Words(argparse.ArgumentParser):
    """The words of a tool. What is wrong with them is told in one line."""

    def __init__(self, page):
        super().__init__(
            description=page,
            formatter_class=argparse.RawDescriptionHelpFormatter,
            allow_abbrev=False,
        )

    def error(self, message):
        self.exit(2, f"{self.prog}: {message} (--help tells how)\n")


def pair_of_sides(word):
    """Columns and rows of `4x3`."""
    sides = word.split("x")
    if len(sides) != 2 or not all(
        side.isascii() and side.isdigit() and len(side) < 6 for side in sides
    ):
        raise argparse.ArgumentTypeError(f"{word!r} isn't of the form 4x3")
    columns, rows = map(int, sides)
    if not (1 <= columns <= 8 and 1 <= rows <= 8 and columns * rows <= 32):
        raise argparse.ArgumentTypeError(f"{word!r}: 1 to 8 columns and rows, and at most 32 tiles")
    return columns, rows


def number_in(least, most):
    """Reads a whole number of a range."""

    def read(word):
        if not (
            word.isascii() and word.isdigit() and len(word) < 10 and least <= int(word) <= most
        ):
            raise argparse.ArgumentTypeError(f"{word!r} isn't a number from {least} to {most}")
        return int(word)

    return read


def file_name(word):
    """What a file's name begins with."""
    if not word or word.endswith("/"):
        raise argparse.ArgumentTypeError(f"{word!r} is no name of a file")
    return word


def standard_input():
    """The stream of bytes that a tool is given."""
    if sys.stdin is None:
        raise Wrong("standard input is closed")
    return sys.stdin.buffer


def read_input():
    """All bytes of standard input."""
    return standard_input().read()


def read_file(path):
    """All bytes of a file."""
    with open(path, "rb") as file:
        return file.read()


def write_output(data):
    """Bytes to standard output."""
    if sys.stdout is None:
        raise Wrong("standard output is closed")
    sys.stdout.buffer.write(data)
    sys.stdout.buffer.flush()


def write_file(path, data):
    with open(path, "wb") as file:
        file.write(data)


def end_with(line):
    """Ends with status 1, and with one line where standard error takes it."""
    name = os.path.basename(sys.argv[0])
    for stream, text in ((sys.stdout, ""), (sys.stderr, f"{name}: {line}\n")):
        try:
            print(text, end="", file=stream, flush=True)
        except (OSError, ValueError):
            pass
    os._exit(1)


def run(main):
    """Runs a tool's main function, and ends as a tool does."""
    signal.signal(signal.SIGPIPE, signal.SIG_DFL)
    try:
        main()
        if sys.stdout is not None:
            sys.stdout.flush()
    except Wrong as wrong:
        end_with(wrong)
    except OSError as fault:
        place = f"{fault.filename}: " if fault.filename is not None else ""
        end_with(f"{place}{fault.strerror or fault}")
    except (MemoryError, RecursionError):
        end_with("the input is too large for this machine")
    except UnicodeError:
        end_with("the input has letters that this tool can't read")
    except KeyboardInterrupt:
        os._exit(130)
