"""Calls of a trace, as `apitrace pickle --symbolic` writes them: one pickle a call.

A call is a tuple of its number, its name, pairs of arguments and their values, a result and flags.
The one name that apitrace writes into a pickle is that of a pointer, which becomes a whole number;
every other name is refused, so a pickle makes numbers, strings, lists, tuples and dictionaries.
"""
import os
import pickle
import subprocess
import sys

from .faults import Refused

BROKEN = (pickle.UnpicklingError, EOFError, ValueError, TypeError, AttributeError, KeyError,
          IndexError, OverflowError, RecursionError, MemoryError)
FAKE = 1        # the flag of a call that apitrace adds to those of the program
# What a viewport is named by which apitrace tells a window's size, where one is first current.
WINDOW = "window glViewport"


class PlainUnpickler(pickle.Unpickler):
    """Makes plain values, and nothing that runs."""

    def find_class(self, module, name):
        if (module, name) == ("unpickle", "Pointer"):
            return int
        raise Refused(f"the trace names {module}.{name}, which no trace does")

    def persistent_load(self, _):
        raise Refused("the trace refers to an object outside it, which no trace does")


class Source:
    """What an unpickler reads from. Without `readinto`, by which a pickle that is cut off inside an
    array of bytes would have Python itself write to standard error."""

    def __init__(self, stream):
        self.read, self.readline, self.peek = stream.read, stream.readline, stream.peek


def calls_in(stream, path):
    """Number, name and arguments of each call of a stream of pickles."""
    reader = PlainUnpickler(Source(stream), encoding="latin1")
    peek, load = stream.peek, reader.load
    last = None
    try:
        while peek(1):
            number, name, arguments, result, flags = load()
            last = number
            if name.__class__ is not str:
                raise ValueError("a call without a name")
            if flags == FAKE and name == "glViewport":
                name = WINDOW
            values = [value for _, value in arguments]
            if name.startswith("glMapBuffer"):
                values.append(result)       # where the buffer's bytes are written to
            yield number, name, values
    except BROKEN as fault:
        place = "at its beginning" if last is None else f"behind call {last}"
        kind = " ".join(str(fault).split()) or type(fault).__name__
        raise Refused(f"{path}: not what apitrace pickle writes, {place} ({kind:.80})") from None


def calls_of(path):
    """The calls of a trace, or for `-` those that standard input has as pickles."""
    if path == "-":
        yield from calls_in(sys.stdin.buffer, "standard input")
        return
    try:
        with open(path, "rb"):
            pass
        process = subprocess.Popen(["apitrace", "pickle", "--symbolic", os.path.abspath(path)],
                                   stdin=subprocess.DEVNULL, stdout=subprocess.PIPE,
                                   stderr=subprocess.DEVNULL)
    except FileNotFoundError as fault:
        if fault.filename == "apitrace":
            raise Refused("apitrace isn't installed (Debian's package apitrace)") from None
        raise Refused(f"{path}: no such file") from None
    except OSError as fault:
        raise Refused(f"{path}: {fault.strerror}") from None
    with process:
        try:
            yield from calls_in(process.stdout, path)
            if process.wait() != 0:
                raise Refused(f"{path}: apitrace can't read it as a trace")
        finally:
            process.stdout.close()
            process.kill()
