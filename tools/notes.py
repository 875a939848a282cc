"""Reads what the program tells on standard error: the notes of a run. Lines that it doesn't know
are left out.
"""
import re

import command

FAULT = re.compile(r"client (\d{1,10}) fault ([A-Z_]+) at (\d{1,10})")
LIST_FAULT = re.compile(r"client (\d{1,10}) list fault ([A-Z_]+) at (\d{1,10})")
TALLY = re.compile(r"tile (\d{1,10}) parcels (\d{1,10}) sets (\d{1,10}) looks (\d{1,10})")
ORDER = re.compile(r"order (\d{1,10}) (\d{1,10}) (\d{1,10})")
RACE = re.compile(
    r"race (\d{1,10}) (\d{1,10}) (\d{1,10}) (\d{1,10}) "
    r"(?:pixel (\d{1,10}) (\d{1,10})|shared (\d{1,10}))"
)
STUCK = re.compile(
    r"stuck client (\d{1,10}) at (\d{1,10}) (Barrier \d{1,3}|SemP \d{1,3}|SemV \d{1,3}|Swap)"
)
NOT_FOR_LAST = re.compile(r"rc: not for last (\d{1,10}) (\d{1,10})")
MALFORMED = re.compile(r"rc: malformed (\w+) at (\d{1,10})")
LIMIT = re.compile(r"rc: limit ([a-z ]+) (\d{1,10})")
COUNT = re.compile(r"(journal|frames) (\d{1,10})")
LONGEST = 64_000_000


def text_lines(data):
    """The lines of the notes' bytes. Other bytes than those of ASCII stand for themselves."""
    return data.decode("ascii", "surrogateescape").splitlines()


def read_lines(path):
    """The lines of a file of notes."""
    data = command.read_file(path)
    if len(data) > LONGEST:
        raise command.Wrong(f"{path}: notes of more than {LONGEST} bytes: run without --order")
    if b"\0" in data:
        raise command.Wrong(f"{path}: these are no notes of a run")
    return text_lines(data)


def numbers(match):
    return [int(word) for word in match.groups()]


def tallies(lines, tiles):
    """By tiles how many parcels, sets and looks the notes tell, where they tell of so many tiles.
    """
    told = {}
    for line in lines:
        if match := TALLY.fullmatch(line):
            tile, *sent = numbers(match)
            told[tile] = sent
    if set(told) != set(range(tiles)):
        what = f"they tell of {len(told)}" if told else "they tell of none"
        raise command.Wrong(f"the notes don't tell of {tiles} tiles: {what}")
    return [told[tile] for tile in range(tiles)]


def counts(lines):
    """The numbers of journal entries and of frames, as far as they are told."""
    return {match[1]: int(match[2]) for line in lines if (match := COUNT.fullmatch(line))}
