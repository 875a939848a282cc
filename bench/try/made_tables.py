#!/usr/bin/env python3
"""Holds the tables of documents that are made from the tree against what they are made of, or writes them.

    made_tables.py [--write] [--by-hand]

- The tables of docs/proved.md, a row or more for each public call. A row whose call stands alone on its line of docs/proved.rows, or on none, is made from the
  source: the names of the clauses of its contract, and the first sentence of its comment. Every other row stands in docs/proved.rows as it is in the page: one
  that says more than the comment, or says it clause by clause. Calls without a line come behind the others of their crate.
- The column *stands on* of docs/architecture.md, from crates.txt: all but rc_base, the crates of lemmas and those of the kit.
- The commands and their codes in docs/scene-format.md, the commands there that are refused for a code, and the codes in docs/drawing.md, from the tools' table of
  commands, which command_lists.py holds against that of the definitions.

A line is printed for each difference: a table that isn't what it is made to be, a clause of docs/proved.rows that the contract doesn't have, a call there that
isn't handed out, a call that has neither comment nor line, a crate without a row. With --write the tables are written; with --by-hand the rows of
docs/proved.rows are listed whose words the comment has too. The last line is `N passed, M failed`, the status 1 where something failed."""
import argparse
import re
import sys
from collections import namedtuple

import command_pages
import contracts
import public_calls
from public_calls import TOP

PAGE, ROWS, PLAN = TOP / "docs" / "proved.md", TOP / "docs" / "proved.rows", TOP / "docs" / "architecture.md"
HEAD = "| crate | call | clause | what it says |"
# What the column *stands on* leaves out.
UNDER_ALL = ("rc_base", "plain_lemmas", "scene_lemmas")
# Crates of functions that no other crate calls, of which a row has the number.
COUNTED = ("worked_examples", "uses")

# A line of docs/proved.rows: what stands in its three columns, or in the first alone where the row is made.
Line = namedtuple("Line", "number calls clauses words")


class Count:
    def __init__(self):
        self.passed, self.failed = 0, 0

    def judge(self, right, line):
        self.passed, self.failed = self.passed + bool(right), self.failed + (not right)
        if not right:
            print(line)


def read_rows():
    """The lines of docs/proved.rows, by section and crate, in their order."""
    sections, section, crate = {}, None, None
    for number, text in enumerate(ROWS.read_text().splitlines(), 1):
        if text.startswith("## "):
            section = sections.setdefault(text, {})
        elif text.startswith("#") or not text.strip():
            continue
        elif not text.startswith(" "):
            crate = section.setdefault(text.strip(), [])
        else:
            cells = [cell.strip() for cell in text.split("|")]
            crate.append(Line(number, *(cells if len(cells) == 3 else (cells[0], None, None))))
    return sections


def quoted_calls(text):
    """The calls that a cell names, each with its type: `Book::journal`, `into_journal` are two of one type."""
    kind = None
    for quoted in re.findall(r"`([^`]+)`", text):
        head, is_method, name = quoted.partition("::")
        kind = head if is_method else kind
        yield kind, name or head


def first_sentence(comment):
    """The first sentence as a row says it: without its full stop, and with a small letter where the word isn't a name."""
    found = re.match(r"(.*?[.!?])(?: [A-Z(`]|$)", comment)
    sentence = (found[1] if found else comment).rstrip(".")
    word = sentence.split(" ")[0].strip(",:;")
    is_name = len(word) > 1 and word[1:] != word[1:].lower() or word.startswith("OpenGL") or any(sign.isdigit() for sign in word)
    return sentence if is_name else sentence[:1].lower() + sentence[1:]


class House:
    """The public calls of the crates, with their contracts."""

    def __init__(self):
        self.below = public_calls.edges()
        self.crates, self.contracts = {}, {name: contracts.contracts(name) for name in self.below}
        for name in self.below:
            if not name.endswith("_tests") and name not in public_calls.HAND_OUT_NOTHING and not public_calls.is_of_program(name):
                self.crates[name] = public_calls.Crate(name)

    def calls(self, crate):
        """All that has a row: calls of their own, methods, laws."""
        handed = self.crates[crate]
        return [*handed.calls(), *((None, law) for law in sorted(handed.laws))]

    def contract(self, crate, kind, name):
        own = self.contracts[crate]
        return own.get((kind, name)) or own.get((None, name))

    def made(self, crate, kind, name):
        """The cells of a row that is made from the source."""
        contract = self.contract(crate, kind, name)
        is_law = kind is None and name in self.crates[crate].laws
        shown = f"`{kind}::{name}`" if kind else f"`{name}`"
        clauses = ", ".join(dict.fromkeys("-" if clause == "-" else f"`{clause}`" for clause in contract.clauses)) or "no clause"
        return ("law " if is_law else "") + shown, clauses, first_sentence(contract.comment).replace("|", r"\|")


def made_call(line):
    head, is_method, name = line.calls.partition("::")
    return (head, name) if is_method else (None, head)


def judge_clauses(count, house, crate, line, names):
    """Each clause that a line names is one of the contract of a call that it names, and each call is there."""
    found = [(kind, name, house.contract(crate, kind, name)) for kind, name in names]
    for kind, name, contract in found:
        count.judge(contract is not None, f"docs/proved.rows:{line.number}: {crate} has no call {kind + '::' if kind else ''}{name}")
    known = {clause for _, _, contract in found if contract for clause in contract.clauses}
    # a method that a trait asks for may have its clauses there; other words tell whose they are
    is_list = re.fullmatch(r"(-|`\w+`)(, (-|`\w+`))*", line.clauses) and known
    for clause in re.findall(r"`([^`]+)`", line.clauses) if is_list else ():
        count.judge(clause in known, f"docs/proved.rows:{line.number}: {crate} has no clause `{clause}` there")


def rows_of(count, house, crate, lines):
    """The rows of a crate: those of its lines, and behind them those of calls that have none."""
    if crate in COUNTED:
        # each function is a law or a caller: `pub fn` at the head of a line
        number = sum(len(re.findall(r"^pub fn ", path.read_text(), re.M)) for path in public_calls.sources(crate))
        yield from ((f"{number} functions", line.clauses, line.words) for line in lines)
        return
    named, told = set(), []
    for line in lines:
        if line.words is None:
            call = made_call(line)
            there = house.contract(crate, *call)
            count.judge(there and there.comment, f"docs/proved.rows:{line.number}: {crate} hands out no {line.calls} that has a comment")
            named.add(call)
            if there:
                yield house.made(crate, *call)
            continue
        told = list(quoted_calls(line.calls)) if line.calls else told
        named |= {(kind, name) for kind, name in told} | {(None, name) for _, name in told}
        judge_clauses(count, house, crate, line, told)
        yield line.calls, line.clauses, line.words
    for kind, name in house.calls(crate) if crate in house.crates else ():
        if (kind, name) not in named and (None, name) not in named:
            contract = house.contract(crate, kind, name)
            is_told = contract is not None and bool(contract.comment)
            count.judge(is_told, f"{crate}: {kind + '::' if kind else ''}{name} has neither a comment nor a line of docs/proved.rows")
            if is_told:
                yield house.made(crate, kind, name)


def table(count, house, section):
    lines = [HEAD, "|---|---|---|---|"]
    for crate, told in section.items():
        for at, (calls, clauses, words) in enumerate(rows_of(count, house, crate, told)):
            first = f"`{crate}` " if at == 0 else ""
            lines.append(f"| {first}| {calls + ' ' if calls else ''}| {clauses} | {words} |")
    return lines


def with_tables(count, house, sections):
    """The lines of docs/proved.md with its tables made anew."""
    made, section, skipping, seen = [], None, False, set()
    for line in PAGE.read_text().splitlines():
        if line.startswith("## "):
            section = line
        if line == HEAD:
            count.judge(section in sections, f"docs/proved.md: docs/proved.rows has no section `{section}`")
            made += table(count, house, sections.get(section, {}))
            seen.add(section)
            skipping = True
        elif skipping and line.startswith("|"):
            continue
        else:
            skipping = False
            made.append(line)
    for section in sections:
        count.judge(section in seen, f"docs/proved.md has no table below `{section}`")
    missing = set(house.crates) - {crate for section in sections.values() for crate in section}
    for crate in sorted(missing):
        count.judge(not house.calls(crate), f"docs/proved.rows has no line for {crate}")
    return made


def with_edges(count, house):
    """The lines of docs/architecture.md with its column *stands on* made anew."""
    made, seen = [], []
    for line in PLAN.read_text().splitlines():
        found = re.match(r"\| `(\w+)` \|", line)
        if found and found[1] in house.below:
            cells = line.strip().strip("|").split("|")
            below = [f"`{name}`" for name in house.below[found[1]] if name not in UNDER_ALL]
            cells[2] = f" {', '.join(below)} "
            line = "|" + "|".join(cells) + "|"
            seen.append(found[1])
        made.append(line)
    count.judge(seen == list(house.below), "docs/architecture.md hasn't one row for each crate, in the order of crates.txt")
    return made


def with_commands(count, page):
    """The lines of a document with its parts that tell commands and codes made anew."""
    lines = page.read_text().splitlines()
    for document, first, further, made in command_pages.PARTS:
        if document == page.name:
            whole = command_pages.with_part(lines, first, further, made)
            count.judge(whole, f"docs/{page.name} has no line `{first}`")
            lines = whole or lines
    return lines


def hold(count, page, made, write):
    old = page.read_text().splitlines()
    if write:
        page.write_text("\n".join(made) + "\n")
        print(f"docs/{page.name}: {sum(line not in set(old) for line in made)} lines are new")
        return
    missing, more = [line for line in made if line not in set(old)], [line for line in old if line not in set(made)]
    count.judge(old == made, f"docs/{page.name} isn't what it is made of (--write writes it): {(missing or more or ['the sequence of its lines'])[0]}")


def words_of(text):
    return [re.sub("(ing|ed|es|s)$", "", word) for word in re.findall("[a-z0-9']+", text.lower())]


def by_hand(house, sections):
    """The rows of docs/proved.rows whose words the first sentence of the comment has, nine of ten."""
    for section in sections.values():
        for crate, lines in section.items():
            for at, line in enumerate(lines):
                follows = at + 1 < len(lines) and not lines[at + 1].calls
                if line.words is None or not line.calls or follows or crate in COUNTED:
                    continue
                names = list(quoted_calls(line.calls))
                has = {word for name in names if house.contract(crate, *name) for word in words_of(first_sentence(house.contract(crate, *name).comment))}
                words = words_of(line.words)
                if sum(word in has for word in words) >= 0.9 * len(words):
                    print(f"docs/proved.rows:{line.number}: {crate} {line.calls}: {line.words}")


def main():
    parser = argparse.ArgumentParser(description=__doc__, formatter_class=argparse.RawDescriptionHelpFormatter)
    parser.add_argument("--write", action="store_true", help="write the tables")
    parser.add_argument("--by-hand", action="store_true", help="list the rows whose words the comment has too")
    args = parser.parse_args()
    house, sections, count = House(), read_rows(), Count()
    if args.by_hand:
        by_hand(house, sections)
        return 0
    hold(count, PAGE, with_tables(count, house, sections), args.write)
    hold(count, PLAN, with_edges(count, house), args.write)
    for name in dict.fromkeys(document for document, *_ in command_pages.PARTS):
        page = TOP / "docs" / name
        hold(count, page, with_commands(count, page), args.write)
    print(f"{count.passed} passed, {count.failed} failed")
    return 1 if count.failed else 0


if __name__ == "__main__":
    sys.exit(main())
