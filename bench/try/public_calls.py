#!/usr/bin/env python3
"""Holds the public calls of the crates against who names them, and against the table of docs/proved.md.

    public_calls.py [--table] [--callers] [CRATE ..]

A public call is a function, or a method of a type or trait, that the root file of a crate hands out, by `pub use` or in a `pub mod`. A line is printed for
- each that no other crate's source names: nothing but its own crate would notice a body that always lacks memory (`nobody CRATE CALL`); laws, functions
  without parameters and without an answer, compute nothing and are left out, and so are the methods that a trait asks for;
- each, a trait's methods and laws among them, that has no row in docs/proved.md (`no row CRATE CALL`), and each call of a row there that the crate doesn't hand out (`no call CRATE CALL`).
With --table or --callers only that part is done; with names of crates only these. Crates of tests, programs, examples, callers that are proved alone (`uses`) and the scenes
that tests share hand out nothing, and what these callers name is named by nobody. It reads the sources as text: a call is named where its name stands behind a dot, `::` or an
import, in a crate that stands on its own one.

The last line is 'N passed, M failed'; the status is 1 where a line was printed, and 2 where the call is wrong."""
import re
import sys
from pathlib import Path

TOP = Path(__file__).resolve().parent.parent.parent
CRATES = TOP / "crates"
WORD = r"[A-Za-z_][A-Za-z0-9_]*"
# Crates that hand out no call to other crates.
HAND_OUT_NOTHING = {"test_scenes", "worked_examples", "uses"}
# Methods that std's traits ask for, or that contracts alone need: they are their trait's, and no call of the crate's own.
OF_STD = {"clone", "drop", "fmt", "from", "eq", "ne", "size_hint", "source", "into_iter"}


def stop(line):
    print("public_calls.py: " + line, file=sys.stderr)
    sys.exit(2)


def edges():
    """Each crate of the repository, and the crates of it that it stands on, itself and through others too."""
    own = {}
    for line in (TOP / "crates.txt").read_text().splitlines():
        line = line.split("#")[0]
        if ":" in line:
            name, below = line.split(":", 1)
            own[name.split()[0]] = below.split()
    return {name: [other for other in below if other in own] for name, below in own.items()}


def sources(crate):
    return sorted((CRATES / crate / "src").glob("**/*.rt"))


def module_of(path, crate):
    parts = list(path.relative_to(CRATES / crate / "src").with_suffix("").parts)
    return [] if parts == ["lib"] else parts


def split_uses(text):
    """The paths that a `pub use` tree names, each with the name by which it is handed out."""
    text = re.sub(r"\s+", "", text.replace(" as ", "@"))
    found = []

    def walk(prefix, tree):
        depth, start = 0, 0
        pieces = []
        for at, sign in enumerate(tree):
            depth += (sign == "{") - (sign == "}")
            if sign == "," and depth == 0:
                pieces.append(tree[start:at])
                start = at + 1
        pieces.append(tree[start:])
        for piece in filter(None, pieces):
            if "{" in piece:
                head, rest = piece.split("{", 1)
                walk(prefix + head, rest[:-1])
            else:
                path, _, name = (prefix + piece).partition("@")
                found.append((path.split("::"), name or path.split("::")[-1]))

    walk("", text)
    return found


class Crate:
    """What a crate hands out: functions, types and traits by name, and of each type and trait its methods."""

    def __init__(self, name):
        self.name = name
        self.text = {tuple(module_of(path, name)): path.read_text() for path in sources(name)}
        self.functions, self.laws, self.types = set(), set(), set()
        self.taken = set()
        self.hand_out((), every=True)
        self.methods = {kind: set() for kind in self.types}
        self.of_traits, self.by_impl = set(), set()
        for text in self.text.values():
            self.read_methods(text)
        whole = "\n".join(self.text.values())
        self.aliases = {kind: re.findall(rf"^pub type ({WORD})[^=;]*=\s*{kind}\b", whole, re.M) for kind in self.types}

    def hand_out(self, module, every):
        text = self.text.get(module)
        if text is None or (module, every) in self.taken:
            return
        self.taken.add((module, every))
        for law, name in self.declared(text):
            (self.laws if law else self.functions).add(name)
        self.types |= set(re.findall(rf"^pub (?:struct|enum|trait) ({WORD})", text, re.M))
        for name in re.findall(rf"^pub mod ({WORD});", text, re.M):
            self.hand_out(module + (name,), every)
        for tree in re.findall(r"^pub use ([^;]+);", text, re.M):
            for path, name in split_uses(tree):
                self.hand_out_one(module, path, name)

    def hand_out_one(self, module, path, name):
        base = () if path[0] == "crate" else module
        where, item = tuple(step for step in path[:-1] if step != "crate"), path[-1]
        for start in (base, ()):
            text = self.text.get(start + where)
            if text is None:
                continue
            for law, declared in self.declared(text):
                if declared == item:
                    (self.laws if law else self.functions).add(name)
                    return
            if re.search(rf"^pub (?:struct|enum|trait) {item}\b", text, re.M):
                self.types.add(name)
                return
            for tree in re.findall(r"^pub(?:\(crate\))? use ([^;]+);", text, re.M):
                for further, handed in split_uses(tree):
                    if handed == item:
                        self.hand_out_one(start + where, further, name)
                        return

    @staticmethod
    def declared(text):
        for match in re.finditer(rf"^pub fn ({WORD})(?:<[^(]*>)?\(([^)]*)\)(\s*->)?", text, re.M):
            yield not match[2].strip() and not match[3], match[1]

    def read_methods(self, text):
        for block in re.finditer(r"^(pub trait|impl)\b([^{]*?)\{\n(.*?)^\}", text, re.M | re.S):
            head = block[2]
            if block[1] == "impl" and re.search(r"\bfor\b", head):
                self.by_impl |= set(re.findall(rf"^    fn ({WORD})", block[3], re.M))
                continue
            head = re.sub(r"^\s*<[^>]*(?:<[^>]*>[^>]*)*>", "", head) if block[1] == "impl" else head
            kind = re.match(rf"\s*({WORD})", head)
            if kind is None or kind[1] not in self.methods:
                continue
            if block[1] == "pub trait":
                self.of_traits.add(kind[1])
            sign = r"^    fn" if block[1] == "pub trait" else r"^    pub fn"
            self.methods[kind[1]] |= set(re.findall(rf"{sign} ({WORD})", block[3], re.M)) - OF_STD

    def calls(self):
        yield from ((None, name) for name in sorted(self.functions))
        for kind in sorted(self.methods):
            yield from ((kind, name) for name in sorted(self.methods[kind]))


def is_named(kind, name, text, crate, aliases):
    if name not in text:
        return False
    if kind is not None:
        before = re.compile(rf"(?:\.|\b(?:{'|'.join([kind, *aliases])})(?:::<[^;]*?>)?::)$")
        return any(before.search(text, max(0, found.start() - 200), found.start()) for found in re.finditer(rf"{name}\b", text))
    if re.search(rf"\b{crate}::(?:{WORD}::)*{name}\b", text):
        return True
    return any(re.search(rf"\b{name}\b", tree) for tree in re.findall(rf"^\s*(?:pub )?use {crate}::([^;]+);", text, re.M))


def is_of_program(name):
    return (CRATES / name / "src" / "main.rt").is_file()


def rows():
    """The calls of the table's rows: crate, and what stands in the column of calls, by its words in back quotes; whether it is a law."""
    crate, reading = None, False
    for line in (TOP / "docs" / "proved.md").read_text().splitlines():
        if line.startswith("## "):
            reading = not line.startswith(("## Answers", "## Wrong", "## What"))
        if not reading:
            continue
        cells = [cell.strip() for cell in line.strip().strip("|").split("|")]
        if not line.startswith("|") or len(cells) < 4 or set(cells[0]) <= set("-: ") and cells[0]:
            continue
        if cells[0]:
            crate = cells[0].strip("`")
        if cells[1]:
            law = cells[1].startswith("law")
            kind = None
            for quoted in re.findall(r"`([^`]+)`", cells[1]):
                head, is_method, name = quoted.partition("::")
                kind = head if is_method else kind
                yield crate, (kind if kind and (is_method or kind) else None), name or head, law


def main(words):
    if "--help" in words or "-h" in words:
        print(__doc__)
        return 0
    below = edges()
    only = [word for word in words if not word.startswith("-")]
    for word in words:
        if word.startswith("-") and word not in ("--table", "--callers"):
            stop(f"there is no option {word!r}: see --help")
        if not word.startswith("-") and word not in below:
            stop(f"there is no crate {word!r}")
    both = "--table" in words and "--callers" in words or not any(word.startswith("-") for word in words)
    judged = [name for name in below if not name.endswith("_tests") and name not in HAND_OUT_NOTHING and not is_of_program(name)]
    crates = {name: Crate(name) for name in judged if not only or name in only}
    texts = {name: "\n".join(path.read_text() for path in sources(name)) for name in below}
    passed, failed = 0, 0

    def judge(right, line):
        nonlocal passed, failed
        passed, failed = passed + right, failed + (not right)
        if not right:
            print(line)

    if both or "--callers" in words:
        for name, crate in crates.items():
            above = [text for other, text in texts.items() if other not in (name, "uses")]
            for kind, call in crate.calls():
                shown = f"{kind}::{call}" if kind else call
                if kind not in crate.of_traits:
                    judge(any(is_named(kind, call, text, name, crate.aliases.get(kind, [])) for text in above), f"nobody {name} {shown}")
    if both or "--table" in words:
        named = {}
        for crate, kind, call, law in rows():
            named.setdefault(crate, set()).add(call)
        for name, crate in crates.items():
            told = named.get(name, set())
            handed = {call for _, call in crate.calls()} | crate.laws
            for kind, call in crate.calls():
                judge(call in told, f"no row {name} " + (f"{kind}::{call}" if kind else call))
            for call in sorted(crate.laws):
                judge(call in told, f"no row {name} law {call}")
            for call in sorted(told - handed - crate.by_impl):
                judge(False, f"no call {name} {call}")
    print(f"{passed} passed, {failed} failed")
    return 1 if failed else 0


if __name__ == "__main__":
    sys.exit(main(sys.argv[1:]))
