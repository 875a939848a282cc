#!/usr/bin/env python3
"""Counts what a house of crates weighs: lines, functions, bodies, clauses, parameters, words, lemmas that stand twice, and the longest chain.

    python3 bench/measure/house.py [--twice] [--alike] [--wide] [--words] [--single] [--repeated] [TOP]
    python3 bench/measure/house.py --held [TOP]

It reads crates.txt and crates/ of the repository at TOP (this one) and prints a line for each figure. --twice lists the lemma statements that stand
in more than one crate, --alike those that do up to the names that they bind, lemmas of specs/ among them, --wide the clauses of contracts with a line of more than
100 columns, the widest first, --words the public words of definitions that stand in three modules and more, --single those that one clause alone cites and no other
definition, each with `law` behind it where it is a law's statement, --repeated the files in which clauses stand again, those with the most first. --held prints no figures, but the statements that stand in more than one crate,
last `N passed, M failed`; its status is 1 where there is one. It changes nothing.

A lemma is a signature at the head of a line in proofs/, and its statement is what stands behind the colon, with white space taken together and
bound names as they are; two lemmas of one statement stand twice whatever they are called. In specs/ a lemma is a signature that has an equation, and isn't one of
a word that others unfold. A clause's joined length is that of its lines with white space taken together; it stands again where an earlier one of its file is the same so, its
name as well. A public word is what specs/ defines by `pub`, but for the
fields of records; keywords such as `module` and `unfolding` are none. A law is a function that takes and gives nothing, so that what its clauses say is
all of it. Bodies, clauses and parameters are those outside tests, and lines are those that aren't blank. A chain is a list of crates each of which stands
on the one before.
"""
import argparse
import collections
import pathlib
import re
import statistics
import sys

WIDE = 100
SIGNATURE = re.compile(r"(?:pub )?([^\s:=(){}|]+(?: \{[^}]*\})*) : (.*)")
CLAUSE = re.compile(r"\s*(?:ensures|requires)\*? ")
WORD = re.compile(r"\s*(?:(?:abbrev|unfoldable|opaque) pub (?:record |data )?|(?:unfoldable )?pub (?:record|data) )([^\s:(){}]+)|pub ([^\s:(){}]+) :")
KEYWORDS = {"mod", "module", "record", "data", "use", "unfolding", "abbrev", "unfoldable", "where"}
FUNCTION = re.compile(r"(\s*)(?:pub(?:\([a-z]+\))? )?(?:const )?(?:unsafe )?fn (\w+)")
IMPORT = re.compile(r"\s*(?:pub )?(?:ghost )?use ")
LENT = re.compile(r"\s*let _(\w+) = (\w+);")
CITED = re.compile(r"(?:pub )?use Rattle\.(\w+)\.proofs\.")
BINDER = re.compile(r"[({]([^\s(){}:][^(){}:]*?) : |λ ([^.]+)\.")
TOKEN = re.compile(r"[^\s(){}\[\],;.:]+|[(){}\[\],;.:]")
NAME = re.compile(r"[\w◌-]+")
OWN_LEMMAS = ("Answers.antt", "Invariants.antt", "Proof.antt", "Lib.antt")


def edges_of(top):
    """The crates that crates.txt lists, each with the names that it stands on."""
    edges = {}
    for line in (top / "crates.txt").read_text().splitlines():
        name, _, below = line.split("#")[0].partition(":")
        if name.strip():
            edges[name.split()[0]] = below.split()
    return edges


def files(top, crate, folder, ending):
    return sorted((top / "crates" / crate / folder).rglob("*" + ending))


def filled(lines):
    return sum(1 for line in lines if line.strip())


def statements(lines):
    """The lemmas of a file, each with its statement, whose lines are taken together."""
    name, parts = None, []
    for line in lines:
        found = SIGNATURE.match(line)
        if found or (line and not line[0].isspace()):
            if name:
                yield name, " ".join(" ".join(parts).split())
            name, parts = None, []
            if found and not line.startswith(("use ", "--", "abbrev ", "unfoldable ")):
                name, parts = found.group(1), [found.group(2)]
        elif name:
            parts.append(line)
    if name:
        yield name, " ".join(" ".join(parts).split())


def words(lines):
    """The public words that a file of definitions has."""
    found = filter(None, map(WORD.match, lines))
    return {it.group(1) or it.group(2) for it in found} - KEYWORDS


def until_balanced(lines, at, opening, closing):
    """The number of the line at which the brackets that open from line `at` on are closed again."""
    depth, opened = 0, False
    for number in range(at, len(lines)):
        depth += sum(map(lines[number].count, opening)) - sum(map(lines[number].count, closing))
        opened = opened or any(sign in lines[number] for sign in opening)
        if opened and depth <= 0:
            return number
    return len(lines) - 1


def parameters(signature):
    """How many parameters a signature has, `self` among them."""
    text = signature[signature.index("(") + 1:]
    depth, count, word = 0, 0, ""
    for before, sign in zip(" " + text, text):
        if sign in "([{<":
            depth += 1
        elif sign in ")]}" or (sign == ">" and before != "-"):
            if depth == 0:
                break
            depth -= 1
        elif sign == "," and depth == 0:
            count, word = count + 1, ""
            continue
        word += sign
    return count + bool(word.strip())


def renamed(statement):
    """A statement with the names that it binds numbered in the order in which they come."""
    bound = {name for found in BINDER.finditer(statement) for name in (found[1] or found[2]).split()}
    numbers, told = {}, []
    for token in TOKEN.findall(statement):
        told.append(f"#{numbers.setdefault(token, len(numbers))}" if token in bound else token)
    return " ".join(told)


class Function:
    """A function of a file: its parameters, the lines of each of its clauses, and the lines of its body, if it has one."""

    def __init__(self, lines, at):
        indent = FUNCTION.match(lines[at]).group(1)
        end = until_balanced(lines, at, "(", ")")
        self.line = at + 1
        self.parameters = parameters(" ".join(lines[at:end + 1]))
        self.clauses, self.body, number = [], None, end + 1
        self.is_law = not self.parameters and not any("->" in line for line in lines[at:end + 1])
        while number < len(lines):
            line = lines[number]
            if CLAUSE.match(line):
                last = until_balanced(lines, number, "{", "}")
                self.clauses.append((number + 1, lines[number:last + 1]))
                number = last + 1
                continue
            if line in (indent + "{", indent + "{}") or line.startswith(indent + "}") or FUNCTION.match(line):
                break
            number += 1
        start = number if number < len(lines) and lines[number].startswith(indent + "{") else None
        if not self.clauses and lines[end].rstrip().endswith(("{", "{}")):
            start = end
        if start is not None:
            stop = start
            while not lines[start].endswith("{}") and stop + 1 < len(lines) and lines[stop] != indent + "}":
                stop += 1
            self.body = filled(lines[start + 1:stop])


def functions(lines):
    return [Function(lines, at) for at, line in enumerate(lines) if FUNCTION.match(line)]


def longest(edges, weight):
    """The heaviest chain of crates, and the crate at its end."""
    found = {}

    def chain(name):
        if name not in found:
            found[name] = weight(name) + max((chain(below) for below in edges[name] if below in edges), default=0)
        return found[name]

    return max((chain(name), name) for name in edges)


class House:
    def __init__(self, top):
        self.edges = edges_of(top)
        self.code = self.product = self.specs = self.proofs = self.tests = self.edits = self.imports = self.lent = self.cited = 0
        self.sources, self.papers, self.clauses, self.bodies, self.inputs, self.many = [], [], [], [], [], []
        self.lemmas, self.modules = collections.defaultdict(list), collections.defaultdict(list)
        self.alike, self.texts, self.joined = collections.defaultdict(list), {}, []
        self.again = collections.Counter()
        self.cited_by, self.spoken, self.lawful = collections.defaultdict(list), collections.Counter(), set()
        self.lines, self.items, self.count = collections.Counter(), collections.Counter(), 0
        self.functions_of, self.code_of = collections.Counter(), collections.Counter()
        for crate in self.edges:
            for path in files(top, crate, "src", ".rt"):
                self.read_source(crate, path, path.relative_to(top))
            for path in files(top, crate, "specs", ".antt"):
                lines = self.read_paper(crate, path, path.relative_to(top))
                self.specs += filled(lines)
                self.read_definitions(crate, path, lines, path.relative_to(top))
                for word in words(lines):
                    self.modules[word].append(f"{crate}/{path.relative_to(top / 'crates' / crate / 'specs').with_suffix('')}")
            for path in files(top, crate, "proofs", ".antt"):
                self.read_proof(crate, path, path.relative_to(top))
            self.edits += len(files(top, crate, "must-fail", ".edit"))

    def read_source(self, crate, path, place):
        lines = path.read_text().splitlines()
        is_tests = crate.endswith("_tests")
        weight = filled(lines)
        self.sources.append((weight, str(place)))
        self.code += weight
        self.product += 0 if is_tests else weight
        self.lines[crate] += weight
        self.tests += sum(line.count("#[test]") for line in lines)
        self.imports += sum(1 for line in lines if IMPORT.match(line))
        self.lent += sum(1 for it in map(LENT.match, lines) if it and it.group(1) == it.group(2))
        found = functions(lines)
        self.count += len(found)
        self.items[crate] += len(found)
        self.functions_of[crate] += len(found)
        self.code_of[crate] += weight
        seen = set()
        for it in [] if is_tests else found:
            self.inputs.append((it.parameters, f"{place}:{it.line}"))
            self.many.append((len(it.clauses), f"{place}:{it.line}"))
            self.clauses += [(max(map(len, text)), f"{place}:{number}") for number, text in it.clauses]
            for number, text in it.clauses:
                told = " ".join(" ".join(text).split())
                self.joined.append((len(told), f"{place}:{number}"))
                self.again[str(place)] += told in seen
                seen.add(told)
                if it.is_law:
                    self.lawful.add(f"{place}:{number}")
                for name in set(NAME.findall(" ".join(text))):
                    self.cited_by[name].append(f"{place}:{number}")
            if it.body is not None:
                self.bodies.append((it.body, f"{place}:{it.line}"))

    def read_paper(self, crate, path, place):
        lines = path.read_text().splitlines()
        self.papers.append((filled(lines), str(place)))
        self.lines[crate] += filled(lines)
        self.imports += sum(1 for line in lines if IMPORT.match(line))
        return lines

    def read_definitions(self, crate, path, lines, place):
        """The lemmas that stand among definitions, and the words that definitions speak of."""
        for name, statement in statements(lines):
            if "≡" in statement:
                self.alike[renamed(statement)].append((crate, f"{place} {name}"))
        for line in lines:
            if not line.startswith(("use ", "pub use ", "--")):
                # the head of a word's own lines isn't a use of it
                own = line.split()[:1] if line and not line[0].isspace() else []
                self.spoken.update(set(NAME.findall(line)) - set(own) - words([line]))

    def read_proof(self, crate, path, place):
        lines = self.read_paper(crate, path, place)
        self.proofs += filled(lines)
        self.cited += sum(1 for it in map(CITED.match, lines) if it and it.group(1) != crate and it.group(1) in self.edges)
        found = list(statements(lines))
        self.items[crate] += len(found)
        if path.name not in OWN_LEMMAS:
            for name, statement in found:
                self.lemmas[statement].append((crate, f"{place} {name}"))
                self.alike[renamed(statement)].append((crate, f"{place} {name}"))

    def twice(self):
        """Statements that stand in more than one file, and of these the ones in more than one crate."""
        more = {s: at for s, at in self.lemmas.items() if len({where.split()[0] for _, where in at}) > 1}
        return more, {s: at for s, at in more.items() if len({crate for crate, _ in at}) > 1}

    def alike_across(self):
        """Statements that stand in more than one crate, up to the names that they bind."""
        return {s: at for s, at in self.alike.items() if len({crate for crate, _ in at}) > 1}

    def single(self):
        """The public words that one clause cites, and no other clause or definition."""
        return {word: self.cited_by[word][0] for word in self.modules if len(self.cited_by[word]) == 1 and not self.spoken[word]}

    def laws(self):
        """Of these, the statements of laws: those that a function that takes and gives nothing cites."""
        return {word for word, where in self.single().items() if where in self.lawful}

    def crowded(self):
        return [name for name in self.edges if self.functions_of[name] > 100 or self.code_of[name] > 1500]

    def wide(self):
        return [it for it in self.clauses if it[0] > WIDE]

    def tell(self):
        twice, across = self.twice()
        count, share = len(self.clauses), 100 / max(len(self.clauses), 1)
        over = len(self.wide())
        print(f"crates {len(self.edges)}")
        print(f"lines that aren't blank: code {self.code}, of it outside tests {self.product}; definitions {self.specs}; proofs {self.proofs}; "
              f"imports among them {self.imports}")
        print(f"definitions and proofs a line of code outside tests: {(self.specs + self.proofs) / self.product:.1f}")
        print(f"functions {self.count}, tests {self.tests}, must-fail edits {self.edits}")
        print(f"bodies: median {statistics.median(size for size, _ in self.bodies):g}, over 40 lines {sum(size > 40 for size, _ in self.bodies)}, "
              f"the longest {max(self.bodies)[0]} ({max(self.bodies)[1]})")
        print(f"source files: mean {self.code / len(self.sources):.1f}, over 300 lines {sum(size > 300 for size, _ in self.sources)}, "
              f"over 600 {sum(size > 600 for size, _ in self.sources)}, the longest {max(self.sources)[0]} ({max(self.sources)[1]})")
        print(f"files of definitions and proofs over 600 lines {sum(size > 600 for size, _ in self.papers)}, the longest {max(self.papers)[0]} ({max(self.papers)[1]})")
        print(f"clauses {count}, their widest line: median {statistics.median(it[0] for it in self.clauses):g}, over {WIDE} columns {over} ({over * share:.1f} of 100), "
              f"over 150 {sum(it[0] > 150 for it in self.clauses)}, the widest {max(self.clauses)[0]} ({max(self.clauses)[1]})")
        print(f"clauses, lines joined: mean {statistics.mean(it[0] for it in self.joined):.0f}, over 100 characters {sum(it[0] > 100 for it in self.joined)}, "
              f"over 150 {sum(it[0] > 150 for it in self.joined)}, the longest {max(self.joined)[0]} ({max(self.joined)[1]})")
        print(f"clauses that stand again within their file {sum(self.again.values())} ({sum(self.again.values()) * share:.1f} of 100), "
              f"the most {max(self.again.values())} ({max(self.again, key=self.again.get)})")
        print(f"functions of 12 clauses and more {sum(it[0] >= 12 for it in self.many)}, of 8 parameters and more {sum(it[0] >= 8 for it in self.inputs)}, "
              f"the most {max(self.inputs)[0]} ({max(self.inputs)[1]})")
        print(f"values lent to contracts alone (`let _x = x;`) {self.lent}")
        print(f"lemmas {sum(map(len, self.lemmas.values()))}, statements in more than one file {len(twice)}, in more than one crate {len(across)}; "
              f"citations of lemma files of crates below {self.cited}")
        print(f"statements in more than one crate up to the names that they bind, specs/ too: {len(self.alike_across())}")
        print(f"public words that serve one clause alone: {len(self.single())}, of them {len(self.laws())} statements of laws")
        crowded = self.crowded()
        print(f"crates of more than 100 functions or 1,500 lines of code: {len(crowded)}" + (f" ({', '.join(crowded)})" if crowded else ""))
        stand = collections.Counter(min(len(at), 4) for at in self.modules.values())
        print(f"public words of definitions {len(self.modules)}, in two modules {stand[2]}, in three {stand[3]}, in four and more {stand[4]}")
        for what, weights in (("crates", dict.fromkeys(self.edges, 1)), ("lines", self.lines), ("functions and lemmas", self.items)):
            weight, end = longest(self.edges, lambda name: weights[name])
            total = sum(weights[name] for name in self.edges)
            print(f"the longest chain by {what}: {weight} of {total} ({100 * weight / total:.0f} of 100), up to {end}")


def main():
    parser = argparse.ArgumentParser(description=__doc__, formatter_class=argparse.RawDescriptionHelpFormatter)
    parser.add_argument("--twice", action="store_true", help="list the lemma statements that stand in more than one crate")
    parser.add_argument("--wide", action="store_true", help=f"list the clauses with a line of more than {WIDE} columns, the widest first")
    parser.add_argument("--alike", action="store_true", help="list those that do up to the names that they bind, specs/ too")
    parser.add_argument("--single", action="store_true", help="list the public words that one clause alone cites, with that clause")
    parser.add_argument("--repeated", action="store_true", help="list the files in which clauses stand again, with how many")
    parser.add_argument("--held", action="store_true", help="hold that no statement stands in more than one crate")
    parser.add_argument("--words", action="store_true", help="list the public words of definitions that stand in three modules and more")
    parser.add_argument("top", nargs="?", default=pathlib.Path(__file__).resolve().parents[2], type=pathlib.Path, help="the repository")
    args = parser.parse_args()
    if not (args.top / "crates.txt").is_file():
        sys.exit(f"house.py: {args.top} has no crates.txt")
    house = House(args.top)
    if not house.clauses or not house.bodies:
        sys.exit(f"house.py: the crates of {args.top} have no function with a contract")
    if not args.held:
        house.tell()
    if args.twice or args.held:
        for statement, at in sorted(house.twice()[1].items(), key=lambda it: -len(it[1])):
            print(statement[:120])
            for _, where in at:
                print(f"    {where}")
    for statement, at in sorted(house.alike_across().items(), key=lambda it: -len(it[1])) if args.alike else []:
        print(statement[:120])
        for _, where in at:
            print(f"    {where}")
    laws = house.laws() if args.single else set()
    for word, where in sorted(house.single().items()) if args.single else []:
        print(f"{word} {where}" + (" law" if word in laws else ""))
    if args.held:
        across = len(house.twice()[1])
        print(f"{len(house.lemmas) - across} passed, {across} failed")
        sys.exit(1 if across else 0)
    if args.words:
        for word, at in sorted(house.modules.items(), key=lambda it: (-len(it[1]), it[0])):
            if len(at) >= 3:
                print(f"{word} {len(at)}: {', '.join(at)}")
    for place, count in house.again.most_common() if args.repeated else []:
        if count:
            print(f"{count:5} {place}")
    if args.wide:
        for width, where in sorted(house.wide(), reverse=True):
            print(f"{width:5} {where}")


if __name__ == "__main__":
    try:
        main()
    except BrokenPipeError:
        sys.stderr.close()
