"""The contracts of the crates, read off their sources as text: of each public call its comment and the names of the clauses that say what it ensures."""
import re
from collections import namedtuple
from pathlib import Path

TOP = Path(__file__).resolve().parents[2]
WORD = r"[A-Za-z_][A-Za-z0-9_]*"
FUNCTION = re.compile(rf"(\s*)(pub(?:\([a-z]+\))? )?(?:const )?(?:unsafe )?fn ({WORD})")
BLOCK = re.compile(rf"(pub trait|impl)\b([^{{]*)")
CLAUSE = re.compile(rf"\s*ensures\*? (?:({WORD}) )?\{{")

# The comment of a call, its lines joined; the names of its clauses, `-` for one without; whether it is public.
Contract = namedtuple("Contract", "comment clauses public")


def kind_of(head):
    """The type that a block of methods is of: a trait's name, a type's, or that of the type which meets a trait."""
    head = re.sub(r"^\s*<[^>]*(?:<[^>]*>[^>]*)*>", "", head)
    head = re.split(r"\bfor\b", head)[-1]
    found = re.match(rf"\s*(?:{WORD}::)*({WORD})", head)
    return found[1] if found else None


def contracts_of(path):
    """Each function of a file by its type (None for one of its own) and its name."""
    lines, kind, comment = path.read_text().splitlines(), None, []
    for at, line in enumerate(lines):
        block = BLOCK.match(line)
        if block and not line.startswith(" "):
            kind = kind_of(block[2])
        elif line.startswith("}"):
            kind = None
        found = FUNCTION.match(line)
        if found:
            clauses, indent = [], found[1]
            for below in lines[at + 1:]:
                if below.startswith((indent + "{", indent + "}")) or FUNCTION.match(below) or not below.strip():
                    break
                clause = CLAUSE.match(below)
                if clause:
                    clauses.append(clause[1] or "-")
            yield (kind if indent else None, found[3]), Contract(" ".join(comment), clauses, bool(found[2]))
        stripped = line.strip()
        if stripped.startswith("///"):
            comment.append(stripped[3:].strip())
        elif not stripped.startswith(("#[", "//")):
            comment = []


def contracts(crate):
    """The contracts of a crate; of two functions of one name the public one."""
    found = {}
    for path in sorted((TOP / "crates" / crate / "src").rglob("*.rt")):
        for name, contract in contracts_of(path):
            if name not in found or contract.public and not found[name].public:
                found[name] = contract
    return found
