#!/usr/bin/env python3
"""Tests that each promise of docs/PROOFS.md stands on a clause: tests/promises.py

A row of a table there names one or more calls and one or more clauses. A call is `NAME`, `Type::NAME` or `crate::..`, and
a name without a type takes the type of the call before it in its row; a type or a trait may stand for its facts. A clause
is the name of an `ensures` or a `requires` of one of these calls, `ensures` where a call has one without a name, a fact of
its type, or a word of definitions that stands in such a clause or in its definition: a record, or a field of it. The files
of definitions that docs/READING.md lists must have fewer lines than it says, without imports. The last line is 'N passed,
N failed'.
"""
import re
import sys
from collections import defaultdict
from dataclasses import dataclass, field
from pathlib import Path

TOP = Path(__file__).resolve().parent.parent
PAGE = TOP / "docs" / "PROOFS.md"
READING = TOP / "docs" / "READING.md"
LISTED = re.compile(r"^(?:\d+\.|  ) .*", re.M)
SPEC_FILE = re.compile(r"\((\.\./crates/[^)]*\.antt)\)")
MOST_LINES = 1500
OWNER = re.compile(r"^(?:pub )?(?:unsafe )?(?:impl|trait)\b(.*)")
FUNCTION = re.compile(r"^( *)(?:pub(?:\([a-z]+\))? )?(?:unsafe )?fn (\w+)", re.M)
CLAUSE = re.compile(r"\b(?:ensures|requires)\*?(?: (\w+))? \{")
TYPE = re.compile(r"^(?:pub(?:\([a-z]+\))? )?(?:struct|trait) (\w+)(.*?)^\}", re.M | re.S)
FACT = re.compile(r"\bghost (\w+)(?:: | = )\{")
WORD = re.compile(r"[A-Za-z_][\w-]*")
DEFINED = re.compile(r"^(?:unfoldable |abbrev |record |data |pub )*([A-Za-z_][\w-]*)[^\n]*:", re.M)
FIELD = re.compile(r"^ +pub ([\w-]+) :", re.M)
NAMES = re.compile(r"`([^`]+)`")
DEPTH = 3


@dataclass
class Function:
    crate: str
    owner: str
    name: str
    clauses: set
    text: str


@dataclass
class Definitions:
    """The text of each word of the definitions, and the fields of each record."""

    texts: dict = field(default_factory=lambda: defaultdict(str))
    fields: dict = field(default_factory=lambda: defaultdict(set))


def owner_of(line):
    """The type of an `impl`, or the name of a trait."""
    rest = re.sub(r"<[^<>]*>", "", re.sub(r"<[^<>]*>", "", OWNER.match(line).group(1)))
    rest = rest.split(" where ")[0].split("{")[0].split(":")[0]
    return rest.split(" for ")[-1].strip()


def functions_of(path):
    """The functions of a source file, each with its clauses."""
    crate, text = path.relative_to(TOP / "crates").parts[0], path.read_text()
    owners = [(it.start(), owner_of(it.group(0))) for it in re.finditer(OWNER.pattern, text, re.M)]
    found = list(FUNCTION.finditer(text))
    for here, after in zip(found, found[1:] + [None]):
        part = text[here.start() : after.start() if after else len(text)]
        start, owner = max([it for it in owners if it[0] < here.start()], default=(0, "")) if here.group(1) else (0, "")
        facts = "".join(it for it in text[start : here.start()].split("\n") if owner and FACT.search(it))
        names = {it.group(1) or "ensures" for it in CLAUSE.finditer(part)} | set(FACT.findall(facts))
        yield Function(crate, owner, here.group(2), names, part + facts)


def types_of(path):
    """The structs and traits of a source file, each with its facts, as calls of no arguments."""
    crate = path.relative_to(TOP / "crates").parts[0]
    for it in TYPE.finditer(path.read_text()):
        yield Function(crate, "", it.group(1), set(FACT.findall(it.group(2))), it.group(2))


def definitions():
    """What the specs of all crates define. A definition goes on until the next line without indentation that defines."""
    defined = Definitions()
    for path in sorted(TOP.glob("crates/*/specs/**/*.antt")):
        text = path.read_text()
        starts = list(DEFINED.finditer(text))
        for here, after in zip(starts, starts[1:] + [None]):
            part = text[here.start() : after.start() if after else len(text)]
            defined.texts[here.group(1)] += part
            defined.fields[here.group(1)] |= set(FIELD.findall(part))
    return defined


def words_within(text, defined):
    """The words of definitions that a text names, those that their definitions name, and the records' fields."""
    seen, level = set(), set(WORD.findall(text))
    for _ in range(DEPTH):
        level = {it for it in level if it in defined.texts} - seen
        seen |= level
        level = {word for it in level for word in WORD.findall(defined.texts[it])}
    return seen | {name for it in seen for name in defined.fields[it]}


def calls_of(cell, functions):
    """The functions of each call that a cell names; a call that names none has an empty list."""
    owner, crate = "", ""
    for text in NAMES.findall(cell):
        *path, name = text.split("::")
        for part in path:
            if part.islower() or part.startswith("rs_"):
                crate, owner = part, ""
            else:
                owner = part
        fits = [it for it in functions[name] if (not owner or it.owner == owner) and (not crate or it.crate == crate)]
        yield text, fits or ([it for it in functions[name] if not path and not it.owner])
        crate = ""


def rows():
    for number, line in enumerate(PAGE.read_text().split("\n"), 1):
        cells = [it.strip() for it in line.strip().strip("|").split(" | ")] if line.startswith("| ") else []
        if len(cells) == 3 and cells[0] not in ("Promise",):
            yield number, cells
        elif line.startswith("| ") and not line.startswith("| Promise"):
            yield number, None


def fault_of(cells, functions, defined):
    """What is wrong with a row, or None."""
    if cells is None:
        return "a row has a promise, a call and a clause"
    calls = list(calls_of(cells[1], functions))
    missing = [text for text, found in calls if not found]
    if missing or not calls:
        return "no such call: %s" % (", ".join(missing) or "none is named")
    found = [it for _, each in calls for it in each]
    allowed = set().union(*(it.clauses for it in found), *(words_within(it.text, defined) for it in found))
    clauses = NAMES.findall(cells[2])
    wrong = [it for it in clauses if it not in allowed]
    if wrong or not clauses:
        return "no such clause: %s" % (", ".join(wrong) or "none is named")
    return None


def fault_of_reading():
    """Whether the list of definitions to read is longer than the page says."""
    listed = "\n".join(LISTED.findall(READING.read_text()))
    texts = [(READING.parent / it).read_text() for it in set(SPEC_FILE.findall(listed))]
    lines = sum(not it.startswith("use ") for text in texts for it in text.splitlines())
    return None if 0 < lines < MOST_LINES else "docs/READING.md: %d lines of definitions are listed" % lines


def main():
    functions, defined = defaultdict(list), definitions()
    for path in sorted(TOP.glob("crates/*/src/**/*.rt")):
        for it in [*functions_of(path), *types_of(path)]:
            functions[it.name].append(it)
    passed = failed = 0
    for number, cells in rows():
        fault = fault_of(cells, functions, defined)
        passed, failed = passed + (fault is None), failed + (fault is not None)
        if fault:
            print("docs/PROOFS.md, line %d: %s" % (number, fault))
    fault = fault_of_reading()
    passed, failed = passed + (fault is None), failed + (fault is not None)
    if fault:
        print(fault)
    print("%d passed, %d failed" % (passed, failed))
    return 1 if failed else 0


if __name__ == "__main__":
    sys.exit(main())
