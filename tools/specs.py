#!/usr/bin/env python3
"""Writes docs/SPECS.md: each file of definitions, with the sentence in its first line.

    tools/specs.py           writes the page
    tools/specs.py --check   says whether it is up to date; the status is 1 where it isn't
"""
import argparse
import sys
from pathlib import Path

TOP = Path(__file__).resolve().parent.parent
PAGE = TOP / "docs" / "SPECS.md"
HEAD = """# The definitions, file by file

What contracts name stands in the folders `specs/`. This is the first line of each of their files, crate by crate in the
order of crates.txt, from the bottom up. The page is written by `make specs`, and the gate compares it.
"""


class Unfit(Exception):
    """A file that can't be listed."""


def crates():
    """The crates of crates.txt, in its order."""
    lines = (line.partition("#")[0] for line in (TOP / "crates.txt").read_text().splitlines())
    return [line.partition(":")[0].split()[0] for line in lines if line.strip()]


def sentence(file):
    """The sentence in a file's first line."""
    first = file.read_text().partition("\n")[0]
    if not first.startswith("-- ") or not first.endswith("."):
        raise Unfit("%s doesn't begin with a line '-- SENTENCE.'" % file.relative_to(TOP))
    return first[3:].replace("|", "\\|")


def page():
    """The whole page."""
    parts = [HEAD]
    for crate in crates():
        files = sorted(file for file in (TOP / "crates" / crate / "specs").rglob("*.antt") if file.name != "Lib.antt")
        if not files:
            continue
        rows = ["| [%s](../%s) | %s |" % (file.stem, file.relative_to(TOP), sentence(file)) for file in files]
        parts.append("\n".join(["## %s" % crate, "", "| File | |", "|---|---|", *rows, ""]))
    return "\n".join(parts)


def main():
    parser = argparse.ArgumentParser(description="Writes docs/SPECS.md from the first line of each file of definitions.")
    parser.add_argument("--check", action="store_true", help="says whether the page is up to date")
    given = parser.parse_args()
    try:
        text = page()
    except Unfit as why:
        print("specs: %s" % why, file=sys.stderr)
        return 1
    if not given.check:
        PAGE.write_text(text)
    elif not PAGE.exists() or PAGE.read_text() != text:
        print("specs: docs/SPECS.md is out of date: write it again by 'make specs'", file=sys.stderr)
        return 1
    return 0


if __name__ == "__main__":
    sys.exit(main())
