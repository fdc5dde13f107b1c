#!/usr/bin/env python3
"""Tests that the documents are so: README.md, CONTRIBUTING.md, docs/*.md and examples/README.md.

    tests/documents.py PROGRAM [PAGE ..]

A block with lines '$ COMMAND' is run, at the top of a copy of the repository in which PROGRAM is the built program, and
what follows each command must be what it writes. There 'rt' only runs PROGRAM, in the place of building it. A block of
commands without '$ ' proves or builds: nothing of what they write is shown, they begin with make, rt or cd, and their
targets and crates are looked up. Under a line '<!-- not run: WHY -->' nothing of a block is tested.

A block that is a whole log text must be lawful. Every other block of README.md stands in a file of examples/, word for
word. What a link names must be there, and a link [`NAME`](FILE) to a file of definitions or code says that FILE has
NAME. Pages and pictures that are made must be up to date. The last line is 'N passed, N failed'.
"""
import argparse
import os
import re
import subprocess
import sys
import tempfile
from dataclasses import dataclass
from pathlib import Path

TOP = Path(__file__).resolve().parent.parent
PROGRAM = "crates/raftreplay/out/raftreplay"
BUILDS = ("make", "rt", "cd")
RUNS = re.compile(r"(raftreplay [a-z]|crates/|python3 |tools/|tests/|bash |cat )")
LINK = re.compile(r"\[([^\]]*)\]\(([^)#\s]+)(?:#[^)]*)?\)")
TARGET = re.compile(r"`make ([a-z]+)")
SECONDS = 600
# Logs may be refused, and 'head' may end before the program has written all.
ENDS = (0, 2, 3, 5, 141)
STAND_IN = """#!/bin/sh
# In the place of building the program, runs it: rt try -- WORDS, rt run -- WORDS.
while [ $# -gt 0 ] && [ "$1" != -- ]; do shift; done
shift
exec %s "$@"
"""


@dataclass(frozen=True)
class Block:
    """Lines of a document that are set apart, without their indentation."""

    page: str
    line: int
    lines: list

    def name(self):
        return "%s, line %d" % (self.page, self.line)


@dataclass(frozen=True)
class Result:
    name: str
    fault: str


def pages():
    files = [TOP / "README.md", TOP / "CONTRIBUTING.md", *sorted((TOP / "docs").glob("*.md")), TOP / "examples" / "README.md"]
    return [(str(file.relative_to(TOP)), file.read_text()) for file in files]


def end_of(lines, at, goes_on):
    """The first place from a place on whose line doesn't go on."""
    while at < len(lines) and goes_on(lines[at]):
        at += 1
    return at


def blocks(page, text):
    """The blocks of a page: fenced lines, and lines indented by four spaces behind an empty one."""
    lines, at, is_skipped = text.split("\n"), 0, False
    while at < len(lines):
        line = lines[at]
        if line.startswith("```"):
            end = end_of(lines, at + 1, lambda it: not it.startswith("```"))
            block, after = Block(page, at + 2, lines[at + 1:end]), end + 1
        elif line.startswith("    ") and (at == 0 or not lines[at - 1]):
            after = end_of(lines, at, lambda it: not it or it.startswith("    "))
            block = Block(page, at + 1, [it[4:] for it in lines[at:after]])
        else:
            is_skipped = line.startswith("<!-- not run: ") or (is_skipped and not line)
            at += 1
            continue
        if not is_skipped:
            yield block
        is_skipped, at = False, after


def trimmed(lines):
    """The lines without the empty ones at their end."""
    count = len(lines)
    while count and not lines[count - 1]:
        count -= 1
    return lines[:count]


def sessions(lines):
    """Each command of a block with the lines that follow it."""
    command, output = None, []
    for line in lines:
        if line.startswith("$ "):
            if command:
                yield command, trimmed(output)
            command, output = line[2:], []
        else:
            output.append(line)
    if command:
        yield command, trimmed(output)


class Copy:
    """A copy of the repository, by links, in which commands may write."""

    def __init__(self, folder, program):
        self.folder = Path(folder)
        self.link_all(TOP, self.folder, {".git", "crates"})
        self.link_all(TOP / "crates", self.folder / "crates", {"raftreplay"})
        self.link_all(TOP / "crates" / "raftreplay", self.folder / "crates" / "raftreplay", {"out"})
        (self.folder / PROGRAM).parent.mkdir()
        (self.folder / PROGRAM).symlink_to(program)
        (self.folder / "bin").mkdir()
        (self.folder / "bin" / "raftreplay").symlink_to(program)
        stand_in = self.folder / "bin" / "rt"
        stand_in.write_text(STAND_IN % program)
        stand_in.chmod(0o755)

    def link_all(self, source, folder, but):
        folder.mkdir(exist_ok=True)
        for file in source.iterdir():
            if file.name not in but:
                (folder / file.name).symlink_to(file)

    def run(self, command):
        """What a command writes, and how it ended where that wasn't well."""
        env = {name: value for name, value in os.environ.items() if name not in ("MAKEFLAGS", "MAKELEVEL", "MFLAGS")}
        env["PATH"] = "%s:%s" % (self.folder / "bin", env["PATH"])
        try:
            done = subprocess.run(
                ["bash", "-o", "pipefail", "-c", command], cwd=self.folder, env=env,
                stdin=subprocess.DEVNULL, capture_output=True, text=True, timeout=SECONDS)
        except subprocess.TimeoutExpired:
            return ["it had not ended after %d seconds" % SECONDS]
        lines = done.stdout.splitlines()
        if done.returncode not in ENDS:
            lines.append("it ended with %d: %s" % (done.returncode, done.stderr.strip()))
        return lines


def shown(lines):
    return "\n".join("      " + line for line in lines[:40]) or "      nothing"


def run_session(copy, block):
    for command, wanted in sessions(block.lines):
        got = copy.run(command)
        fault = "" if got == wanted else "    it shows\n%s\n    and the command writes\n%s" % (shown(wanted), shown(got))
        yield Result("%s: $ %s" % (block.name(), command), fault)


def targets():
    return set(re.findall(r"^([a-z]+):", (TOP / "Makefile").read_text(), re.M))


def crates():
    return set(re.findall(r"^(\w+)[^:#\n]*:", (TOP / "crates.txt").read_text(), re.M))


def build_fault(line):
    """What is wrong with a command that proves or builds."""
    words = line.partition("#")[0].split()
    if words[0] not in BUILDS:
        return "%s: a command without '$ ' isn't tested" % line
    if words[0] == "make" and len(words) > 1 and words[1] not in targets():
        return "%s: the Makefile has no target %s" % (line, words[1])
    if words[0] == "cd" and not (TOP / words[1]).is_dir():
        return "%s: there is no such folder" % line
    named = [word for word in re.findall(r"\brs_\w+", line) if word not in crates()]
    return "%s: crates.txt has no crate %s" % (line, named[0]) if named else ""


def log_fault(copy, lines):
    done = subprocess.run([copy.folder / PROGRAM, "check"], input="\n".join([*lines, ""]), capture_output=True, text=True)
    return "" if done.returncode == 0 else "these logs aren't lawful: %s" % done.stdout


def example_fault(lines):
    texts = ("\n" + file.read_text() for file in sorted((TOP / "examples").rglob("*")) if file.is_file() and file.suffix != ".md")
    return "" if any("\n%s\n" % "\n".join(lines) in text for text in texts) else "no file of examples/ has these lines"


def try_block(copy, block):
    """What is tested of a block."""
    lines = trimmed(block.lines)
    if any(line.startswith("$ ") for line in lines):
        yield from run_session(copy, block)
    elif any(line.split(" ")[0] in BUILDS or RUNS.match(line) for line in lines):
        for line in filter(None, lines):
            yield Result(block.name(), build_fault(line))
    elif re.match(r"raftreplay \d", lines[0]) and lines[-1] == "end":
        yield Result(block.name(), log_fault(copy, lines))
    elif block.page == "README.md":
        yield Result(block.name(), example_fault(lines))


def has_name(text, name):
    """Whether a file of definitions, or of code, has something of this name."""
    word = re.escape(name)
    code = r"\b(fn|struct|enum|trait|type|const) %s\b" % word
    definition = r"^ *(\w+ )*pub (\w+ )*%s\b" % word
    return re.search("%s|%s" % (code, definition), text, re.M)


def link_fault(page, label, path):
    file = (TOP / page).parent / path
    if not file.exists():
        return "there is no %s, which is named here" % os.path.relpath(file, TOP)
    name = re.fullmatch(r"`(\w+)`", label)
    if name and file.suffix in (".antt", ".rt") and not has_name(file.read_text(), name[1]):
        return "%s has no %s, which is named here" % (os.path.relpath(file, TOP), name[1])
    return ""


def try_links(page, text):
    """What a page names: links, and targets of make."""
    for label, path in LINK.findall(text):
        if "://" not in path:
            yield Result("%s: a link" % page, link_fault(page, label, path))
    for target in TARGET.findall(text):
        yield Result("%s: a command" % page, "" if target in targets() else "the Makefile has no target %s" % target)


def lineage(log, fold, *more):
    done = subprocess.run(
        [sys.executable, TOP / "tools" / "lineage.py", *more, log], input=fold, capture_output=True)
    return done.returncode, done.stdout, done.stderr.decode()


def try_pictures(program):
    """The text form of every example, and the pictures in docs/, each of the example of its name."""
    for log in sorted((TOP / "examples").glob("*.log")):
        fold = subprocess.run([program, "fold"], input=log.read_bytes(), capture_output=True).stdout
        status, text, why = lineage(log, fold, "--text")
        wanted = log.with_suffix(".regions")
        if not wanted.exists():
            yield Result("the picture of %s" % log.name, "" if status == 1 and "refused" in why else "it has no .regions")
            continue
        yield Result("the picture of %s" % log.name, "" if text == wanted.read_bytes() else "%s is another" % wanted.name + why)
        drawn = TOP / "docs" / (log.stem + ".svg")
        if drawn.exists():
            same = lineage(log, fold)[1] == drawn.read_bytes()
            yield Result("docs/%s" % drawn.name, "" if same else "it is out of date: 'make pictures' draws it again")
    status, _, why = lineage(TOP / "examples" / "rollback.log", (TOP / "examples" / "two-stores.fold").read_bytes())
    yield Result("a fold of other logs", "" if status == 1 and "same logs" in why else "it isn't refused")


def try_pages():
    """The page that is made, and the list of examples."""
    done = subprocess.run([sys.executable, TOP / "tools" / "specs.py", "--check"], capture_output=True, text=True)
    yield Result("docs/SPECS.md", done.stderr if done.returncode else "")
    listed = (TOP / "examples" / "README.md").read_text()
    for log in sorted((TOP / "examples").glob("*.log")):
        yield Result("examples/README.md", "" if "`%s`" % log.name in listed else "it doesn't tell of %s" % log.name)


def results(program, chosen):
    with tempfile.TemporaryDirectory() as folder:
        copy = Copy(folder, program)
        for page, text in pages():
            if chosen and page not in chosen:
                continue
            for block in blocks(page, text):
                yield from try_block(copy, block)
            yield from try_links(page, text)
    if not chosen:
        yield from try_pictures(program)
        yield from try_pages()


def main():
    parser = argparse.ArgumentParser(description="Tests that the documents are so.")
    parser.add_argument("program", metavar="PROGRAM")
    parser.add_argument("chosen", metavar="PAGE", nargs="*", help="the pages to test, as README.md; else all that there is")
    given = parser.parse_args()
    passed = failed = 0
    for result in results(os.path.abspath(given.program), given.chosen):
        if not result.fault:
            passed += 1
            continue
        failed += 1
        print("%s\n  %s" % (result.name, result.fault))
    print("%d passed, %d failed" % (passed, failed))
    return 1 if failed else 0


if __name__ == "__main__":
    sys.exit(main())
