#!/usr/bin/env python3
"""Refuses the allocations of a built program, one in each run.

    tests/memory.py PROGRAM [--short] [--only WORD]

For each command the Nth allocation is refused, for N from 1 until past the last one, on the example of two stores
and on examples/removal.log. Each run must end with status 6 and nothing written, or with the answer that it has
without a refusal; a run that doesn't end in time, or ends by a signal, fails. --short tries few N of each
command, each the sum of the two before; --only tries the commands whose name has this word.

Allocations are refused by tests/refuse.c, which is built by `cc`, `clang`, `gcc` or the kit's own compiler. Where there
is none this script says so, and is skipped. The last line is 'N passed, N failed'.
"""
import argparse
import os
import shutil
import subprocess
import tempfile
from dataclasses import dataclass

from judging import Answer, Judge, ask

HERE = os.path.dirname(os.path.abspath(__file__))
SECONDS = 60
# So many runs in a row without a refusal end the numbers of a command.
UNTOUCHED = 3

WORDS = [
    "check",
    "fold",
    "history 6131",
    "run --raft-pollers 1 --apply-pollers 1 --batch 1 --chunk 1",
    "run --raft-pollers 2 --apply-pollers 2 --batch 1 --chunk 1",
    "run --raft-pollers 16 --apply-pollers 16 --batch 1 --chunk 1",
]


@dataclass(frozen=True)
class Command:
    name: str
    words: list
    data: bytes


def commands():
    for file in ["two-stores.log", "removal.log"]:
        with open(os.path.join(HERE, "..", "examples", file), "rb") as text:
            data = text.read()
        for words in WORDS:
            yield Command("%s on %s" % (words, file), words.split(), data)
    for words in ["gen 0", "selftest 0"]:
        yield Command(words, words.split(), b"")


def compilers():
    """The compilers that there are, the kit's own as the last."""
    for name in ["cc", "clang", "gcc"]:
        if shutil.which(name):
            yield [name]
    kit = shutil.which("rt")
    if kit:
        bin = os.path.join(os.path.dirname(os.path.dirname(os.path.realpath(kit))), "toolchain", "bin")
        yield [os.path.join(bin, "clang"), "-nostdlib", "-fuse-ld=lld", "-B" + bin]


def build(folder):
    """Builds refuse.c, and gives the library's path; None where no compiler does."""
    library = os.path.join(folder, "refuse.so")
    for compiler in compilers():
        words = [*compiler, "-O1", "-fPIC", "-shared", "-fno-builtin", "-o", library, os.path.join(HERE, "refuse.c")]
        try:
            if subprocess.run(words, capture_output=True).returncode == 0:
                return library
        except OSError:
            continue
    return None


def refusing(program, command, library, number):
    """The answer of a run in which this allocation is refused, and whether it came to that."""
    with tempfile.TemporaryFile() as file:
        env = {**os.environ, "LD_PRELOAD": library, "REFUSE": str(number), "TOLD": str(file.fileno())}
        answer = ask(program, command.words, command.data, SECONDS, env=env, pass_fds=[file.fileno()])
        return answer, file.seek(0, os.SEEK_END) > 0


def after(number, before, short):
    """The number to try next: the next one, or the sum of the last two."""
    return number + before if short else number + 1


def try_command(judge, program, command, library, short):
    whole = ask(program, command.words, command.data)
    judge.hold("%s: no allocation is refused" % command.name, whole.status == 0, "got %s" % whole)
    number, before, untouched, refused = 1, 1, 0, 0
    # Threads make allocations in any order and number, so the end is where several runs were untouched.
    while untouched < UNTOUCHED:
        got, is_refused = refusing(program, command, library, number)
        wanted = (Answer.of(6), whole) if is_refused else (whole,)
        judge.hold("%s: allocation %d is refused" % (command.name, number), got in wanted, "got %s" % got)
        untouched = 0 if is_refused else untouched + 1
        refused += is_refused
        number, before = after(number, before, short), number
    judge.hold("%s: allocations were refused" % command.name, refused > 0, "none was")
    print("%s: %d allocations refused" % (command.name, refused), flush=True)


def main():
    parser = argparse.ArgumentParser(description="Refuses the allocations of a built program, one in each run.")
    parser.add_argument("program")
    parser.add_argument("--short", action="store_true", help="a few numbers of each command")
    parser.add_argument("--only", metavar="WORD", help="only the commands whose name has this word")
    chosen = parser.parse_args()
    judge = Judge()
    with tempfile.TemporaryDirectory() as folder:
        library = build(folder)
        if library is None:
            print("no C compiler builds tests/refuse.c: refused memory is skipped")
            return
        for command in commands():
            if chosen.only is None or chosen.only in command.name:
                try_command(judge, os.path.abspath(chosen.program), command, library, chosen.short)
    judge.end()


main()
