#!/usr/bin/env python3
"""Tries a built program at each limit of docs/FORMAT.md: met exactly, and passed by one.

    tests/limits.py PROGRAM [--only WORD]

Where a limit is met, `check` counts what was read, and where the answer is not too long, `run` writes what
`fold` does. Where it is passed by one, the fault has the line and kind that docs/FORMAT.md tells: at one field
its own form comes first, then the limit, then what else is asked of it. --only takes the cases whose name has
this word. The last line is 'N passed, N failed'.
"""
import argparse
import functools
import os
from dataclasses import dataclass
from typing import Callable

from judging import Answer, Judge, ask

BYTES = 64 * 1024 * 1024
NUMBER = 9223372036854775807
STORES = 64
REGIONS = 4096
ENTRIES = 1048576
OPERATIONS = 1048576
WRITE = 1024
SPLIT = 64
CARRIED = 4096
PEERS = 64
KEY = 256
VALUE = 4096

REGION = "store 1\nregion 1 - -\nlog 1\n"
PEERED = "store 1\nregion 1 - - 1\nlog 1\n"
RUNS = ["run", "run --raft-pollers 16 --apply-pollers 16 --batch 256 --chunk 65536"]


@dataclass(frozen=True)
class Case:
    """The lines between the first line and `end`, and what `check` writes of them."""

    name: str
    lines: Callable[[], str]
    out: str
    version: int = 1
    runs: bool = False

    def text(self):
        return ("raftreplay %d\n%send\n" % (self.version, self.lines())).encode()

    def answer(self, text):
        """What is wanted. The fault of a text is at the line before `end`."""
        if self.out.startswith("lawful"):
            return Answer.of(0, b"%s\n" % self.out.encode())
        line = text.count(b"\n") - 1
        return Answer.of(2, b"syntax %d %s\n" % (line, self.out.encode()))


def met(name, lines, counts, version=1, runs=False):
    """A limit that is met: the stores, regions on stores and entries that `check` counts."""
    return Case(name, lambda: lines, "lawful " + counts, version, runs)


def passed(name, lines, kind, version=1):
    """A limit that is passed, in the last line."""
    return Case(name, lambda: lines, kind, version)


# Each place of a number that may be as great as any: the version, the lines, and what `check` counts.
NUMBERS = {
    "the id of a store": (1, "store {}\n", "1 0 0"),
    "the id of a region": (1, "store 1\nregion {} - -\n", "1 1 0"),
    "a peer": (2, "store 1\nregion 1 - - {}\n", "1 1 0"),
    "the region of a log": (1, "store 1\nlog {}\n", "1 0 0"),
    "conf_ver of an entry": (1, REGION + "6 {} 1 empty\n", "1 1 1"),
    "version of an entry": (1, REGION + "6 1 {} empty\n", "1 1 1"),
    "a new region of a split": (1, REGION + "6 1 1 split right {} 6d\n", "1 2 1"),
    "the target of a prepare": (1, REGION + "6 1 1 prepare {}\n", "1 1 1"),
    "the source of a commit": (1, REGION + "6 1 9 commit {} 6 0\n", "1 1 1"),
    "the prepare of a commit": (1, REGION + "6 1 9 commit 2 {} 0\n", "1 1 1"),
    "the prepare of a rollback": (1, REGION + "6 1 9 rollback {}\n", "1 1 1"),
    "the index of a carried entry": (1, REGION + "6 1 9 commit 2 %d 1\ncarry {} 1 1 prepare 1\n" % NUMBER, "1 1 1"),
    "conf_ver of a carried entry": (1, REGION + "6 1 9 commit 2 6 1\ncarry 6 {} 1 prepare 1\n", "1 1 1"),
    "version of a carried entry": (1, REGION + "6 1 9 commit 2 6 1\ncarry 6 1 {} prepare 1\n", "1 1 1"),
    "the target of a carried prepare": (1, REGION + "6 1 9 commit 2 6 1\ncarry 6 1 1 prepare {}\n", "1 1 1"),
    "a peer to add": (2, PEERED + "6 1 1 add {}\n", "1 1 1"),
    "a peer to remove": (2, PEERED + "6 9 1 remove {}\n", "1 1 1"),
}


def numbers():
    for name, (version, lines, counts) in NUMBERS.items():
        yield met(name, lines.format(NUMBER), counts, version, runs=True)
        yield passed(name + ", one more", lines.format(NUMBER + 1), "BadNumber", version)
    yield passed("the index of an entry", REGION + "%d 1 1 empty\n" % NUMBER, "BadIndex")
    yield passed("the index of an entry, one more", REGION + "%d 1 1 empty\n" % (NUMBER + 1), "BadNumber")
    yield passed("how many are carried", REGION + "6 1 9 commit 2 %d %d\n" % (NUMBER, NUMBER), "Limit")
    yield passed("how many are carried, one more", REGION + "6 1 9 commit 2 6 %d\n" % (NUMBER + 1), "BadNumber")


def stores():
    many = "".join("store %d\nregion %d - -\n" % (n, 1) for n in range(1, STORES + 1))
    yield met("64 stores", many, "64 64 0", runs=True)
    yield passed("65 stores", many + "store 65\n", "Limit")
    yield passed("65 stores, of a lesser id", many + "store 5\n", "Limit")
    yield passed("65 stores, of no id", many + "store 0\n", "BadNumber")


def region_lines(first, count, peers=""):
    """Lines of regions that lie side by side, between the keys of these numbers."""
    return "".join("region %d %04x %04x%s\n" % (n, n, n + 1, peers) for n in range(first, first + count))


def splits(count, most=SPLIT, side="right"):
    """Entries that split this many regions off region 1, at most so many in each."""
    text, version = [], 1
    for at, first in enumerate(range(0, count, most)):
        ids = range(first, min(first + most, count))
        pairs = "".join(" %d %04x" % (n + 2, n + 1) for n in ids)
        text.append("%d 1 %d split %s%s\n" % (6 + at, version, side, pairs))
        version += len(ids)
    return "".join(text)


def regions():
    whole = "store 1\n" + region_lines(1, REGIONS)
    last = REGIONS + 1
    yield met("4,096 regions", whole, "1 %d 0" % REGIONS, runs=True)
    yield met("4,096 regions with peers", "store 1\n" + region_lines(1, REGIONS, " 1 2"), "1 %d 0" % REGIONS, version=2)
    yield passed("4,097 regions", whole + region_lines(last, 1), "Limit")
    yield passed("4,097 regions with peers", "store 1\n" + region_lines(1, last, " 1"), "Limit", version=2)
    yield passed("4,097 regions, of a lesser id", whole + region_lines(7, 1), "Limit")
    yield passed("4,097 regions, of no id", whole + "region 0 - -\n", "BadNumber")
    half = REGIONS // 2
    stores = "store 1\n" + region_lines(1, half) + "store 2\n" + region_lines(half + 1, half)
    yield met("4,096 regions of two stores", stores, "2 %d 0" % REGIONS)
    yield passed("4,097 regions of two stores", stores + region_lines(last, 1), "Limit")
    by_splits = REGION + splits(REGIONS - 1)
    yield met("4,096 regions by splits", by_splits, "1 %d %d" % (REGIONS, -(-REGIONS // SPLIT)), runs=True)
    yield passed("4,097 regions by splits", REGION + splits(REGIONS), "Limit")
    yield passed("4,097 regions by splits, of no id", by_splits.rstrip("\n") + " 0 ffff\n", "BadNumber")
    yield passed("4,097 regions by splits and another store", by_splits + "store 2\nregion 1 - -\n", "Limit")


@functools.lru_cache(maxsize=1)
def entries(count):
    """The log of region 1 with this many entries, which are all empty."""
    return REGION + "".join("%d 1 1 empty\n" % index for index in range(6, 6 + count))


def long_logs():
    """The total of entries, which those of all logs and those that are carried have in common."""
    name, carries = "1,048,576 entries", "%d 1 9 commit 2 6 1\ncarry %s 1 1 prepare 1\n"

    def case(title, count, lines, out, runs=False):
        return Case(title, lambda: entries(count) + lines, out, runs=runs)

    near, last = ENTRIES - 2, 6 + ENTRIES - 2
    one, two = "%d 1 1 empty\n" % last, "%d 1 1 empty\n" % (last + 1)
    yield case(name, near, one + two, "lawful 1 1 %d" % ENTRIES, runs=True)
    yield case(name + ", one of them carried", near, carries % (last, 6), "lawful 1 1 %d" % (ENTRIES - 1))
    yield case(name + " of two stores", near, one + "store 2\nregion 1 - -\nlog 1\n6 1 1 empty\n", "lawful 2 2 %d" % ENTRIES)
    yield case(name + " and one more", near, one + two + "%d 1 1 empty\n" % (last + 2), "Limit")
    yield case(name + " and one more, of no index", near, one + two + "07 1 1 empty\n", "BadNumber")
    yield case(name + " and one more, of another index", near, one + two + "7 1 1 empty\n", "Limit")
    yield case(name + " and one more, carried", near, one + carries % (last + 1, 6), "Limit")
    yield case(name + " and one more, carried, of another index", near, one + carries % (last + 1, 7), "Limit")
    yield case(name + " and one more, carried, of no index", near, one + carries % (last + 1, "x"), "BadNumber")
    yield case(name + " and one more of another store", near, one + two + "store 2\nlog 1\n6 1 1 empty\n", "Limit")


def write(index, count, operation=" del 61"):
    """An entry that writes by this many operations."""
    return "%d 1 1 write%s\n" % (index, operation * count)


@functools.lru_cache(maxsize=1)
def writes(count):
    """The log of region 1 with this many writes, which are all as long as may be."""
    return REGION + "".join(write(index, WRITE) for index in range(6, 6 + count))


def long_writes():
    """The total of operations, which those of all logs and those that are carried have in common."""
    name, carries = "1,048,576 operations", "%d 1 9 commit 2 7 2\ncarry 6 1 1 write%s\ncarry 7 1 1 prepare 1\n"
    near = OPERATIONS // WRITE - 1
    last = 6 + near

    def case(title, lines, out, runs=False):
        return Case(title, lambda: writes(near) + lines, out, runs=runs)

    yield case(name, write(last, WRITE), "lawful 1 1 %d" % (near + 1), runs=True)
    yield case(name + ", of both kinds", write(last, WRITE, " put 61 31"), "lawful 1 1 %d" % (near + 1))
    yield case(name + ", some of them carried", carries % (last, " del 61" * WRITE), "lawful 1 1 %d" % (near + 1))
    full = write(last, WRITE)
    yield case(name + " and one more", full + write(last + 1, 1), "Limit")
    yield case(name + " and one more, a put", full + write(last + 1, 1, " put 61 31"), "Limit")
    yield case(name + " and one more, by no word", full + write(last + 1, 1, " pull 61"), "BadLine")
    yield case(name + " and one more, of a bad key", full + write(last + 1, 1, " del 6"), "Limit")
    yield case(name + " and one more, carried", full + carries.split("\n")[0] % (last + 1) + "\ncarry 6 1 1 write del 61\n", "Limit")


def single_writes():
    carry = REGION + "6 1 9 commit 2 7 2\ncarry 6 1 1 write%s\n"
    for word, operation in [("del", " del 61"), ("put", " put 61 31")]:
        title = "a write of 1,024 operations " + word
        yield met(title, REGION + write(6, WRITE, operation), "1 1 1", runs=True)
        yield passed(title + " and one more", REGION + write(6, WRITE + 1, operation), "Limit")
        yield met(title + ", carried", carry % (operation * WRITE) + "carry 7 1 1 prepare 1\n", "1 1 1")
        yield passed(title + ", carried, and one more", carry % (operation * (WRITE + 1)), "Limit")
    more = REGION + write(6, WRITE).rstrip("\n")
    yield passed("a write of 1,024 operations and one more, by no word", more + " pull\n", "BadLine")
    yield passed("a write of 1,024 operations and one more, of a bad key", more + " del 6\n", "Limit")


def single_splits():
    for side in ["right", "left"]:
        title = "a split into 64 new regions, " + side
        most = REGION + splits(SPLIT, side=side)
        yield met(title, most, "1 65 1", runs=True)
        yield passed(title + ", and one more", REGION + splits(SPLIT + 1, SPLIT + 1, side), "Limit")
        yield passed(title + ", and one more of no id", most.rstrip("\n") + " 0 ffff\n", "BadNumber")
        yield passed(title + ", and one more of a bad key", most.rstrip("\n") + " 70 f\n", "Limit")


def carried_lists():
    commit = REGION + "6 1 9 commit 2 %d %d\n"
    last = CARRIED + 5
    carries = "".join("carry %d 1 1 empty\n" % index for index in range(6, last)) + "carry %d 1 1 prepare 1\n" % last
    yield met("4,096 carried entries", commit % (last, CARRIED) + carries, "1 1 1", runs=True)
    yield passed("4,097 carried entries", commit % (last + 1, CARRIED + 1), "Limit")
    yield passed("4,097 carried entries, too early", commit % (6, CARRIED + 1), "Limit")
    yield passed("4,096 carried entries, one too early", commit % (last - 1, CARRIED), "BadCarry")


def peer_lists():
    line = "store 1\nregion 1 - - " + " ".join(map(str, range(1, PEERS + 1)))
    yield met("64 peers", line + "\n", "1 1 0", version=2, runs=True)
    yield passed("65 peers", line + " 65\n", "Limit", version=2)
    yield passed("65 peers, of a lesser id", line + " 5\n", "Limit", version=2)
    yield passed("65 peers, of no id", line + " 0\n", "BadNumber", version=2)


# Each place of a key, and what `check` counts.
KEYS = {
    "the start of a region": ("store 1\nregion 1 {} -\n", "1 1 0"),
    "the end of a region": ("store 1\nregion 1 - {}\n", "1 1 0"),
    "the key of a put": (REGION + "6 1 1 write put {} 31\n", "1 1 1"),
    "the key of a del": (REGION + "6 1 1 write del {}\n", "1 1 1"),
    "the key of a split": (REGION + "6 1 1 split left 2 {}\n", "1 2 1"),
}
# Each place of a value.
VALUES = {"the value of a put": (REGION + "6 1 1 write put 61 {}\n", "1 1 1")}
CARRY = REGION + "6 1 9 commit 2 7 2\ncarry 6 1 1 write put %s\n"


def keys_and_values():
    for places, most in [(KEYS, KEY), (VALUES, VALUE)]:
        for name, (lines, counts) in places.items():
            yield met("%s, %d bytes" % (name, most), lines.format("6D" * most), counts, runs=True)
            yield passed("%s, one byte more" % name, lines.format("6d" * (most + 1)), "Limit")
            yield passed("%s, one byte more and a bad digit" % name, lines.format("6d" * most + "6x"), "BadKey")
    both = CARRY % ("6d" * KEY + " " + "6d" * VALUE) + "carry 7 1 1 prepare 1\n"
    yield met("the longest key and value, carried", both, "1 1 1", runs=True)
    yield passed("a carried key, one byte more", CARRY % ("6d" * (KEY + 1) + " 31"), "Limit")
    yield passed("a carried value, one byte more", CARRY % ("61 " + "6d" * (VALUE + 1)), "Limit")


def cases():
    for part in [numbers, stores, regions, long_logs, long_writes, single_writes, single_splits, carried_lists, peer_lists, keys_and_values]:
        yield from part()


def try_case(judge, program, case):
    """One case by `check`, and by `fold` and `run` where it asks for them."""
    text = case.text()
    judge.compare(case.name, ask(program, ["check"], text), case.answer(text))
    if not case.runs:
        return
    fold = ask(program, ["fold"], text)
    judge.hold(case.name + ", by fold", fold.status == 0, "got %s" % fold)
    for words in RUNS:
        judge.compare("%s, by %s" % (case.name, words), ask(program, words.split(), text), fold)


def try_bytes(judge, program):
    """As many bytes as may be read, and one more."""
    lines = b"raftreplay 1\nstore 1\nregion 1 - -\n"
    whole = lines + b" " * (BYTES - len(lines) - 4) + b"end\n"
    for words in ["check", "fold", "history 61", "run"]:
        got = ask(program, words.split(), whole)
        judge.hold("64 MiB, by " + words, got.status == 0, "got %s" % got)
        judge.compare("64 MiB and a byte, by " + words, ask(program, words.split(), whole + b" "), Answer.of(7))


def try_words(judge, program):
    """The limits of words: the longest key, the greatest N, and each option's least and greatest number."""
    text = (Case("", lambda: REGION, "").text())
    for digits, status in [("6d" * KEY, 0), ("6D" * (KEY + 1), 1)]:
        got = ask(program, ["history", digits], text)
        judge.hold("history of %d digits" % len(digits), got.status == status, "got %s" % got)
    fold = ask(program, ["fold"], text)
    for option, most in [("--raft-pollers", 16), ("--apply-pollers", 16), ("--batch", 256), ("--chunk", 65536)]:
        for number in [1, most]:
            judge.compare("%s %d" % (option, number), ask(program, ["run", option, str(number)], text), fold)
        for number in [0, most + 1]:
            judge.compare("%s %d" % (option, number), ask(program, ["run", option, str(number)], text), Answer.of(1))
    # Numbers that are equal modulo 32,000 make the same logs.
    same = ask(program, ["gen", str(NUMBER % 32000)])
    judge.compare("gen of the greatest number", ask(program, ["gen", str(NUMBER)]), same)
    rounds = 1 + NUMBER % 2000
    line = "selftest %d equal 2 %d %d %d\n" % (NUMBER, 2 * (1 + rounds), 14 * rounds, 12 * rounds)
    judge.compare("selftest of the greatest number", ask(program, ["selftest", str(NUMBER)]), Answer.of(0, line.encode()))
    for word in ["gen", "selftest"]:
        judge.compare("%s of one more" % word, ask(program, [word, str(NUMBER + 1)]), Answer.of(1))


def main():
    parser = argparse.ArgumentParser(description="Tries a built program at each limit.")
    parser.add_argument("program")
    parser.add_argument("--only", metavar="WORD", help="only the cases whose name has this word")
    chosen = parser.parse_args()
    program, judge = os.path.abspath(chosen.program), Judge()
    for case in cases():
        if chosen.only is None or chosen.only in case.name:
            try_case(judge, program, case)
    if chosen.only is None:
        try_bytes(judge, program)
        try_words(judge, program)
    judge.end()


main()
