#!/usr/bin/env python3
"""Runs a built program on the worked cases and the examples.

    tests/run.py PROGRAM [NAME ..]

A case has the files tests/cases/NAME, which is what the program reads; NAME.args, the words after the program's name,
one a line; and NAME.stdout, what it must write. tests/statuses has the status of each case that doesn't end with 0.
This is the form that 'rt try --cases' takes, but for the statuses.

An example is a file examples/NAME.log, with what 'check' and 'fold' must write in NAME.check and NAME.fold. Where there
is no NAME.fold the logs are refused, and both write NAME.check.

Each case of 'fold' is tried by 'run' too, in three ways, and so is each refusal by 'check': both commands answer as the
fold does. Cases of words and of single lines stand in lists here, and those of large inputs are made here. The last line
is 'N passed, N failed'.
"""
import argparse
import os
import subprocess
import sys
from dataclasses import dataclass, replace
from pathlib import Path

TOP = Path(__file__).resolve().parent.parent
ERRORS = {
    1: "raftreplay: usage\n",
    4: "raftreplay: read fault\n",
    5: "raftreplay: write fault\n",
    6: "raftreplay: no memory\n",
    7: "raftreplay: input too long\n",
}
REFUSALS = {b"syntax": 2, b"unlawful": 3}
LIMIT = 64 * 1024 * 1024
RUNS = [
    "run",
    "run --raft-pollers 1 --apply-pollers 1 --batch 1 --chunk 1",
    "run --chunk 3 --apply-pollers 16 --raft-pollers 16",
]

# Words that are no command, beside those of the cases.
USAGES = [
    "folds",
    "history 6x",
    "run x",
    "run --batch",
    "run --batch 03",
    "run --batch +3",
    "run --batch 257",
    "run --chunk 0",
    "run --chunk 65537",
    "run --raft-pollers 0",
    "run --apply-pollers 0",
    "run --apply-pollers 17",
    "run --apply-pollers 18446744073709551617",
    "gen",
    "gen 1 2",
    "selftest",
    "selftest 1 2",
]

# What may stand behind the first line of a text, and the fault of it.
FAULTS = [
    *(("store %s" % number, "2 BadNumber") for number in ["0", "00", "07", "+1", "-1", "1x", "1\r", "9223372036854775808"]),
    *(("store 1\nregion 1 %s -" % key, "3 BadKey") for key in ["6", "6x", "x6", "0x61"]),
    ("store 1 1", "2 BadLine"),
    ("store 1\nregi", "3 BadLine"),
    ("store 1\nregion 1 6d 61", "3 BadKey"),
    ("store 1\nlog 1\n6 1 1 commit 2 8 2\ncarry 6 1 1 empty", "5 BadCarry"),
    ("store 1\nlog 1\n6 1 1 commit 2 9 4097", "4 Limit"),
    ("store 1\nlog 1\n6 1 1 split right" + "".join(" %d %04x" % (at + 2, at + 1) for at in range(65)), "4 Limit"),
]


@dataclass(frozen=True)
class Case:
    name: str
    words: list
    data: bytes
    status: int
    out: bytes

    def wanted(self):
        return self.status, self.out, ERRORS.get(self.status, "")

    def got(self, program):
        done = subprocess.run([program, *self.words], input=self.data, capture_output=True, timeout=120)
        return done.returncode, done.stdout, done.stderr.decode("utf-8", "replace")


def statuses(file):
    lines = (line.split() for line in file.read_text().splitlines())
    return {name: int(status) for name, status in lines}


def worked(folder, ends):
    """The worked cases, each of three files. Whatever else is there is a fault."""
    files = {file.name for file in folder.iterdir() if file.is_file()}
    names = sorted(name for name in files if "." not in name)
    whole = {name + end for name in names for end in ("", ".args", ".stdout")}
    unfit = whole ^ {file.name for file in folder.iterdir()} | whole - files | ends.keys() - set(names)
    if unfit:
        sys.exit("a case is three files, NAME, NAME.args and NAME.stdout: see %s in %s" % (", ".join(sorted(unfit)), folder))
    for name in names:
        words = (folder / (name + ".args")).read_text().splitlines()
        yield Case(name, words, (folder / name).read_bytes(), ends.get(name, 0), (folder / (name + ".stdout")).read_bytes())


def one_peer_more(count, reply):
    """A region with this many peers, which is to have one more: the input, the status and the answer."""
    peers = " ".join(map(str, range(1, count + 1))).encode()
    after = b"2 1 range - - applied 6 left 0 normal peers %s 70" if reply == b"ok 1" else b"1 1 range - - applied 6 left 0 normal peers %s"
    data = b"raftreplay 2\nstore 1\nregion 1 - - %s\nlog 1\n6 1 1 add 70\nend\n" % peers
    return data, 0, b"store 1\nregion 1 epoch " + after % peers + b"\nreply 1 6 %s\n" % reply


def listed():
    """Words that are no command, lines with a fault, and the greatest number of peers."""
    for words in USAGES:
        yield Case(words, words.split(), b"", 1, b"")
    for lines, fault in FAULTS:
        data, out = b"raftreplay 1\n%s\nend\n" % lines.encode(), b"syntax %s\n" % fault.encode()
        yield Case(lines.split("\n")[-1][:60], ["fold"], data, 2, out)
    for count, reply in [(63, b"ok 1"), (64, b"badpeer")]:
        yield Case("one-peer-more-than-%d" % count, ["fold"], *one_peer_more(count, reply))


def large():
    yield Case("one-byte-too-long", ["fold"], b"a" * (LIMIT + 1), 7, b"")
    yield Case("as-long-as-allowed", ["fold"], b"a" * LIMIT, 2, b"syntax 1 BadHeader\n")


def examples(folder):
    """Each example by 'check' and by 'fold'."""
    for log in sorted(folder.glob("*.log")):
        data, checked, folded = log.read_bytes(), log.with_suffix(".check").read_bytes(), log.with_suffix(".fold")
        status = REFUSALS.get(checked.split(b" ")[0], 0)
        yield Case("%s is checked" % log.name, ["check"], data, status, checked)
        yield Case("%s is folded" % log.name, ["fold"], data, status, checked if status else folded.read_bytes())


def with_runs(cases):
    """The cases, and behind each the runs that answer the same."""
    for case in cases:
        yield case.name, case
        if case.words == ["fold"] or (case.words == ["check"] and case.status != 0):
            for run in RUNS:
                yield case.name, replace(case, name="%s, by %s" % (case.name, run), words=run.split())


def devices(program):
    """What only a real device shows: a reader that has gone away, and input that can't be read."""
    logs = b"raftreplay 1\nstore 1\nregion 1 - -\nend\n"
    read, write = os.pipe()
    os.close(read)
    done = subprocess.run([program, "fold"], input=logs, stdout=write, stderr=subprocess.PIPE)
    os.close(write)
    yield "the-reader-has-gone-away", (done.returncode, done.stderr.decode()), (5, ERRORS[5])
    folder = os.open("/", os.O_RDONLY)
    done = subprocess.run([program, "fold"], stdin=folder, capture_output=True)
    os.close(folder)
    yield "input-that-cannot-be-read", (done.returncode, done.stdout, done.stderr.decode()), (4, b"", ERRORS[4])
    done = subprocess.run([os.fsencode(program), b"\xff\xfe"], capture_output=True)
    yield "a-word-that-is-not-text", (done.returncode, done.stderr.decode()), (1, ERRORS[1])


def tries(program, chosen):
    """The name of each try, with what came and what was wanted."""
    folder = TOP / "tests"
    cases = [*worked(folder / "cases", statuses(folder / "statuses")), *listed(), *large(), *examples(TOP / "examples")]
    for name, case in with_runs(cases):
        if not chosen or name in chosen:
            yield case.name, case.got(program), case.wanted()
    if not chosen:
        yield from devices(program)


def main():
    parser = argparse.ArgumentParser(description="Runs a built program on the worked cases and the examples.")
    parser.add_argument("program", metavar="PROGRAM")
    parser.add_argument("chosen", metavar="NAME", nargs="*", help="the cases to run; else all of them")
    given = parser.parse_args()
    passed = failed = 0
    for name, got, wanted in tries(os.path.abspath(given.program), given.chosen):
        if got == wanted:
            passed += 1
            continue
        failed += 1
        print("case %s" % name)
        print("  wanted %s" % repr(wanted)[:1000])
        print("  got    %s" % repr(got)[:1000])
    print("%d passed, %d failed" % (passed, failed))
    return 1 if failed else 0


if __name__ == "__main__":
    sys.exit(main())
