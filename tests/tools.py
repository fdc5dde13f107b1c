#!/usr/bin/env python3
"""Tests the tools of tools/ with a built program.

    tests/tools.py PROGRAM [--seeds N]

It makes the example of examples/from-tikv again and compares all its files; turns N random log texts (20) into dumps
and back; and gives the tools bad input. The last line is 'N passed, N failed'.
"""
import argparse
import os
import sys
import tempfile

HERE = os.path.dirname(os.path.abspath(__file__))
sys.path[:0] = [os.path.join(HERE, "tikv"), os.path.join(HERE, "..", "tools")]

import conversions  # noqa: E402
import example  # noqa: E402
import mutations  # noqa: E402
import refusals  # noqa: E402
import round_trips  # noqa: E402
from harness import TOP, Harness  # noqa: E402


def files_of(folder):
    """The files of a folder, by name."""
    files = {}
    for name in sorted(os.listdir(folder)):
        with open(os.path.join(folder, name), "rb") as file:
            files[name] = file.read()
    return files


def test_example(harness):
    """Each file of the example is what is made for it now."""
    with tempfile.TemporaryDirectory() as folder:
        example.make(harness.program, folder)
        made = files_of(folder)
    kept = files_of(os.path.join(TOP, "examples", "from-tikv"))
    kept.pop("README.md", None)
    harness.judge("example: names of files", sorted(made), sorted(kept))
    for name in sorted(made):
        harness.judge("example: %s" % name, made[name], kept.get(name))


def main():
    parser = argparse.ArgumentParser(description="Tests the tools of tools/ with a built program.")
    parser.add_argument("program", metavar="PROGRAM")
    parser.add_argument("--seeds", type=int, default=20, help="how many random texts go there and back (20)")
    wanted = parser.parse_args()
    with tempfile.TemporaryDirectory() as folder:
        harness = Harness(os.path.abspath(wanted.program), folder)
        test_example(harness)
        texts = round_trips.texts(harness)
        for seed in range(wanted.seeds):
            round_trips.there_and_back(harness, seed, texts)
        for seed in range(max(wanted.seeds // 10, 10)):
            round_trips.later_begin(harness, seed)
        conversions.test(harness)
        refusals.test(harness)
        mutations.test(harness)
    print("%d passed, %d failed" % (harness.passed, harness.failed))
    sys.exit(1 if harness.failed else 0)


if __name__ == "__main__":
    main()
