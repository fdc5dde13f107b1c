#!/usr/bin/env python3
"""Proves the program's crates and builds it by 'rt run', and writes a line for each crate as it is proved.

Before that it says how long this takes, as CONTRIBUTING.md has it. All that rt writes goes to crates/raftreplay/out/build.log.
"""
import re
import subprocess
import sys
import time
from pathlib import Path

TOP = Path(__file__).resolve().parent.parent
CRATE = TOP / "crates" / "raftreplay"
LOG = CRATE / "out" / "build.log"
PROVED = re.compile(r"crate (\w+): modules ")
CHOSEN = re.compile(r"rt: chose --jobs \d+ for (\w+)")
TIME = re.compile(r"^\| `make` \| ([^|]+) \|", re.M)


def crates():
    """How many crates the program is made of: itself and those that it names in crates.txt."""
    names = {}
    for line in (TOP / "crates.txt").read_text().splitlines():
        name, _, deps = line.partition("#")[0].partition(":")
        if name.strip():
            names[name.split()[0]] = deps.split()
    found, left = set(), ["raftreplay"]
    while left:
        name = left.pop()
        if name in names and name not in found:
            found.add(name)
            left += names[name]
    return len(found)


def expected():
    told = TIME.search((TOP / "CONTRIBUTING.md").read_text())
    return told[1].strip() if told else "long"


def clock(seconds):
    return "%d:%02d:%02d" % (seconds // 3600, seconds // 60 % 60, seconds % 60)


def build(log):
    """Runs rt, and tells of each crate once it is proved."""
    begun, count = time.monotonic(), 0
    command = ["rt", "run", "--", "fold"]
    with open(TOP / "examples" / "one-region.log", "rb") as logs:
        work = subprocess.Popen(command, cwd=CRATE, stdin=logs, stdout=subprocess.DEVNULL, stderr=subprocess.PIPE, text=True, errors="replace")
    for line in work.stderr:
        log.write(line)
        log.flush()
        chosen, proved = CHOSEN.match(line), PROVED.match(line)
        if chosen and sys.stdout.isatty():
            print("%s  %s .." % (clock(time.monotonic() - begun), chosen[1]), end="\r", flush=True)
        if proved:
            count += 1
            print("%s  %s proved" % (clock(time.monotonic() - begun), proved[1]), flush=True)
    return work.wait(), count


def main():
    LOG.parent.mkdir(exist_ok=True)
    print("Proves %d crates and builds the program. From nothing: %s; what is proved and unchanged is kept." % (crates(), expected()))
    print("A line for each crate as it is proved; all else goes to %s." % LOG.relative_to(TOP), flush=True)
    with open(LOG, "w") as log:
        status, count = build(log)
    if status:
        print("rt ended with %d. The end of the log:" % status)
        print("".join(LOG.read_text().splitlines(keepends=True)[-30:]), end="")
    elif not count:
        print("Nothing has changed since the last build.")
    return status


if __name__ == "__main__":
    sys.exit(main())
