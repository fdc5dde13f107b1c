#!/usr/bin/env python3
"""Measures a built program on lawful logs, within all limits, that punish a careless step.

    tests/hostile.py PROGRAM [BASELINE] [--only WORD] [--lines N]

Prints the seconds of `check`, `fold` and `run` on each kind of logs; beside them those of BASELINE, another program
with the same words, where one is given. --lines is about how many entries a kind has. This judges nothing.
"""
import argparse
import subprocess
import time

SECONDS = 60
REGION = ["store 1", "region 1 - -", "log 1"]


def prepares(target, first, count):
    """Prepares that are rolled back, and the index, conf_ver and version after them."""
    lines, conf, version = [], 1, 1
    for index in range(first, first + count // 2 * 2, 2):
        lines.append("%d %d %d prepare %d" % (index, conf, version, target))
        lines.append("%d %d %d rollback %d" % (index + 1, conf + 1, version + 1, index))
        conf, version = conf + 1, version + 2
    return lines, first + len(lines), conf, version


def splits(first, conf, version, keys):
    """Entries that split the regions 2, 3 and so on off at these keys, and the version after them."""
    lines = []
    for at in range(0, len(keys), 64):
        pairs = ["%d %s" % (at + place + 2, key) for place, key in enumerate(keys[at : at + 64])]
        lines.append("%d %d %d split right %s" % (first + at // 64, conf, version, " ".join(pairs)))
        version += len(pairs)
    return lines, version


def many_prepares(count):
    return REGION + prepares(2, 6, count)[0]


def many_prepares_of_the_last(count):
    bounds = ["-"] + ["%04x" % n for n in range(2, 4097)] + ["-"]
    regions = ["region %d %s %s" % (n, bounds[n - 1], bounds[n]) for n in range(1, 4097)]
    return ["store 1", *regions, "log 4096"] + prepares(1, 6, count)[0]


def many_refused_writes(count):
    writes = ["%d 2 2 write put 61 31" % (7 + n) for n in range(count)]
    return [*REGION, "6 1 1 prepare 2", *writes, "%d 2 2 rollback 6" % (7 + count)]


def prepares_then_splits(count):
    lines, index, conf, version = prepares(2, 6, count)
    return REGION + lines + splits(index, conf, version, ["%06x" % n for n in range(2, 4034)])[0]


def writes_then_splits(count, keys):
    writes = ["%d 1 1 write put %09x1 31" % (6 + n, n * 2654435761 % (1 << 32) + (1 << 32)) for n in range(count)]
    return REGION + writes + splits(6 + count, 1, 1, keys)[0]


def splits_at_the_start(count):
    return writes_then_splits(count, ["%08x00" % n for n in range(2, 4034)])


def splits_over_the_range(count):
    return writes_then_splits(count, ["1%08x0" % (n * 1000000) for n in range(1, 4033)])


def many_merges(count):
    """4,094 regions that are merged into the first, one after another, each with its share of the writes."""
    each, ids = count // 4094, range(2, 4096)
    lines, version = splits(6, 1, 1, ["%04x" % n for n in ids])
    made = {n: 1 + min((n - 2) // 64 * 64 + 64, 4094) for n in ids}
    for at, source in enumerate(reversed(ids)):
        lines.append("%d 1 %d commit %d %d 0" % (70 + at, version, source, 6 + each))
        version = max(version, made[source] + 1) + 1
    for n in ids:
        low = "%04x" % (n - 1) if n > 2 else "00"
        lines.append("log %d" % n)
        lines += ["%d 1 %d write put %s%02x 31" % (6 + k, made[n], low, k % 256) for k in range(each)]
        lines.append("%d 1 %d prepare 1" % (6 + each, made[n]))
    return REGION + lines


def splits_of_children(_):
    lines = ["%d 1 %d split right %d %06x" % (6 + n, 1 + n, 2 + 2 * n, 2 * n + 1) for n in range(2000)]
    for n in range(2000):
        lines += ["log %d" % (2 + 2 * n), "6 1 %d split right %d %06x80" % (2 + n, 3 + 2 * n, 2 * n)]
    return REGION + lines


def many_empty_logs(count):
    return ["store 1", "region 1 - -"] + ["log %d" % n for n in range(1, count + 1)]


def many_changes_of_peers(count):
    lines = ["store 1", "region 1 - - 1 2", "log 1"]
    for n in range(0, count // 2 * 2, 2):
        lines += ["%d %d 1 add 3" % (6 + n, 1 + n), "%d %d 1 remove 3" % (7 + n, 2 + n)]
    return lines


KINDS = {
    "many prepares in one log": many_prepares,
    "many prepares in the last of 4,096 regions": many_prepares_of_the_last,
    "many writes that a merge refuses": many_refused_writes,
    "many prepares, then 4,032 new regions": prepares_then_splits,
    "many writes, then splits at the start": splits_at_the_start,
    "many writes, then splits over the range": splits_over_the_range,
    "4,094 merges into one region": many_merges,
    "2,000 splits of children": splits_of_children,
    "many logs without entries": many_empty_logs,
    "many changes of peers": many_changes_of_peers,
}


def measure(program, words, data):
    """The seconds of one run, as a text; its status where that isn't 0."""
    start = time.monotonic()
    try:
        done = subprocess.run([program, *words], input=data, stdout=subprocess.DEVNULL, stderr=subprocess.DEVNULL, timeout=SECONDS)
    except subprocess.TimeoutExpired:
        return "over %d" % SECONDS
    return "%.2f" % (time.monotonic() - start) if done.returncode == 0 else "status %d" % done.returncode


def main():
    parser = argparse.ArgumentParser(description="Measures a built program on logs that punish a careless step.")
    parser.add_argument("program")
    parser.add_argument("baseline", nargs="?")
    parser.add_argument("--only", metavar="WORD", default="", help="only the kinds whose name has this word")
    parser.add_argument("--lines", type=int, default=1_000_000, help="about how many entries")
    chosen = parser.parse_args()
    for name, make in KINDS.items():
        if chosen.only not in name:
            continue
        version = 2 if make is many_changes_of_peers else 1
        data = "\n".join(["raftreplay %d" % version, *make(chosen.lines), "end", ""]).encode()
        for command in ["check", "fold", "run"]:
            programs = [chosen.program] + ([chosen.baseline] if chosen.baseline else [])
            seconds = [measure(program, [command], data) for program in programs]
            print("%-44s %-6s %s" % (name, command, "  ".join("%8s" % it for it in seconds)), flush=True)


main()
