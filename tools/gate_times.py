#!/usr/bin/env python3
"""Adds up what the gate costs: processor minutes by crate, for its proof, its tests and its edits.

    tools/gate_times.py [--to FILE] [--every SECONDS]              runs `rt ci --anew` here, from nothing
    tools/gate_times.py --pid PID [--to FILE] [--every SECONDS]    looks at a gate that already runs

It looks once a second at what the gate started. A run of `rattle build` is a crate's proof, with `--test` its tests;
a `rattle check` in a folder of an edit is that edit; all else is `other`. The table is written to FILE once a minute
and at the end, or printed at the end. What runs shorter than a second, and what ended before a look at a running
gate began, stands in the line `not seen`: the gate's own count of its ended children tells how much that was.
"""
import argparse
import os
import subprocess
import sys
import time

TICKS = os.sysconf("SC_CLK_TCK")
KINDS = ["proof", "tests", "edits", "other"]


def stat_of(pid):
    """A process's parent, its state, its start, its own ticks, and those of its ended children; None if it is gone."""
    try:
        text = open("/proc/%d/stat" % pid).read()
    except OSError:
        return None
    fields = text[text.rindex(")") + 2 :].split()
    own, ended = int(fields[11]) + int(fields[12]), int(fields[13]) + int(fields[14])
    return int(fields[1]), fields[0], int(fields[19]), own, ended


def words_of(pid):
    try:
        return open("/proc/%d/cmdline" % pid, "rb").read().decode("utf-8", "replace").split("\0")[:-1]
    except OSError:
        return []


def folder_of(pid):
    try:
        return os.readlink("/proc/%d/cwd" % pid)
    except OSError:
        return ""


def named(words, folder):
    """The crate that a process works on: by its words, or by the folder that it works in."""
    if "--crate-name" in words[:-1]:
        return words[words.index("--crate-name") + 1]
    parts = folder.split("/")
    return parts[parts.index("crates") + 1] if "crates" in parts[:-1] else "-"


def kind_of(words, folder):
    """What a process does, or None where its words say nothing of it yet."""
    if len(words) < 2 or os.path.basename(words[0]) != "rattle":
        return "other"
    if words[1] == "check" and os.path.basename(folder).startswith("rt-edit"):
        return "edits"
    if words[1] == "build":
        return "tests" if "--test" in words else "proof"
    return "other"


class Gate:
    """What was seen of the processes below one process."""

    def __init__(self, root):
        self.root = root
        self.seen = {}  # (pid, start) -> [crate, kind, ticks, alive]
        self.all_ended = 0
        self.own = 0

    def look(self):
        """One look at all processes; false once the gate has ended."""
        stats = {}
        for name in os.listdir("/proc"):
            if name.isdigit():
                stat = stat_of(int(name))
                if stat:
                    stats[int(name)] = stat
        if self.root not in stats or stats[self.root][1] == "Z":
            return False
        self.own, self.all_ended = stats[self.root][3], stats[self.root][4]
        children = {}
        for pid, stat in stats.items():
            children.setdefault(stat[0], []).append(pid)
        for run in self.seen.values():
            run[3] = False
        for pid in children.get(self.root, []):
            ticks, waiting = 0, [pid]
            while waiting:
                one = waiting.pop()
                ticks += stats[one][3] + stats[one][4]
                waiting += children.get(one, [])
            key = pid, stats[pid][2]
            run = self.seen.get(key)
            if run is None or run[1] == "other":
                words, folder = words_of(pid), folder_of(pid)
                crate, kind = named(words, folder), kind_of(words, folder)
                if run is None:
                    run = self.seen[key] = [crate, kind, 0, True]
                elif kind != "other":
                    run[:2] = crate, kind
            run[2], run[3] = max(run[2], ticks), True
        return True

    def table(self, wall):
        """The table, in processor minutes."""
        rows, ended = {}, 0
        for crate, kind, ticks, alive in self.seen.values():
            rows.setdefault(crate, dict.fromkeys(KINDS, 0))[kind] += ticks
            ended += 0 if alive else ticks
        lines = ["| crate | proof | tests | edits | other | all |", "|---|---|---|---|---|---|"]

        def line(name, row):
            cells = [*(row[kind] for kind in KINDS), sum(row.values())]
            lines.append("| %s | %s |" % (name, " | ".join("%.1f" % (it / TICKS / 60) for it in cells)))

        for crate in sorted(rows, key=lambda it: -sum(rows[it].values())):
            line(crate, rows[crate])
        whole = {kind: sum(row[kind] for row in rows.values()) for kind in KINDS}
        line("not seen", {**dict.fromkeys(KINDS, 0), "other": max(0, self.all_ended - ended)})
        line("the gate itself", {**dict.fromkeys(KINDS, 0), "other": self.own})
        whole["other"] += max(0, self.all_ended - ended) + self.own
        line("**all**", whole)
        lines.append("")
        lines.append("Wall time: %.1f minutes, on %d cores." % (wall / 60, os.cpu_count()))
        return "\n".join(lines) + "\n"


def write(text, path):
    if path is None:
        sys.stdout.write(text)
        return
    with open(path + ".new", "w") as file:
        file.write(text)
    os.replace(path + ".new", path)


def begun(pid):
    """When a process began, by the clock of time.time()."""
    uptime = float(open("/proc/uptime").read().split()[0])
    return time.time() - uptime + stat_of(pid)[2] / TICKS


def main():
    parser = argparse.ArgumentParser(description=__doc__.split("\n")[0])
    parser.add_argument("--pid", type=int)
    parser.add_argument("--to")
    parser.add_argument("--every", type=float, default=60)
    args = parser.parse_args()
    gate_run = None
    if args.pid is None:
        gate_run = subprocess.Popen(["rt", "ci", "--anew"])
    root = args.pid or gate_run.pid
    if stat_of(root) is None:
        sys.exit("gate_times: no process %d" % root)
    began, gate, written = begun(root), Gate(root), time.time()
    # A zombie is kept until it is waited for, so the last look is one before that.
    while gate.look():
        if args.to and time.time() - written >= args.every:
            written = time.time()
            write(gate.table(written - began), args.to)
        time.sleep(1)
    write(gate.table(time.time() - began), args.to)
    if gate_run:
        sys.exit(gate_run.wait())


if __name__ == "__main__":
    main()
