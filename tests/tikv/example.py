#!/usr/bin/env python3
"""Makes the example of examples/from-tikv: the dumps of two stores, and what the tools and the program say of them.

    tests/tikv/example.py PROGRAM FOLDER
"""
import json
import os
import subprocess
import sys

import protobuf
from protobuf import ADD, LEARNER, NORMAL, CONF_CHANGE, admin, command, peer, requests

TOOLS = os.path.join(os.path.dirname(os.path.abspath(__file__)), "..", "..", "tools")
STORES = (1, 2)


def coded(key):
    """A user's key as the engine has it: groups of 8 bytes, each with a byte that counts the padding."""
    groups = [key[place : place + 8] for place in range(0, len(key) + 1, 8)]
    return b"".join(group.ljust(8, b"\0") + bytes([0xF7 + len(group)]) for group in groups)


def versioned(key, timestamp):
    return coded(key) + (2**64 - 1 - timestamp).to_bytes(8, "big")


def prewrite(key, value, start):
    """What a transaction writes first: the value by its timestamp, and a lock."""
    lock = b"P" + protobuf.varint(len(key)) + key + protobuf.varint(start)
    return [("lock", coded(key), lock), ("default", versioned(key, start), value)]


def commit(key, start, end):
    """What it writes then: a record of the commit, and no lock any more."""
    return [("write", versioned(key, end), b"P" + protobuf.varint(start)), ("lock", coded(key), None)]


def short_write(key, value, start, end):
    """A short value stands in the record itself."""
    record = b"P" + protobuf.varint(start) + b"v" + bytes([len(value)]) + value
    return [("write", versioned(key, end), record)]


class Cluster:
    """What the two stores have: entries by store, and the pairs that come of the accepted writes."""

    def __init__(self):
        self.entries = {store: {} for store in STORES}
        self.data = {}
        self.pairs = {}

    def add(self, region, index, content, kind=NORMAL, stores=STORES):
        self.data[region, index] = content
        for store in stores:
            self.entries[store].setdefault(region, []).append((index, kind, content))

    def write(self, region, index, epoch, operations, accepted=True, stores=STORES):
        ones = []
        for family, key, value in operations:
            ones.append(protobuf.delete(family, key) if value is None else protobuf.put(family, key, value))
            if accepted and value is None:
                self.pairs.pop((family, key), None)
            elif accepted:
                self.pairs[family, key] = value
        self.add(region, index, command(region, epoch, requests(ones)), stores=stores)

    def admin(self, region, index, epoch, rest, stores=STORES):
        self.add(region, index, command(region, epoch, rest), stores=stores)


def region_40(cluster):
    """The region below `a`: a write, and a log that is compacted."""
    cluster.write(40, 2351, (11, 30), short_write(b"Zoo", b"open", 4000, 4001))
    cluster.admin(40, 2352, (11, 30), protobuf.compact_log(2300))


def region_70(cluster):
    """The region from `a` to `z`, up to its split at `dog`, and what was proposed before the split and comes after it."""
    cluster.add(70, 4712, b"")
    cluster.write(70, 4713, (14, 37), prewrite(b"cat", b"meow" * 80, 4100))
    cluster.write(70, 4714, (14, 37), commit(b"cat", 4100, 4103))
    cluster.admin(70, 4715, (14, 37), protobuf.compact_log(4700))
    context = command(70, (14, 37), protobuf.change_peer(ADD, peer(75, 3)))
    cluster.add(70, 4716, protobuf.conf_change(ADD, 75, context), CONF_CHANGE)
    cluster.admin(70, 4717, (15, 37), protobuf.batch_split([(coded(b"dog"), 90, [91, 92, 93])], right=True))
    cluster.write(70, 4718, (14, 37), prewrite(b"eel", b"too late", 4104), accepted=False)
    cluster.write(70, 4719, (15, 38), short_write(b"fox", b"red", 4105, 4106))


def region_90(cluster):
    """The new region: a merge that is rolled back, and one that is done. The second store has its log up to 11."""
    cluster.add(90, 6, b"")
    cluster.write(90, 7, (15, 38), prewrite(b"bee", b"buzz" * 70, 4107))
    cluster.write(90, 8, (15, 38), commit(b"bee", 4107, 4109))
    target = protobuf.region(70, coded(b"dog"), coded(b"z"), 15, 38, [peer(71, 1), peer(72, 2), peer(75, 3)])
    cluster.admin(90, 9, (15, 38), protobuf.prepare_merge(target, 8))
    cluster.admin(90, 10, (16, 39), protobuf.rollback_merge(9))
    cluster.write(90, 11, (16, 40), short_write(b"ant", b"small", 4110, 4111))
    cluster.write(90, 12, (16, 40), short_write(b"bee", b"gone home", 4112, 4114), stores=(1,))
    cluster.admin(90, 13, (16, 40), protobuf.compute_hash(), stores=(1,))
    cluster.admin(90, 14, (16, 40), protobuf.prepare_merge(target, 11), stores=(1,))


def merge(cluster):
    """The merge of the new region, with the entries that the second store doesn't have, and what comes after it."""
    source = protobuf.region(90, coded(b"a"), coded(b"dog"), 17, 41, [peer(91, 1), peer(92, 2), peer(93, 3)])
    carried = [protobuf.raft_entry(index, cluster.data[90, index]) for index in (12, 13, 14)]
    cluster.admin(70, 4720, (15, 38), protobuf.commit_merge(source, 14, carried))
    cluster.write(70, 4721, (15, 42), short_write(b"ant", b"smaller", 4115, 4116))
    cluster.admin(70, 4722, (15, 42), protobuf.verify_hash(4720))
    cluster.write(70, 4723, (15, 42), short_write(b"cow", b"not yet", 4117, 4118), accepted=False, stores=(2,))


def info(id, bounds, epoch, peers, applied, committed):
    start, end = bounds
    roles = ("Voter", "Learner")
    region = {
        "id": id,
        "start_key": start.hex().upper(),
        "end_key": end.hex().upper(),
        "region_epoch": {"conf_ver": epoch[0], "version": epoch[1]},
        "peers": [{"id": one, "store_id": store, "role": roles[role]} for one, store, role in peers],
    }
    return {
        "region_id": id,
        "region_local_state": {"region": region},
        "raft_local_state": {"hard_state": {"term": 7, "vote": 1, "commit": committed}, "last_index": committed},
        "raft_apply_state": {"applied_index": applied, "truncated_state": {"index": applied - 11, "term": 6}},
    }


def states(epochs, role, indexes):
    """The states of the regions 40 and 70 on a store, as JSON."""
    peers_of_70 = [(71, 1, 0), (72, 2, 0), (75, 3, role)]
    regions = [
        info(40, (b"", coded(b"a")), epochs[0], [(41, 1, 0), (42, 2, 0)], indexes[0], indexes[0]),
        info(70, (coded(b"a"), coded(b"z")), epochs[1], peers_of_70, indexes[1], indexes[1]),
    ]
    return json.dumps({"region_infos": {str(one["region_id"]): one for one in regions}}, indent=2) + "\n"


def data_lines(pairs, family, lost=()):
    lines = []
    for (known, key), value in sorted(pairs.items()):
        if known == family and key not in lost:
            lines.append("7a%s %s\n" % (key.hex(), value.hex()))
    return "".join(lines)


def dumps(cluster):
    """The files of the dumps, by name."""
    files = {}
    for store in STORES:
        files["store-%d-start.json" % store] = states([(11, 30), (14, 37)], LEARNER, (2350, 4711))
        files["store-%d-end.json" % store] = states([(11, 30), (15, 42)], 0, (2352, 4722))
        files["store-%d.entries" % store] = "".join(
            protobuf.line(store, region, *entry) + "\n"
            for region, log in sorted(cluster.entries[store].items())
            for entry in log
        )
        lost = [versioned(b"bee", 4114)] if store == 2 else []
        for family in ("default", "lock", "write"):
            files["store-%d-%s.data" % (store, family)] = data_lines(cluster.pairs, family, lost)
    return files


def run(words, **rest):
    """What a tool or the program writes, on standard output and on standard error, and its status."""
    done = subprocess.run(words, capture_output=True, text=True, timeout=120, **rest)
    return done.stdout, done.stderr, done.returncode


def answers(program, folder):
    """The files of what the tools and the program say, by name."""

    def tool(name, *words):
        return run([sys.executable, os.path.join(TOOLS, name), *words], cwd=folder)

    def keep(name, text):
        with open(os.path.join(folder, name), "w", encoding="ascii") as file:
            file.write(text)

    words = [word for store in STORES for word in ("--start", "%d=store-%d-start.json" % (store, store))]
    words += [word for store in STORES for word in ("--end", "%d=store-%d-end.json" % (store, store))]
    text, report, status = tool("from_tikv.py", *words, "--numbers", "numbers.txt", "store-1.entries", "store-2.entries")
    keep("cluster.log", text)
    keep("report.txt", report + "status %d\n" % status)
    for name in ("check", "fold"):
        keep(name + ".txt", run([program, name], input=text)[0])
    traced, errors, status = tool("trace.py", "90", "cluster.log", "fold.txt", "--store", "2", "--numbers", "numbers.txt")
    keep("trace-90.txt", traced + errors)
    for store in STORES:
        data = [word for family in ("default", "lock", "write")
                for word in ("--data", "%s=store-%d-%s.data" % (family, store, family))]
        options = ["--store", str(store), "--prefix", "7a", "--numbers", "numbers.txt"]
        found, errors, status = tool("against.py", "fold.txt", *options, *data)
        keep("against-%d.txt" % store, found + errors + "status %d\n" % status)
    shown, errors, _ = tool("user_key.py", b"bee".hex(), "fold.txt", "--store", "2", "--numbers", "numbers.txt")
    keep("user-key.txt", shown + errors)


def make(program, folder):
    """Writes all files of the example into a folder."""
    cluster = Cluster()
    region_40(cluster)
    region_70(cluster)
    region_90(cluster)
    merge(cluster)
    for name, text in dumps(cluster).items():
        with open(os.path.join(folder, name), "w", encoding="ascii") as file:
            file.write(text)
    answers(program, folder)


if __name__ == "__main__":
    make(os.path.abspath(sys.argv[1]), sys.argv[2])
