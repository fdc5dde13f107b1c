#!/usr/bin/env python3
"""Tries `pack` and `unpack` of a built program against a reader and a writer of the binary form that stand here.

    tests/binary.py PROGRAM [INPUTS]

INPUTS is how many random inputs are packed and unpacked, 20 if it isn't given. The form is that of docs/FORMAT.md,
"A binary file", and nothing here is taken from the program. The last line is 'N passed, N failed'.
"""
import os
import random
import struct
import subprocess
import sys

MOST = 2**63 - 1
BOOTS, LINES, OPERATIONS = 4096, 1048576, 1048576


# ---- an input, and its two forms
#
# An input is (version, stores), a store (id, regions, logs), a region (id, start, end, peers), a log (region, entries),
# an entry (conf_ver, version, body). A body is a word and what belongs to it. A key is bytes; no bound is None.


def string(data):
    return struct.pack(">H", len(data)) + data


def write_form(operations):
    out = struct.pack(">H", len(operations))
    for key, value in operations:
        out += b"\x01" + string(key) if value is None else b"\x00" + string(key) + string(value)
    return out


def body_form(body):
    word, rest = body[0], body[1:]
    if word == "empty":
        return b"\x00"
    if word == "write":
        return b"\x01" + write_form(*rest)
    if word == "split":
        side, pairs = rest
        out = b"\x02" + (b"\x01" if side == "left" else b"\x00") + struct.pack(">B", len(pairs))
        return out + b"".join(struct.pack(">Q", new) + string(key) for new, key in pairs)
    if word == "commit":
        source, commit, carried = rest
        return b"\x04" + struct.pack(">QQH", source, commit, len(carried)) + b"".join(map(entry_form, carried))
    tag = {"prepare": 3, "rollback": 5, "add": 6, "remove": 7}[word]
    return struct.pack(">BQ", tag, *rest)


def entry_form(entry):
    return struct.pack(">QQ", *entry[:2]) + body_form(entry[2])


def region_form(version, region):
    number, start, end, peers = region
    out = struct.pack(">Q", number) + string(start or b"") + string(end or b"")
    if version == 2:
        out += struct.pack(">B", len(peers)) + b"".join(struct.pack(">Q", peer) for peer in peers)
    return out


def form_of(data):
    version, stores = data
    out = b"RRL1" + struct.pack(">BI", version, len(stores))
    for number, regions, logs in stores:
        out += struct.pack(">QI", number, len(regions)) + b"".join(region_form(version, r) for r in regions)
        out += struct.pack(">I", len(logs))
        for region, entries in logs:
            out += struct.pack(">QI", region, len(entries)) + b"".join(map(entry_form, entries))
    return out


def body_text(body):
    word, rest = body[0], body[1:]
    if word == "write":
        operations = ["del " + k.hex() if v is None else "put %s %s" % (k.hex(), v.hex() or "-") for k, v in rest[0]]
        return " ".join([word] + operations)
    if word == "split":
        return " ".join([word, rest[0]] + ["%d %s" % (new, key.hex()) for new, key in rest[1]])
    if word == "commit":
        return "commit %d %d %d" % (rest[0], rest[1], len(rest[2]))
    return " ".join([word] + ["%d" % number for number in rest])


def text_of(data):
    version, stores = data
    lines = ["raftreplay %d" % version]
    for number, regions, logs in stores:
        lines.append("store %d" % number)
        for region, start, end, peers in regions:
            bounds = ["-" if bound is None else bound.hex() for bound in (start, end)]
            lines.append(" ".join(["region", str(region)] + bounds + [str(peer) for peer in peers]))
        for region, entries in logs:
            lines.append("log %d" % region)
            for index, (conf_ver, epoch, body) in enumerate(entries, 6):
                lines.append("%d %d %d %s" % (index, conf_ver, epoch, body_text(body)))
                if body[0] == "commit":
                    first = body[2] - len(body[3]) + 1
                    for place, (conf, ver, carried) in enumerate(body[3], first):
                        lines.append("carry %d %d %d %s" % (place, conf, ver, body_text(carried)))
    return ("\n".join(lines + ["end"]) + "\n").encode()


# ---- the reader


class Bad(Exception):
    """The offset of the first field that is cut short or bad."""


class Reader:
    def __init__(self, data):
        self.data, self.at, self.fields = data, 0, []
        self.boots = self.lines = self.operations = 0

    def field(self, size):
        start = self.at
        if len(self.data) - start < size:
            raise Bad(start)
        self.at += size
        if size:
            self.fields.append((start, self.at))
        return self.data[start : self.at]

    def number(self, size, low, high):
        start = self.at
        number = int.from_bytes(self.field(size), "big")
        if not low <= number <= high:
            raise Bad(start)
        return number

    def total(self, name, most):
        if getattr(self, name) >= most:
            raise Bad(self.at)
        setattr(self, name, getattr(self, name) + 1)

    def string(self, low, high):
        return self.field(self.number(2, low, high))

    def bound(self, start):
        size = self.number(2, 0, 256)
        at = self.at
        if size == 0:
            return None
        key = self.field(size)
        if start is not None and key <= start:
            raise Bad(at)
        return key

    def write(self):
        operations = []
        for _ in range(self.number(2, 1, 1024)):
            self.total("operations", OPERATIONS)
            kind = self.number(1, 0, 1)
            key = self.string(1, 256)
            operations.append((key, None if kind else self.string(0, 4096)))
        return ("write", operations)

    def split(self):
        side = "left" if self.number(1, 0, 1) else "right"
        pairs = []
        for _ in range(self.number(1, 1, 64)):
            self.total("boots", BOOTS)
            pairs.append((self.number(8, 1, MOST), self.string(1, 256)))
        return ("split", side, pairs)

    def commit(self):
        source, commit = self.number(8, 1, MOST), self.number(8, 0, MOST)
        count = self.number(2, 0, min(4096, max(0, commit - 5)))
        carried = [self.entry(*((3, 3) if left == 0 else (0, 1))) for left in reversed(range(count))]
        return ("commit", source, commit, carried)

    def entry(self, low, high):
        self.total("lines", LINES)
        conf_ver, version = self.number(8, 0, MOST), self.number(8, 0, MOST)
        tag = self.number(1, low, high)
        if tag == 0:
            body = ("empty",)
        elif tag in (1, 2, 4):
            body = {1: self.write, 2: self.split, 4: self.commit}[tag]()
        else:
            body = ({3: "prepare", 5: "rollback", 6: "add", 7: "remove"}[tag], self.number(8, tag != 5, MOST))
        return (conf_ver, version, body)

    def region(self, version, before):
        self.total("boots", BOOTS)
        number = self.number(8, before + 1, MOST)
        start = self.bound(None)
        end = self.bound(start)
        peers = []
        for _ in range(self.number(1, 1, 64) if version == 2 else 0):
            peers.append(self.number(8, (peers[-1] if peers else 0) + 1, MOST))
        return (number, start, end, peers)

    def store(self, version, before):
        number = self.number(8, before + 1, MOST)
        regions, logs = [], []
        for _ in range(self.number(4, 0, 2**32 - 1)):
            regions.append(self.region(version, regions[-1][0] if regions else 0))
        for _ in range(self.number(4, 0, 2**32 - 1)):
            region = self.number(8, (logs[-1][0] if logs else 0) + 1, MOST)
            count = self.number(4, 0, 2**32 - 1)
            logs.append((region, [self.entry(0, 7 if version == 2 else 5) for _ in range(count)]))
        return (number, regions, logs)

    def whole(self):
        self.number(4, 0x52524C31, 0x52524C31)
        version = self.number(1, 1, 2)
        stores = []
        for _ in range(self.number(4, 0, 64)):
            stores.append(self.store(version, stores[-1][0] if stores else 0))
        if self.at != len(self.data):
            raise Bad(self.at)
        return (version, stores)


def unpacked(data):
    """The status and the text that `unpack` is to give."""
    try:
        return 0, text_of(Reader(data).whole())
    except Bad as bad:
        return 2, b"binary %d\n" % bad.args


# ---- random inputs


def rising(rng, count, most):
    return sorted(rng.sample(range(1, most), count))


def random_key(rng):
    return rng.randbytes(rng.choice([1, 1, 2, 3, 5, 21, 22, 23, 256]))


def random_write(rng):
    values = [None, b"", b"x", rng.randbytes(22), rng.randbytes(23), rng.randbytes(rng.choice([64, 4096]))]
    return ("write", [(random_key(rng), rng.choice(values)) for _ in range(rng.choice([1, 1, 2, 3, 40]))])


def random_number(rng):
    return rng.choice([1, 2, 7, 255, 256, 2**32, MOST])


def random_body(rng, version):
    word = rng.choice("empty write split prepare commit rollback".split() + ["add", "remove"] * (version - 1))
    if word == "empty":
        return (word,)
    if word == "write":
        return random_write(rng)
    if word == "split":
        pairs = [(random_number(rng), random_key(rng)) for _ in range(rng.choice([1, 2, 64]))]
        return (word, rng.choice(["left", "right"]), pairs)
    if word == "commit":
        commit = rng.choice([0, 5, 6, 8, 2**32, MOST])
        count = min(rng.choice([0, 1, 2, 3]), max(0, commit - 5))
        carried = [(1, 2, rng.choice([("empty",), random_write(rng)])) for _ in range(count - 1)]
        return (word, random_number(rng), commit, carried + [(3, 4, ("prepare", random_number(rng)))] * (count > 0))
    return (word, random_number(rng))


def random_region(rng, version, number):
    start, end = rng.choice([None, random_key(rng)]), rng.choice([None, random_key(rng)])
    if start is not None and end is not None and end <= start:
        start, end = (None, end) if start == end else (end, start)
    return (number, start, end, rising(rng, rng.choice([1, 3, 64]), 2**40) if version == 2 else [])


def random_input(rng):
    version = rng.choice([1, 2])
    stores = []
    for number in rising(rng, rng.randrange(4), 2**50):
        regions = [random_region(rng, version, region) for region in rising(rng, rng.randrange(4), 2**45)]
        logs = []
        for region in rising(rng, rng.randrange(4), 2**60):
            entries = []
            for _ in range(rng.randrange(6)):
                entries.append((rng.choice([0, 1, MOST]), rng.choice([0, 1, 2]), random_body(rng, version)))
            logs.append((region, entries))
        stores.append((number, regions, logs))
    return version, stores


def spelled(rng, text):
    """The same text with other spaces, and with some hexadecimal digits in upper case."""
    out = []
    for line in text.decode().split("\n")[:-1]:
        words = line.split(" ")
        digits = [w != "add" and set(w) <= set("0123456789abcdef") for w in words]
        hexes = [w.upper() if is_digits and rng.random() < 0.3 else w for w, is_digits in zip(words, digits)]
        out.append(" " * rng.randrange(2) + (" " * rng.choice([1, 1, 2])).join(hexes) + " " * rng.randrange(2))
    return "".join(line + "\n" for line in out).encode()


# All tags in one file, each kind of bound, an empty value, and long strings.
ALL_TAGS = (
    2,
    [
        (1, [(1, None, b"m", [1, 3]), (4, b"m", None, [9])], [
            (1, [
                (1, 1, ("empty",)),
                (1, 1, ("write", [(b"a", b"0"), (b"b", b""), (b"c", None)])),
                (1, 1, ("split", "left", [(2, b"f"), (3, b"j")])),
                (1, 1, ("split", "right", [(5, b"h")])),
                (1, 3, ("commit", 2, 8, [(1, 2, ("empty",)), (1, 2, ("write", [(b"g", b"1")])), (1, 2, ("prepare", 1))])),
                (1, 5, ("rollback", 7)),
                (1, 5, ("add", 4)),
                (2, 5, ("remove", 3)),
                (3, 5, ("prepare", 4)),
            ]),
            (2, []),
        ]),
        (7, [(6, b"a" * 23, b"b", [2**63 - 1])], []),
    ],
)  # fmt: skip


# ---- the checks


def run(program, word, data):
    done = subprocess.run([program, word], input=data, capture_output=True, timeout=120)
    return done.returncode, done.stdout


def start_of_field(fields, at):
    return next(start for start, end in fields if start <= at < end)


def checks(program, inputs=20):
    """Each check's name, what came, and what was to come."""
    rng = random.Random(25)
    whole = form_of(ALL_TAGS)
    reader = Reader(whole)
    reader.whole()
    yield "all-tags-unpacked", run(program, "unpack", whole), (0, text_of(ALL_TAGS))
    yield "all-tags-packed", run(program, "pack", text_of(ALL_TAGS)), (0, whole)
    for cut in range(len(whole)):
        offset = start_of_field(reader.fields, cut)
        yield "cut-to-%d" % cut, run(program, "unpack", whole[:cut]), (2, b"binary %d\n" % offset)
    for at in range(len(whole)):
        for byte in sorted({whole[at] ^ 1, whole[at] ^ 0x80, rng.randrange(256)} - {whole[at]}):
            changed = whole[:at] + bytes([byte]) + whole[at + 1 :]
            status, text = run(program, "unpack", changed)
            yield "byte-%d-is-%d" % (at, byte), (status, text), unpacked(changed)
            # What stands before the changed field is as it was, so no fault lies there.
            early = status == 2 and int(text.split()[1]) < start_of_field(reader.fields, at)
            yield "byte-%d-is-%d, not before its field" % (at, byte), early, False
    for number in range(5 * inputs):
        size = rng.choice([0, 1, 5, 9, 13, 40, 400])
        data = rng.choice([b"", b"RRL1", b"RRL1\x01\x00\x00\x00", b"RRL1\x02\x00\x00\x00\x01"]) + rng.randbytes(size)
        yield "random-bytes-%d" % number, run(program, "unpack", data), unpacked(data)
    for number in range(inputs):
        data = random_input(rng)
        text, form = text_of(data), form_of(data)
        yield "random-input-%d-packed" % number, run(program, "pack", spelled(rng, text)), (0, form)
        yield "random-input-%d-unpacked" % number, run(program, "unpack", form), (0, text)
    made = subprocess.run([program, "gen", "77"], capture_output=True, timeout=120).stdout
    yield "gen-77-there-and-back", run(program, "unpack", run(program, "pack", made)[1]), (0, made)


def main():
    program = os.path.abspath(sys.argv[1])
    inputs = int(sys.argv[2]) if len(sys.argv) > 2 else 20
    passed = failed = 0
    for name, got, wanted in checks(program, inputs):
        if got == wanted:
            passed += 1
            continue
        failed += 1
        print("%s\n  wanted %s\n  got    %s" % (name, repr(wanted)[:1000], repr(got)[:1000]))
    print("%d passed, %d failed" % (passed, failed))
    sys.exit(1 if failed else 0)


if __name__ == "__main__":
    main()
