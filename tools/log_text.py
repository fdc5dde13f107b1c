"""The log text of raftreplay (docs/FORMAT.md) as data: read from a text, and written as the canonical text.

The reader is for texts that the program takes. It refuses what it can't read, and doesn't test all limits again.
"""
from dataclasses import dataclass, field
from typing import Dict, List, Optional, Tuple

from bad_input import BadInput, read_hex, read_number, short

MOST = 2**63 - 1
FIRST_INDEX = 6


@dataclass(frozen=True)
class Empty:
    word = "empty"


@dataclass(frozen=True)
class Write:
    """Operations in their order: pairs of a key and a value, or None for a deletion."""

    word = "write"
    operations: Tuple[Tuple[bytes, Optional[bytes]], ...]


@dataclass(frozen=True)
class Split:
    """New regions in their order: pairs of an id and a key."""

    word = "split"
    side: str
    parts: Tuple[Tuple[int, bytes], ...]


@dataclass(frozen=True)
class Prepare:
    word = "prepare"
    target: int


@dataclass(frozen=True)
class Commit:
    word = "commit"
    source: int
    commit: int
    carried: Tuple["Entry", ...]


@dataclass(frozen=True)
class Rollback:
    word = "rollback"
    commit: int


@dataclass(frozen=True)
class Peers:
    """A change of peers, `add` or `remove`."""

    word: str
    peer: int


@dataclass(frozen=True)
class Entry:
    index: int
    conf_ver: int
    version: int
    body: object


@dataclass(frozen=True)
class FirstRegion:
    """A region that a store has from the start. A bound that is missing is None; version 1 has no peers."""

    id: int
    start: Optional[bytes]
    end: Optional[bytes]
    peers: Tuple[int, ...] = ()


@dataclass
class StoreLogs:
    id: int
    regions: List[FirstRegion] = field(default_factory=list)
    logs: Dict[int, List[Entry]] = field(default_factory=dict)


@dataclass
class Logs:
    """A whole log text."""

    version: int
    stores: List[StoreLogs]


def hexadecimal(data):
    return data.hex() if data else "-"


def bound(data):
    return "-" if data is None else data.hex()


def body_text(body):
    """An entry's body, without the entries that it carries."""
    if isinstance(body, Write):
        words = [
            "del %s" % key.hex() if value is None else "put %s %s" % (key.hex(), hexadecimal(value))
            for key, value in body.operations
        ]
        return "write " + " ".join(words)
    if isinstance(body, Split):
        return "split %s %s" % (body.side, " ".join("%d %s" % (id, key.hex()) for id, key in body.parts))
    if isinstance(body, Prepare):
        return "prepare %d" % body.target
    if isinstance(body, Commit):
        return "commit %d %d %d" % (body.source, body.commit, len(body.carried))
    if isinstance(body, Rollback):
        return "rollback %d" % body.commit
    if isinstance(body, Peers):
        return "%s %d" % (body.word, body.peer)
    return "empty"


def entry_lines(entry):
    """The line of an entry, and behind it those of the entries that it carries."""
    yield "%d %d %d %s" % (entry.index, entry.conf_ver, entry.version, body_text(entry.body))
    if isinstance(entry.body, Commit):
        for carried in entry.body.carried:
            yield "carry " + next(entry_lines(carried))


def lines_of(logs):
    """The lines of the canonical text."""
    yield "raftreplay %d" % logs.version
    for store in logs.stores:
        yield "store %d" % store.id
        for region in store.regions:
            peers = "".join(" %d" % peer for peer in region.peers) if logs.version == 2 else ""
            yield "region %d %s %s%s" % (region.id, bound(region.start), bound(region.end), peers)
        for region in sorted(store.logs):
            yield "log %d" % region
            for entry in store.logs[region]:
                yield from entry_lines(entry)
    yield "end"


def text_of(logs):
    return "".join(line + "\n" for line in lines_of(logs))


class Reader:
    """Goes through the lines of a log text."""

    def __init__(self, path, lines):
        self.path = path
        self.lines = lines
        self.place = 0

    def where(self):
        return "%s:%d" % (self.path, self.place)

    def bad(self, reason):
        return BadInput(self.where(), reason)

    def fields(self):
        """The fields of the next line."""
        self.place += 1
        if self.place > len(self.lines):
            raise self.bad("the text has no line `end`")
        return self.lines[self.place - 1].split(" ")

    def number(self, text):
        return read_number(text, self.where(), "the field", MOST)

    def key(self, text):
        """A key, a value or a bound that is there."""
        return read_hex(text, self.where(), "the field")

    def bound(self, text):
        return None if text == "-" else self.key(text)

    def read(self):
        """The logs of the whole text."""
        fields = [part for part in self.fields() if part]
        if len(fields) != 2 or fields[0] != "raftreplay" or fields[1] not in ("1", "2"):
            raise self.bad("a log text begins with `raftreplay 1` or `raftreplay 2`")
        logs = Logs(int(fields[1]), [])
        log = None
        while True:
            fields = [part for part in self.fields() if part]
            if fields == ["end"]:
                return logs
            if not fields:
                raise self.bad("an empty line")
            if fields[0] == "store" and len(fields) == 2:
                logs.stores.append(StoreLogs(self.number(fields[1])))
                log = None
            elif not logs.stores:
                raise self.bad("a line before the first store")
            elif fields[0] == "region" and len(fields) >= 4:
                peers = tuple(self.number(peer) for peer in fields[4:])
                bounds = self.bound(fields[2]), self.bound(fields[3])
                logs.stores[-1].regions.append(FirstRegion(self.number(fields[1]), *bounds, peers))
            elif fields[0] == "log" and len(fields) == 2:
                log = logs.stores[-1].logs.setdefault(self.number(fields[1]), [])
            elif log is None:
                raise self.bad("an entry without a log: %s" % short(fields[0]))
            else:
                log.append(self.entry(fields, FIRST_INDEX + len(log)))

    def entry(self, fields, wanted):
        """The entry of a line at an index, with the carried entries in the lines behind it."""
        if len(fields) < 4:
            raise self.bad("an entry has an index, two numbers and a body")
        index, conf_ver, version = (self.number(text) for text in fields[:3])
        if index != wanted:
            raise self.bad("the index %d should be %d" % (index, wanted))
        return Entry(index, conf_ver, version, self.body(fields[3], fields[4:]))

    def body(self, word, rest):
        if word == "empty" and not rest:
            return Empty()
        if word == "write" and rest:
            return Write(tuple(self.operations(rest)))
        if word == "split" and len(rest) >= 3 and len(rest) % 2 == 1:
            parts = tuple((self.number(id), self.key(key)) for id, key in zip(rest[1::2], rest[2::2]))
            return Split(rest[0], parts)
        if word == "prepare" and len(rest) == 1:
            return Prepare(self.number(rest[0]))
        if word == "rollback" and len(rest) == 1:
            return Rollback(self.number(rest[0]))
        if word in ("add", "remove") and len(rest) == 1:
            return Peers(word, self.number(rest[0]))
        if word == "commit" and len(rest) == 3:
            source, commit, count = (self.number(text) for text in rest)
            return Commit(source, commit, tuple(self.carried(commit - count + 1 + place) for place in range(count)))
        raise self.bad("not the body of an entry: %s" % short(" ".join([word] + rest)))

    def carried(self, wanted):
        fields = [part for part in self.fields() if part]
        if not fields or fields[0] != "carry":
            raise self.bad("a `carry` line should stand here")
        return self.entry(fields[1:], wanted)

    def operations(self, words):
        """The operations of a write."""
        words = list(reversed(words))
        while words:
            kind = words.pop()
            if kind not in ("put", "del") or len(words) < (2 if kind == "put" else 1):
                raise self.bad("not an operation: %s" % short(kind))
            key = self.key(words.pop())
            yield key, self.key(words.pop()) if kind == "put" else None


def read_logs(path, lines):
    """The logs of a text's lines; `path` is its name in messages."""
    return Reader(path, lines).read()
