"""The log text and the text of 'fold', read as far as a picture needs them (docs/FORMAT.md)."""
from dataclasses import dataclass, field
from typing import Optional


class Unfit(Exception):
    """The two texts can't be drawn: they aren't what they should be, or not of the same logs."""


@dataclass(frozen=True)
class Range:
    """The keys from start on and below end, as lower-case digits. So they are ordered as their bytes are."""

    start: str
    end: Optional[str]

    def is_next_to(self, other):
        return self.end == other.start or other.end == self.start

    def joined(self, other):
        return Range(self.start, other.end) if self.end == other.start else Range(other.start, self.end)

    def told(self):
        if self.end is None:
            return "keys from %s" % self.start if self.start else "all keys"
        return "keys %s to %s" % (self.start, self.end) if self.start else "keys below %s" % self.end


def range_of(start, end):
    return Range("" if start == "-" else start.lower(), None if end == "-" else end.lower())


@dataclass(frozen=True)
class Entry:
    """One committed entry: its region, its index and the words of its body."""

    region: int
    index: int
    body: tuple

    @property
    def kind(self):
        return self.body[0]

    def children(self):
        """The new regions of a split, each with the key to cut at."""
        return [(int(self.body[at]), self.body[at + 1].lower()) for at in range(2, len(self.body), 2)]

    def told(self):
        """The body in a few words."""
        if self.kind == "commit":
            return "commit %s" % self.body[1]
        if self.kind != "write":
            return " ".join(self.body)
        keys = list(write_keys(self.body[1:]))
        return "write " + " ".join(keys[:2]) + (" .." if len(keys) > 2 else "")


def write_keys(words):
    """The keys of a write's operations."""
    at = 0
    while at < len(words):
        yield words[at + 1].lower()
        at += 3 if words[at] == "put" else 2


@dataclass
class Logs:
    """What the log text says: each store's first regions, the entries by region and index, and how far own logs go."""

    firsts: dict = field(default_factory=dict)
    entries: dict = field(default_factory=dict)
    own: dict = field(default_factory=dict)


@dataclass(frozen=True)
class Ended:
    """What the fold tells of one region on one store."""

    range: Range
    applied: int
    mode: tuple


@dataclass
class Folded:
    """What the fold tells of one store."""

    regions: dict = field(default_factory=dict)
    replies: dict = field(default_factory=dict)


def read_logs(text):
    """The log text. It is one that 'fold' takes, so little is tested here."""
    logs, store, log, source = Logs(), None, None, None
    own = {}
    for number, line in enumerate(text.split("\n"), 1):
        words = line.split()
        try:
            if not words or words[0] in ("raftreplay", "end"):
                continue
            if words[0] == "store":
                store = logs.firsts.setdefault(int(words[1]), {})
                own = logs.own.setdefault(int(words[1]), {})
            elif words[0] == "region":
                store[int(words[1])] = range_of(words[2], words[3])
            elif words[0] == "log":
                log = int(words[1])
            elif words[0] == "carry":
                add_entry(logs, source, words[1:])
            else:
                source = int(words[4]) if words[3] == "commit" else None
                own[log] = int(words[0])
                add_entry(logs, log, words)
        except (IndexError, ValueError, TypeError):
            raise Unfit("line %d of the log text is no line of one: %s" % (number, line)) from None
    return logs


def add_entry(logs, region, words):
    index = int(words[0])
    logs.entries.setdefault((region, index), Entry(region, index, tuple(words[3:])))


def read_fold(text):
    """The text of 'fold', by store. A refusal is told as it stands."""
    stores, store = {}, None
    for line in text.split("\n"):
        words = line.split(" ")
        if words[0] in ("syntax", "unlawful"):
            raise Unfit("these logs are refused, so there is nothing to draw: %s" % line)
        try:
            if words[0] == "store":
                store = stores.setdefault(int(words[1]), Folded())
            elif words[0] == "region":
                mode = tuple(words[12:words.index("peers") if "peers" in words else None])
                store.regions[int(words[1])] = Ended(range_of(words[6], words[7]), int(words[9]), mode)
            elif words[0] == "reply":
                store.replies[int(words[1]), int(words[2])] = tuple(words[3:])
        except (IndexError, ValueError, AttributeError):
            raise Unfit("this is no line of what 'fold' writes: %s" % line) from None
    return stores
