"""The rules of regions (docs/RULES.md) in Python, for the tools. They are a retelling, and nothing is proved of them.

The tools hold their own replay against the program's answer, and say so where the two differ.
"""
import enum
from dataclasses import dataclass, replace
from typing import Optional, Tuple

from log_text import Commit, Empty, Peers, Prepare, Rollback, Split, Write

MOST_PEERS = 64


class Mode(enum.Enum):
    NORMAL = "normal"
    MERGING = "merging"
    MERGED = "merged"
    REMOVED = "removed"


class Verdict(enum.Enum):
    EMPTY = "empty"
    STALE = "stale"
    MERGING = "merging"
    OUTSIDE = "outside"
    BAD_SPLIT = "badsplit"
    BAD_PEER = "badpeer"
    BAD_ROLLBACK = "badrollback"
    ACCEPT = "ok"


@dataclass(frozen=True)
class Region:
    """A region on a store. A bound that is missing is None; a text of version 1 has no peers."""

    id: int
    start: Optional[bytes]
    end: Optional[bytes]
    conf_ver: int = 1
    version: int = 1
    peers: Tuple[int, ...] = ()
    mode: Mode = Mode.NORMAL
    partner: int = 0
    commit: int = 0

    def holds(self, key):
        return (self.start is None or self.start <= key) and (self.end is None or key < self.end)

    def mode_text(self):
        """The mode as the outcome's text has it."""
        if self.mode is Mode.MERGING:
            return "merging %d %d" % (self.partner, self.commit)
        return "merged %d" % self.partner if self.mode is Mode.MERGED else self.mode.value


# Which numbers an entry compares: those of `conf_ver`, those of `version`.
COMPARES = {
    "write": (False, True),
    "split": (False, True),
    "prepare": (True, True),
    "commit": (True, True),
    "rollback": (True, True),
    "add": (True, False),
    "remove": (True, False),
}


def is_stale(region, entry):
    """Whether a number that the entry compares isn't the region's."""
    conf_ver, version = COMPARES[entry.body.word]
    return (conf_ver and entry.conf_ver != region.conf_ver) or (version and entry.version != region.version)


def first_bad_cut(region, keys):
    """The place, counted from 1, of the first key that can't cut the range, or None."""
    before = region.start
    for place, key in enumerate(keys, 1):
        if (before is not None and key <= before) or (region.end is not None and key >= region.end):
            return place
        before = key
    return None


def verdict_of(region, entry):
    """The verdict on an entry, and what its reply names: a key, a place, or None."""
    body = entry.body
    if isinstance(body, Empty):
        return Verdict.EMPTY, None
    if is_stale(region, entry):
        return Verdict.STALE, None
    if isinstance(body, Rollback):
        fits = region.mode is Mode.MERGING and region.commit == body.commit
        return (Verdict.ACCEPT if fits else Verdict.BAD_ROLLBACK), None
    if region.mode is Mode.MERGING:
        return Verdict.MERGING, None
    if isinstance(body, Write):
        outside = next((key for key, _ in body.operations if not region.holds(key)), None)
        return (Verdict.ACCEPT if outside is None else Verdict.OUTSIDE), outside
    if isinstance(body, Split):
        place = first_bad_cut(region, [key for _, key in body.parts])
        return (Verdict.ACCEPT if place is None else Verdict.BAD_SPLIT), place
    if isinstance(body, Peers) and not may_change(region.peers, body):
        return Verdict.BAD_PEER, None
    return Verdict.ACCEPT, None


def may_change(peers, body):
    """Whether a change of peers can be made to a list."""
    if body.word == "add":
        return body.peer not in peers and len(peers) < MOST_PEERS
    return body.peer in peers and len(peers) > 1


def split(region, body):
    """The region after a split, and the new regions from left to right."""
    version = region.version + len(body.parts)
    cuts = [region.start] + [key for _, key in body.parts] + [region.end]
    ids = [id for id, _ in body.parts]
    ids = ids + [region.id] if body.side == "right" else [region.id] + ids
    pieces = [
        replace(region, id=id, start=start, end=end, version=version)
        for id, start, end in zip(ids, cuts, cuts[1:])
    ]
    own = next(piece for piece in pieces if piece.id == region.id)
    return own, [piece for piece in pieces if piece is not own]


def are_neighbours(one, other):
    return (one.end is not None and one.end == other.start) or (other.end is not None and other.end == one.start)


def joined(region, source):
    """The region after it took its neighbour over."""
    version = max(region.version, source.version) + 1
    if region.end is not None and region.end == source.start:
        return replace(region, end=source.end, version=version)
    return replace(region, start=source.start, version=version)


def changed_peers(region, body, store):
    """The region after a change of peers on a store."""
    if body.word == "add":
        peers = tuple(sorted(region.peers + (body.peer,)))
    else:
        peers = tuple(peer for peer in region.peers if peer != body.peer)
    mode = Mode.REMOVED if body.word == "remove" and body.peer == store else region.mode
    return replace(region, peers=peers, conf_ver=region.conf_ver + 1, mode=mode)


def accepted(region, entry, store, source=None):
    """The region after an accepted entry, and the new regions. `source` is what a commit takes over."""
    body = entry.body
    if isinstance(body, Split):
        return split(region, body)
    if isinstance(body, Prepare):
        after = replace(
            region,
            conf_ver=region.conf_ver + 1,
            version=region.version + 1,
            mode=Mode.MERGING,
            partner=body.target,
            commit=entry.index,
        )
        return after, []
    if isinstance(body, Commit):
        return joined(region, source), []
    if isinstance(body, Rollback):
        return replace(region, version=region.version + 1, mode=Mode.NORMAL, partner=0, commit=0), []
    if isinstance(body, Peers):
        return changed_peers(region, body, store), []
    return region, []
