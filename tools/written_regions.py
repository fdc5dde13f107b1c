"""A region's numbers in the log text beside TiKV's own, and its entries in the text's form.

A region begins in the text at index 6 and epoch 1 1, whatever its numbers are in TiKV. From there both are followed:
TiKV's by TiKV's rules (`tikv_regions`) and the text's by the program's (`region_rules`).
"""
from dataclasses import dataclass, field
from typing import List, Optional

import log_text
import region_rules
from bad_input import Broken
from families import HASH_MARK, LONGEST_KEY, LONGEST_VALUE, SUFFIXES, marked_hash, place_kept
from log_text import MOST
from region_rules import Verdict
from tikv_commands import (
    EMPTY,
    Beyond,
    Change,
    ChangePeers,
    Commit,
    Nothing,
    Prepare,
    Rollback,
    Role,
    Split,
    Write,
)
from tikv_regions import Region, compares

MOST_OPERATIONS = 1024
MOST_CARRIED = 4096
MOST_PARTS = 64


@dataclass(frozen=True, eq=False)
class Numbers:
    """One of an epoch's numbers: TiKV's, the text's, and those that the region had before."""

    real: int
    written: int
    before: Optional["Numbers"] = field(default=None, repr=False)

    def then(self, real, written):
        """The numbers after an entry."""
        if (real, written) == (self.real, self.written):
            return self
        return Numbers(real, written, self)

    def written_for(self, number, compared):
        """The text's number for one of TiKV's.

        One that is compared is the region's own in the text only where it is so in TiKV: what was stale stays stale.
        """
        if number == self.real:
            return self.written
        step = self.before
        while step is not None:
            if step.real == number and (step.written != self.written or not compared):
                return step.written
            step = step.before
        return min(max(number - self.real + self.written, 0), MOST)


@dataclass(frozen=True)
class Both:
    """A region in TiKV and in the text."""

    real: Region
    written: region_rules.Region
    conf_ver: Numbers
    version: Numbers

    def then(self, real, written):
        conf_ver = self.conf_ver.then(real.conf_ver, written.conf_ver)
        version = self.version.then(real.version, written.version)
        return Both(real, written, conf_ver, version)


@dataclass
class Wishes:
    """What the caller asks for: the text's version, and how what has no words in it is to be taken."""

    text_version: int = 2
    only_family: Optional[str] = None
    hash_long_values: bool = False
    as_empty: frozenset = frozenset()


@dataclass
class Spelling:
    """What an entry's spelling needs beside its region: the caller's wishes, all bounds, and each region's shift.

    `shifts` has by how much an index in TiKV is above the one in the text; a region that isn't there has 0.
    """

    wishes: Wishes
    bounds: List[bytes]
    shifts: dict = field(default_factory=dict)

    def shift(self, region):
        return self.shifts.get(region, 0)


def begun(real, wishes):
    """A region where the text begins: at epoch 1 1."""
    peers = tuple(sorted(peer.store for peer in real.peers)) if wishes.text_version == 2 else ()
    written = region_rules.Region(real.id, real.start or None, real.end or None, peers=peers)
    return Both(real, written, Numbers(real.conf_ver, 1), Numbers(real.version, 1))


class Speller:
    """Spells the entries of regions, and notes what it changed, as kind, region and index."""

    def __init__(self, spelling):
        self.spelling = spelling
        self.noted = set()

    def entry(self, both, index, command, verdict, contexts=None):
        """The text's entry for one of TiKV's, in a region as it is before that entry.

        `verdict` is TiKV's; an entry that is carried has none. `contexts` gives the region before each entry of
        a commit's source.
        """
        body, kind = self.body(both, index, command, verdict, contexts)
        if kind is not None:
            self.noted.add((kind, both.real.id, index))
        conf_ver, version = self.epoch(both, command)
        return log_text.Entry(index - self.spelling.shift(both.real.id), conf_ver, version, body)

    def epoch(self, both, command):
        """The text's epoch for an entry; one that names none gets the region's."""
        if command.epoch is None:
            return both.written.conf_ver, both.written.version
        compared = (False, False)
        if not isinstance(command.body, (Nothing, Beyond)):
            compared = compares(command.body)
        conf_ver = both.conf_ver.written_for(command.epoch.conf_ver, compared[0])
        return conf_ver, both.version.written_for(command.epoch.version, compared[1])

    def body(self, both, index, command, verdict, contexts):
        """The text's body, and under which kind it is counted where it isn't the same in other words."""
        body = command.body
        if isinstance(body, Nothing):
            kind = None if body == EMPTY.body else "%s became empty" % body.kind
            return log_text.Empty(), kind
        if isinstance(body, Beyond):
            if body.kind not in self.spelling.wishes.as_empty:
                raise Broken("a log text has no word for %s; --as-empty %s makes it empty" % (body.kind, body.kind))
            return log_text.Empty(), "%s became empty, as asked" % body.kind
        if isinstance(body, Write):
            return self.write(body, both, index), None
        if isinstance(body, Split):
            return self.split(body, verdict, both)
        if isinstance(body, Prepare):
            return log_text.Prepare(body.target), None
        if isinstance(body, Commit):
            return self.commit(body, verdict, contexts)
        if isinstance(body, Rollback):
            return log_text.Rollback(self.index(body.commit, both.real.id)), None
        return self.peers(both, body, verdict)

    def index(self, index, region):
        """An index in the text's count; one before the text's first entry becomes 0."""
        return max(index - self.spelling.shift(region), 0)

    def write(self, body, both, index):
        if len(body.operations) > MOST_OPERATIONS:
            raise Broken("a write of %d operations; a text's has at most %d" % (len(body.operations), MOST_OPERATIONS))
        if any(len(one.value or b"") > LONGEST_VALUE for one in body.operations):
            self.noted.add(("write with a long value became one with its hash, as asked", both.real.id, index))
        return log_text.Write(tuple((self.key(one), self.value(one)) for one in body.operations))

    def key(self, operation):
        wishes = self.spelling.wishes
        if wishes.only_family is not None:
            if operation.family != wishes.only_family:
                raise Broken("a write of the family %s, with --only-family" % operation.family)
            spelled = operation.key
        elif operation.family not in SUFFIXES:
            raise Broken("a write of the family %s" % operation.family)
        else:
            spelled = operation.key + SUFFIXES[operation.family]
            if not place_kept(self.spelling.bounds, operation.key, spelled):
                raise Broken("the key %s is a front of a region's bound; see --only-family" % operation.key.hex())
        if not 1 <= len(spelled) <= LONGEST_KEY:
            raise Broken("a key of %d bytes; a text's has 1 to %d" % (len(spelled), LONGEST_KEY))
        return spelled

    def value(self, operation):
        value = operation.value
        if value is None:
            return None
        if value.startswith(HASH_MARK):
            raise Broken("a value that begins as the mark of a long one")
        if len(value) <= LONGEST_VALUE:
            return value
        if not self.spelling.wishes.hash_long_values:
            raise Broken("a value of %d bytes; --hash-long-values writes its hash" % len(value))
        return marked_hash(value)

    def split(self, body, verdict, both):
        if len(body.parts) > MOST_PARTS:
            raise Broken("a split into %d new regions" % len(body.parts))
        keys = [part.key for part in body.parts]
        if any(len(key) > LONGEST_KEY for key in keys):
            raise Broken("a split at a key of more than %d bytes" % LONGEST_KEY)
        refused_by_peers = verdict is Verdict.BAD_SPLIT and region_rules.first_bad_cut(both.written, keys) is None
        if refused_by_peers or not all(keys):
            return log_text.Empty(), "refused split became empty"
        side = "right" if body.right_derive else "left"
        return log_text.Split(side, tuple((part.id, part.key) for part in body.parts)), None

    def commit(self, body, verdict, contexts):
        """A commit with what it carries; one that is refused is written without."""
        carried = ()
        kind = None
        if verdict is Verdict.ACCEPT:
            shift = self.spelling.shift(body.source)
            entries = [one for one in body.carried if one.index - shift >= log_text.FIRST_INDEX]
            if len(entries) > MOST_CARRIED:
                raise Broken("a commit that carries %d entries" % len(entries))
            carried = tuple(self.carried(contexts[one.index], one) for one in entries)
        elif body.carried:
            kind = "refused commit was written without what it carries"
        return log_text.Commit(body.source, self.index(body.commit, body.source), carried), kind

    def carried(self, both, one):
        """A carried entry; it is counted where it stands in its own log."""
        return self.entry(both, one.index, one.command, None)

    def peers(self, both, body, verdict):
        """A simple addition of a new peer, or a removal of a peer that the text has; any other becomes empty."""
        became_empty = log_text.Empty(), "%s became empty" % kind_of_changes(body, both.real.peers)
        if len(body.changes) != 1 or self.spelling.wishes.text_version == 1:
            return became_empty
        change, peer = body.changes[0]
        if change is Change.ADD_LEARNER:
            return became_empty
        spelled = log_text.Peers("add" if change is Change.ADD else "remove", peer.store)
        known = any(one.store == peer.store for one in both.real.peers)
        possible = region_rules.may_change(both.written.peers, spelled)
        if verdict is Verdict.ACCEPT and (not possible or (change is Change.ADD and known)):
            return became_empty
        if verdict is Verdict.BAD_PEER and possible:
            return became_empty
        return spelled, None


def kind_of_changes(body, peers=()):
    """What a change of peers is called in the report."""
    if not body.changes:
        return "leaving a joint state"
    if len(body.changes) > 1:
        return "joint change of peers"
    change, peer = body.changes[0]
    known = next((one for one in peers if one.store == peer.store), None)
    if change is Change.ADD_LEARNER:
        return "demotion to a learner" if known is not None else "addition of a learner"
    if change is Change.REMOVE:
        return "removal of a peer"
    return "promotion of a learner" if known is not None and known.role is Role.LEARNER else "addition of a peer"
