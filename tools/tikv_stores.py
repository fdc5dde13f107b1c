"""Applies what was dumped of one store, as TiKV would: each region's entries in their order, and merges as they wait.

Regions go on in any order that keeps to the merges; what comes of it is the same. A region may be held at an index,
so that all stores can be brought to where the text begins.
"""
from collections import deque
from dataclasses import dataclass, field, replace
from typing import Dict, List, Optional

import log_text
import region_rules
import tikv_regions
from bad_input import BadInput, Broken
from region_rules import Mode, Verdict
from tikv_commands import ChangePeers, Commit, Rollback
from tikv_dumps import DumpedEntry
from written_regions import Both, begun

BORN_AT = 5
# The commit of a region that is merging where its dump begins: the state at the start doesn't tell it.
UNKNOWN = 0


@dataclass
class Place:
    """A region on a store: its state and what it may still apply.

    `limit` is up to where its own log is committed there; None says that the region is gone at the dump's end.
    """

    real: tikv_regions.Region
    applied: int
    own: List[DumpedEntry]
    first: int
    limit: Optional[int]
    both: Optional[Both] = None
    carried: Dict[int, object] = field(default_factory=dict)
    contexts: Dict[int, Both] = field(default_factory=dict)
    entries: Dict[int, log_text.Entry] = field(default_factory=dict)
    offers: List[Commit] = field(default_factory=list)
    rollback: Dict[int, bool] = field(default_factory=dict)
    merged: bool = False
    overwritten: int = 0
    first_region: Optional[region_rules.Region] = None

    def own_entry(self, index):
        """The entry of the region's own log at an index, or None where it has none that is committed."""
        place = index - self.first
        if not 0 <= place < len(self.own) or (self.limit is not None and index > self.limit):
            return None
        return self.own[place]

    def is_live(self):
        return not self.merged and self.real.mode is not Mode.REMOVED

    def next_entry(self):
        """The next command with where it stands in the dump, own before carried, or None."""
        own = self.own_entry(self.applied + 1)
        if own is not None:
            return own.command, own.where
        return self.carried.get(self.applied + 1)

    def is_paused(self):
        """Whether it is merging, and its own log doesn't hold the fitting rollback."""
        if self.real.mode is not Mode.MERGING:
            return False
        if self.real.commit not in self.rollback:
            self.rollback[self.real.commit] = self.has_rollback()
        return not self.rollback[self.real.commit]

    def has_rollback(self):
        index = self.real.commit + 1
        while (entry := self.own_entry(index)) is not None:
            command = entry.command
            if isinstance(command.body, Rollback) and command.body.commit == self.real.commit:
                if (command.epoch.conf_ver, command.epoch.version) == (self.real.conf_ver, self.real.version):
                    return True
            index += 1
        return False


class Store:
    """The regions of a store while their entries are applied."""

    def __init__(self, store, states, logs, commits):
        """`logs` has the entries by region; `commits` the index up to which each log is committed, or None for all."""
        self.id = store
        self.logs = logs
        self.commits = commits
        self.places = {}
        self.waits = {}
        self.ready = deque()
        self.holds = None
        self.speller = None
        for region, state in states.items():
            real = state.region
            if state.state == "Merging":
                real = replace(real, mode=Mode.MERGING, commit=UNKNOWN)
            self.places[region] = self.place(real, state.applied, None)

    def is_committed(self, region, index):
        """Whether an entry is committed by its own log at the dump's end."""
        limit = None if self.commits is None else self.commits.get(region)
        return limit is None or index <= limit

    def place(self, real, applied, both):
        """A region that is there from an applied index on."""
        own = self.logs.get(real.id, [])
        first = own[0].index if own else applied + 1
        if first > applied + 1:
            reason = "region %d of store %d has applied %d, and its entries begin at %d: a gap"
            raise BadInput(own[0].where, reason % (real.id, self.id, applied, first))
        limit = None
        if self.commits is not None:
            limit = self.commits.get(real.id)
        return Place(real, applied, own, first, limit, both)

    def run(self, holds=None):
        """Applies entries until no region can go on, or each has come to where it is held.

        `holds` has the index for each region; a region that isn't there is held where it is born.
        """
        self.holds = holds
        self.ready = deque(sorted(self.places))
        self.waits = {}
        while self.ready:
            region = self.ready.popleft()
            place = self.places[region]
            while self.step(place):
                pass
            for target, merge in self.waits.items():
                if merge.source == region and place.applied >= merge.commit:
                    self.ready.append(target)

    def step(self, place):
        """Applies the next entry of a region, and says whether it did."""
        index = place.applied + 1
        if self.holds is not None and index > self.holds.get(place.real.id, BORN_AT):
            return False
        if not place.is_live() or place.is_paused():
            return False
        found = place.next_entry()
        if found is None:
            return False
        command, where = found
        try:
            verdict = tikv_regions.verdict_of(place.real, command)
            source = None
            if verdict is Verdict.ACCEPT and isinstance(command.body, Commit):
                source = self.source_of(place, command.body, where)
                if source is None:
                    return False
            self.apply(place, index, command, verdict, source)
        except Broken as fault:
            reason = "store %d region %d index %d: %s" % (self.id, place.real.id, index, fault.reason)
            raise BadInput(where, reason) from None
        return True

    def source_of(self, place, body, where):
        """What an accepted commit takes over, or None while its source hasn't applied its prepare."""
        target = place.real.id
        self.waits[target] = body
        source = self.places.get(body.source)
        if source is None or (place.both is None) != (source.both is None):
            return None
        if source.applied < body.commit:
            self.offer(source, body, where)
            return None
        real = source.real
        prepared = real.mode is Mode.MERGING and (real.partner, real.commit) == (target, body.commit)
        prepared = prepared or (real.mode is Mode.MERGING and real.commit == UNKNOWN)
        if not prepared or source.merged or not source.is_paused():
            raise Broken("its source %d hasn't prepared this merge at %d" % (real.id, body.commit))
        if (real.conf_ver, real.version) != (body.source_epoch.conf_ver, body.source_epoch.version):
            theirs = real.id, real.conf_ver, real.version, body.source_epoch.conf_ver, body.source_epoch.version
            raise Broken("its source %d has the epoch %d %d, and the commit names %d %d" % theirs)
        del self.waits[target]
        return source

    def offer(self, source, body, where):
        """Lets the source of a commit take the entries that the commit carries, once."""
        if source.limit is not None and source.limit < body.commit:
            self.cut_conflict(source, body)
            source.limit = body.commit
            source.rollback.clear()
        if body in source.offers:
            return
        source.offers.append(body)
        for one in body.carried:
            source.carried.setdefault(one.index, (one.command, where))
        self.ready.append(source.real.id)

    def cut_conflict(self, source, body):
        """Cuts off entries that aren't committed by the source's own log and differ from what the commit carries."""
        carried = {one.index: one.command for one in body.carried}
        for index in range(max(source.limit + 1, source.first), source.first + len(source.own)):
            own = source.own[index - source.first]
            if index in carried and carried[index] != own.command:
                source.overwritten += len(source.own) - (index - source.first)
                del source.own[index - source.first :]
                return

    def apply(self, place, index, command, verdict, source):
        """Applies one entry to a region, and spells it where the text has begun."""
        before = place.both
        births = []
        if verdict is Verdict.ACCEPT:
            real_source = source.real if source is not None else None
            place.real, births = tikv_regions.accepted(place.real, index, command, real_source)
            if self.left(place, command):
                place.real = replace(place.real, mode=Mode.REMOVED)
        written_births = {}
        if before is not None:
            contexts = source.contexts if source is not None else None
            place.contexts[index] = before
            entry = self.speller.entry(before, index, command, verdict, contexts)
            place.entries[index] = entry
            after, written_births = self.written(before, entry, verdict, source)
            place.both = before.then(place.real, after)
        for birth in births:
            self.bear(place, birth, written_births)
        if source is not None:
            source.merged = True
        place.applied = index

    def left(self, place, command):
        """Whether an accepted command took the store's own peer out of the region's list."""
        changes = command.body.changes if isinstance(command.body, ChangePeers) else ()
        named = any(peer.store == self.id for _, peer in changes)
        return named and not any(peer.store == self.id for peer in place.real.peers)

    def written(self, before, entry, verdict, source):
        """The region in the text after an entry, and the new ones, by the program's rules.

        These must say what TiKV's say, or the text can't have the entry.
        """
        if isinstance(entry.body, log_text.Empty):
            return before.written, {}
        there, _ = region_rules.verdict_of(before.written, entry)
        if there is not verdict:
            raise Broken("TiKV answers %s, and the text's rules %s" % (verdict.value, there.value))
        if verdict is not Verdict.ACCEPT:
            return before.written, {}
        written_source = source.both.written if source is not None else None
        after, births = region_rules.accepted(before.written, entry, self.id, written_source)
        return after, {birth.id: birth for birth in births}

    def bear(self, place, real, written_births):
        """A new region of a split. Whoever waits for it as a source is tried again."""
        if real.id in self.places:
            raise Broken("the new region %d is there already" % real.id)
        both = None
        if place.both is not None:
            both = Both(real, written_births[real.id], place.both.conf_ver, place.both.version)
        self.places[real.id] = self.place(real, BORN_AT, both)
        self.ready.append(real.id)
        self.ready.extend(target for target, merge in self.waits.items() if merge.source == real.id)

    def begin(self, speller, holds):
        """Begins the text: each live region that is where it is held has the text's first numbers."""
        self.speller = speller
        for region, place in self.places.items():
            if place.is_live() and place.applied == holds[region] and place.real.mode is Mode.NORMAL:
                place.both = begun(place.real, speller.spelling.wishes)
                place.first_region = place.both.written

    def spell_left(self):
        """Spells the committed entries behind a region's last one. The program leaves them, too."""
        for place in self.places.values():
            if place.both is None or (place.is_live() and not place.is_paused()) or place.real.mode is Mode.REMOVED:
                continue
            index = place.applied + 1
            while (own := place.own_entry(index)) is not None:
                verdict = tikv_regions.verdict_of(place.both.real, own.command)
                try:
                    place.entries[index] = self.speller.entry(place.both, index, own.command, verdict)
                except Broken as fault:
                    names = self.id, place.real.id, index, fault.reason
                    raise BadInput(own.where, "store %d region %d index %d: %s" % names) from None
                index += 1
