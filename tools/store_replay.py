"""Applies a log text by the rules of docs/RULES.md, one store at a time, and keeps each step.

It goes through regions in an order of its own: what comes of a lawful store is the same in every order.
"""
from collections import deque
from dataclasses import dataclass, field, replace
from typing import Dict, List, Optional

from bad_input import Broken
from log_text import FIRST_INDEX, Commit, Entry, Rollback, StoreLogs, hexadecimal
from region_rules import Mode, Region, Verdict, accepted, are_neighbours, is_stale, verdict_of


@dataclass(frozen=True)
class Step:
    """An entry that was applied: whether the region's own log has it, its reply, and the region before and after."""

    entry: Entry
    own: bool
    reply: str
    before: Region
    after: Region


@dataclass
class Place:
    region: Region
    log: List[Entry]
    applied: int = FIRST_INDEX - 1
    carried: Dict[int, Entry] = field(default_factory=dict)
    steps: List[Step] = field(default_factory=list)
    first: Optional[Region] = None

    def own(self, index):
        place = index - FIRST_INDEX
        return self.log[place] if 0 <= place < len(self.log) else None

    def next_entry(self):
        return self.own(self.applied + 1) or self.carried.get(self.applied + 1)

    def is_paused(self):
        """Whether it is merging, and its own log holds no fitting rollback."""
        if self.region.mode is not Mode.MERGING:
            return False
        return not any(
            isinstance(entry.body, Rollback)
            and entry.body.commit == self.region.commit
            and not is_stale(self.region, entry)
            for entry in self.log[max(self.region.commit + 1 - FIRST_INDEX, 0) :]
        )

    def is_live(self):
        return self.region.mode not in (Mode.MERGED, Mode.REMOVED)

    def left(self):
        """How many entries of its own log lie past the last one applied."""
        return max(len(self.log) - (self.applied + 1 - FIRST_INDEX), 0)


class Replay:
    """The regions of one store of a log text, applied to the end. A log that can't be is Broken."""

    def __init__(self, logs: StoreLogs):
        self.store = logs.id
        self.logs = logs.logs
        self.places = {}
        self.waits = {}
        self.order = []
        self.ready = deque()
        for first in logs.regions:
            self.make(Region(first.id, first.start, first.end, peers=first.peers))
        while self.ready:
            place = self.places[self.ready.popleft()]
            while self.step(place):
                pass
            self.wake(place)
        if self.waits:
            target = min(self.waits)
            raise Broken("region %d waits for %d" % (target, self.waits[target].source))

    def make(self, region):
        if region.id in self.places:
            raise Broken("region %d is made twice" % region.id)
        self.places[region.id] = Place(region, self.logs.get(region.id, []), first=region)
        self.ready.append(region.id)

    def wake(self, place):
        """Tries the targets again that wait for a region which has gone on, or was just made."""
        for target, merge in self.waits.items():
            if merge.source == place.region.id:
                self.ready.append(target)

    def step(self, place):
        """Applies the next entry of a region, and says whether it did."""
        if not place.is_live() or place.is_paused():
            return False
        entry = place.next_entry()
        if entry is None:
            return False
        verdict, detail = verdict_of(place.region, entry)
        if verdict is Verdict.BAD_ROLLBACK:
            raise Broken("region %d index %d: a rollback of no merge" % (place.region.id, entry.index))
        source = None
        if verdict is Verdict.ACCEPT and isinstance(entry.body, Commit):
            source = self.source_of(place.region, entry)
            if source is None:
                return False
        before = place.region
        births = []
        if verdict is Verdict.ACCEPT:
            taken = source.region if source is not None else None
            place.region, births = accepted(before, entry, self.store, taken)
        reply = reply_of(verdict, detail, before, place.region)
        place.steps.append(Step(entry, place.own(entry.index) is not None, reply, before, place.region))
        self.order.append((place.region.id, place.steps[-1]))
        place.applied = entry.index
        if source is not None:
            source.region = replace(source.region, mode=Mode.MERGED, partner=before.id, commit=0)
        for birth in births:
            self.make(birth)
        return True

    def source_of(self, region, entry):
        """What an accepted commit takes over, or None while the source hasn't applied its prepare."""
        merge = entry.body
        source = self.places.get(merge.source)
        if source is None or source.applied < merge.commit:
            self.offer(region.id, source, merge)
            return None
        self.waits.pop(region.id, None)
        found = source.region
        if not source.is_paused() or (found.partner, found.commit) != (region.id, merge.commit):
            raise Broken("region %d index %d: the source %d hasn't prepared" % (region.id, entry.index, found.id))
        if not are_neighbours(region, found):
            raise Broken("region %d index %d: the source %d isn't next to it" % (region.id, entry.index, found.id))
        return source

    def offer(self, target, source, merge):
        """Lets a source that is there take the carried entries, once for each commit."""
        known = self.waits.get(target)
        self.waits[target] = merge
        if source is None or (known is merge and all(one.index in source.carried for one in merge.carried)):
            return
        for one in merge.carried:
            source.carried.setdefault(one.index, one)
        self.ready.append(merge.source)


def reply_of(verdict, detail, before, after):
    """The reply as the text of `fold` has it."""
    if verdict is Verdict.ACCEPT:
        return "ok %d" % after.version
    if verdict is Verdict.STALE:
        return "stale %d %d" % (before.conf_ver, before.version)
    if verdict is Verdict.MERGING:
        return "merging %d" % before.partner
    if verdict is Verdict.OUTSIDE:
        return "outside %s" % hexadecimal(detail)
    if verdict is Verdict.BAD_SPLIT:
        return "badsplit %d" % detail
    return verdict.value
