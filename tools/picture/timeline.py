"""The order in which the entries are drawn, and what becomes of each region of each store in it.

One order serves all stores. In it each region goes on as far as any store came, and the least id first, as in the
canonical order of one store. Each store takes of it the entries that it has applied, and could have taken them in
this order. So what stands in one column is the same entry on every store, and a store that lags ends further left.
"""
import heapq
from dataclasses import dataclass, field
from enum import Enum
from typing import Optional

from picture.texts import Range, Unfit

FIRST = 6


class Kind(Enum):
    PLAIN = "plain"
    REFUSED = "refused"
    SPLIT = "split"
    PREPARE = "prepare"
    COMMIT = "commit"
    ROLLBACK = "rollback"
    PEERS = "peers"


class End(Enum):
    LIVE = "live"
    MERGED = "merged"
    REMOVED = "removed"


KINDS = {
    "split": Kind.SPLIT,
    "prepare": Kind.PREPARE,
    "commit": Kind.COMMIT,
    "rollback": Kind.ROLLBACK,
    "add": Kind.PEERS,
    "remove": Kind.PEERS,
}


@dataclass
class Column:
    """One entry, or several of one region that are accepted and reshape nothing."""

    entries: list
    reply: tuple
    kind: Kind

    @property
    def region(self):
        return self.entries[0].region

    @property
    def last(self):
        return self.entries[-1].index

    def name(self):
        first = self.entries[0].index
        return "%d/%d" % (self.region, first) + ("-%d" % self.last if self.last > first else "")

    def told(self):
        if len(self.entries) > 1:
            return "%d entries" % len(self.entries)
        return self.entries[0].told()


@dataclass
class Band:
    """One region on one store: from which column on it is there, and what each later column made of it."""

    region: int
    born: int
    parent: Optional[int]
    shapes: list
    takes: list = field(default_factory=list)
    carried: set = field(default_factory=set)
    merging: list = field(default_factory=list)
    end: End = End.LIVE
    ended: Optional[int] = None
    into: Optional[int] = None
    applied: int = FIRST - 1
    behind: int = 0
    stays: Optional[int] = None

    @property
    def range(self):
        """The range at the end."""
        return self.shapes[-1][1]

    def range_at_birth(self):
        return self.shapes[0][1]

    def range_after(self, column):
        """The range right after a column."""
        return [range_ for at, range_ in self.shapes if at <= column][-1]


@dataclass
class Picture:
    columns: list
    stores: dict
    furthest: dict


def kind_of(entry, reply):
    if reply[0] not in ("ok", "empty"):
        return Kind.REFUSED
    return KINDS.get(entry.kind, Kind.PLAIN)


class Order:
    """The common order: the least region that may take its next entry takes it."""

    def __init__(self, logs, stores):
        self.logs = logs
        self.replies = {place: reply for store in stores.values() for place, reply in store.replies.items()}
        self.furthest = {}
        for store in stores.values():
            for region, ended in store.regions.items():
                self.furthest[region] = max(ended.applied, self.furthest.get(region, 0))
        self.applied, self.ready, self.waiting = {}, [], {}
        for region in sorted({region for firsts in logs.firsts.values() for region in firsts}):
            self.make(region)

    def make(self, region):
        self.applied[region] = FIRST - 1
        self.offer(region)

    def offer(self, region):
        """Lets a region take its next entry, now or when the source of its merge has come far enough."""
        at = region, self.applied[region] + 1
        if at[1] > self.furthest.get(region, 0):
            return
        if at not in self.logs.entries or at not in self.replies:
            raise Unfit("entry %d of region %d was applied and stands in no log: are these two texts of the same logs?" % (at[1], region))
        entry = self.logs.entries[at]
        if kind_of(entry, self.replies[at]) is Kind.COMMIT:
            source, commit = int(entry.body[1]), int(entry.body[2])
            if self.applied.get(source, 0) < commit:
                self.waiting.setdefault((source, commit), []).append(region)
                return
        heapq.heappush(self.ready, region)

    def places(self):
        """The entries in their order, each with its reply."""
        while self.ready:
            region = heapq.heappop(self.ready)
            self.applied[region] += 1
            at = region, self.applied[region]
            entry, reply = self.logs.entries[at], self.replies[at]
            yield entry, reply
            if kind_of(entry, reply) is Kind.SPLIT:
                for child, _ in entry.children():
                    self.make(child)
            self.offer(region)
            for target in self.waiting.pop(at, []):
                self.offer(target)
        left = [region for region in self.furthest if self.applied.get(region, 0) < self.furthest[region]]
        if left:
            raise Unfit("region %d never comes to its entry %d: are these two texts of the same logs?" % (left[0], self.furthest[left[0]]))


def columns_of(order, stores):
    """The order, with neighbours that reshape nothing in one column, as long as no store or log ends between them."""
    stops = {(region, ended.applied) for store in stores.values() for region, ended in store.regions.items()}
    stops |= {place for own in order.logs.own.values() for place in own.items()}
    columns = []
    for entry, reply in order.places():
        kind = kind_of(entry, reply)
        before = columns[-1] if columns else None
        goes_on = before and kind is before.kind is Kind.PLAIN and before.region == entry.region
        if goes_on and (before.region, before.last) not in stops:
            before.entries.append(entry)
        else:
            columns.append(Column([entry], reply, kind))
    return columns


def pieces(range_, keys):
    """The ranges of a cut, from left to right."""
    cuts = [range_.start, *keys, range_.end]
    return [Range(cuts[at], cuts[at + 1]) for at in range(len(cuts) - 1)]


class Store:
    """What becomes of one store's regions, column by column."""

    def __init__(self, name, firsts, own, folded):
        self.name, self.own, self.folded = name, own, folded
        self.bands = {region: Band(region, -1, None, [(-1, range_)]) for region, range_ in sorted(firsts.items())}

    def takes(self, column):
        """Whether this store has applied the entries of the column."""
        ended = self.folded.regions.get(column.region)
        return ended is not None and column.last <= ended.applied

    def take(self, at, column):
        if not self.takes(column):
            return
        band, entry = self.bands.get(column.region), column.entries[-1]
        if band is None:
            raise Unfit("store %d has region %d before it was made: are these two texts of the same logs?" % (self.name, column.region))
        band.takes.append(at)
        if column.last > self.own.get(column.region, 0):
            band.carried.add(at)
        band.applied = column.last
        change = {
            Kind.SPLIT: self.split,
            Kind.PREPARE: self.prepare,
            Kind.COMMIT: self.commit,
            Kind.ROLLBACK: self.rollback,
            Kind.PEERS: self.peers,
        }.get(column.kind)
        if change:
            change(at, band, entry)

    def split(self, at, band, entry):
        children = entry.children()
        cut = pieces(band.range, [key for _, key in children])
        own = cut.pop() if entry.body[1] == "right" else cut.pop(0)
        for (child, _), range_ in zip(children, cut):
            self.bands[child] = Band(child, at, band.region, [(at, range_)])
        band.shapes.append((at, own))

    def prepare(self, at, band, entry):
        band.merging.append([at, None])
        band.into = int(entry.body[1])

    def rollback(self, at, band, entry):
        if band.merging:
            band.merging[-1][1] = at
        band.into = None

    def commit(self, at, band, entry):
        source = self.bands.get(int(entry.body[1]))
        if source is None or not source.merging or not source.range.is_next_to(band.range):
            raise Unfit("region %d can't take over region %s: are these two texts of the same logs?" % (band.region, entry.body[1]))
        band.shapes.append((at, band.range.joined(source.range)))
        source.end, source.ended, source.merging[-1][1] = End.MERGED, at, at

    def peers(self, at, band, entry):
        if entry.kind == "remove" and int(entry.body[1]) == self.name:
            band.end, band.ended = End.REMOVED, at

    def close(self, furthest, merged):
        """Tests the bands against what the fold says of their ends, and finds those that are behind."""
        for region, ended in self.folded.regions.items():
            band = self.bands.get(region)
            if band is None or band.range != ended.range or band.applied != ended.applied:
                raise Unfit("region %d of store %d ends otherwise than the fold says: are these two texts of the same logs?" % (region, self.name))
        for band in self.bands.values():
            band.behind = furthest.get(band.region, 0) - band.applied
            if band.end is End.LIVE and (band.behind or band.region in merged):
                band.stays = band.takes[-1] if band.takes else band.born


def picture_of(logs, stores):
    """What is drawn: the columns, and each store's bands."""
    if set(logs.firsts) != set(stores):
        raise Unfit("the two texts have different stores: are they of the same logs?")
    order = Order(logs, stores)
    columns = columns_of(order, stores)
    drawn = {name: Store(name, logs.firsts[name], logs.own[name], folded) for name, folded in sorted(stores.items())}
    for at, column in enumerate(columns):
        for store in drawn.values():
            store.take(at, column)
    merged = {band.region for store in drawn.values() for band in store.bands.values() if band.end is End.MERGED}
    for store in drawn.values():
        store.close(order.furthest, merged)
    return Picture(columns, drawn, order.furthest)
