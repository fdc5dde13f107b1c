"""Where a text of several stores begins, and which regions it can't have.

Dumps of stores begin at different indexes. The text begins, of each region, at the least index that each store which
has the region can be brought to: all regions that the text has from the start must be there and the same on all of
their stores, and no split in the text may make one of them again.
"""
from bad_input import BadInput
from region_rules import Mode
from tikv_commands import Commit, Prepare, Split
from tikv_stores import BORN_AT


class Lineages:
    """Which regions of a store are tied by splits and merges, whatever is answered to these."""

    def __init__(self):
        self.above = {}

    def root(self, region):
        root = region
        while (above := self.above.get(root, root)) != root:
            root = above
        self.above[region] = root
        return root

    def tie(self, one, other):
        one, other = sorted((self.root(one), self.root(other)))
        self.above[other] = one


def tied_by(body):
    """The regions that a command ties to the one whose log it stands in."""
    if isinstance(body, Split):
        return [part.id for part in body.parts]
    if isinstance(body, Commit):
        return [body.source]
    return [body.target] if isinstance(body, Prepare) else []


def lineages_of(logs):
    lineages = Lineages()
    for region, log in logs.items():
        for entry in log:
            for other in tied_by(entry.command.body):
                lineages.tie(region, other)
    return lineages


class Alignment:
    """The begin of a text, by region, and what is left out, by store and region with the reason."""

    def __init__(self, stores, states, starts):
        self.stores = stores
        self.states = states
        self.starts = starts
        self.begin = {}
        self.bad = {}
        self.lineages = {store.id: lineages_of(store.logs) for store in stores}
        self.merging = {
            region for regions in states.values() for region, state in regions.items() if state.state == "Merging"
        }
        self.reshapings = [
            (region, entry.index, entry.command.body)
            for store in stores
            for region, log in sorted(store.logs.items())
            for entry in log
            if isinstance(entry.command.body, (Split, Commit)) and store.is_committed(region, entry.index)
        ]

    def holds(self):
        """Brings each store to where the text begins, and gives the index for each region."""
        for regions in self.states.values():
            for region, state in regions.items():
                self.begin[region] = max(self.begin.get(region, 0), state.applied)
        changed = True
        while changed:
            changed = self.raise_for_reshapings()
            for store in self.stores:
                store.run(self.begin)
                changed = self.note_births(store) or changed
                changed = self.raise_for_merges(store) or changed
        return self.begin

    def raise_to(self, region, index):
        """Lets a region begin no earlier than at an index, and says whether that is new."""
        if self.begin.get(region, -1) >= index:
            return False
        self.begin[region] = index
        return True

    def raise_for_reshapings(self):
        """Splits that make a region of the start, and merges of one that is merging at the start, lie before the text."""
        changed = False
        for region, index, body in self.reshapings:
            if isinstance(body, Split):
                before = any(part.id in self.begin for part in body.parts)
            else:
                before = body.source in self.merging
            if before:
                changed = self.raise_to(region, index) or changed
        return changed

    def note_births(self, store):
        changed = False
        for region in store.places:
            changed = self.raise_to(region, BORN_AT) or changed
        return changed

    def raise_for_merges(self, store):
        """Where a region is to be brought behind a merge, its source must come to its prepare."""
        changed = False
        for merge in store.waits.values():
            source = store.places.get(merge.source)
            if source is not None and source.applied == self.begin[merge.source]:
                changed = self.raise_to(merge.source, merge.commit) or changed
        return changed

    def compare(self):
        """Tests that each region begins the same on all stores, and notes which can't begin."""
        firsts = {}
        for store in self.stores:
            for region, place in sorted(store.places.items()):
                reason = self.why_not(store, region, place)
                if reason is not None:
                    self.bad[store.id, region] = reason
                elif place.first_region is not None:
                    first = firsts.setdefault(region, (store.id, place.real))
                    if first[1] != place.real:
                        reason = "region %d at index %d isn't the same on the stores %d and %d"
                        names = region, self.begin[region], first[0], store.id
                        raise BadInput("%s:1" % self.starts[store.id], reason % names)

    def why_not(self, store, region, place):
        """Why a region that is there can't begin in the text, or None."""
        if not place.is_live():
            return None
        state = self.states[store.id].get(region)
        if state is not None and state.state != "Normal":
            return "its state at the start is %s" % state.state
        if place.applied != self.begin[region]:
            return "it comes to %d, and the text begins at %d" % (place.applied, self.begin[region])
        if place.real.mode is Mode.MERGING:
            return "it is merging where the text begins, at %d" % place.applied
        return None

    def finish(self, store):
        """Notes which regions of a store can't be followed to the end of the dump."""
        for target, merge in sorted(store.waits.items()):
            source = store.places.get(merge.source)
            if source is None:
                reason = "its merge partner %d isn't in the dump of the store" % merge.source
            else:
                reason = "its source %d comes to %d, before its prepare at %d"
                reason %= merge.source, source.applied, merge.commit
            self.bad.setdefault((store.id, target), reason)
        for region, place in sorted(store.places.items()):
            if place.merged or place.real.mode is Mode.REMOVED:
                continue
            if place.real.mode is Mode.MERGING and place.real.partner not in store.places:
                reason = "its merge partner %d isn't in the dump of the store" % place.real.partner
                self.bad.setdefault((store.id, region), reason)
            if store.commits is not None and place.limit is None:
                reason = "it isn't in the store's --end, and nothing in the dump ends it"
                self.bad.setdefault((store.id, region), reason)
        self.refuse_unborn(store)

    def refuse_unborn(self, store):
        for region, log in sorted(store.logs.items()):
            if region not in store.places and not self.is_left_out(store, region):
                reason = "region %d of store %d isn't in the --start, and no split makes it"
                raise BadInput(log[0].where, reason % (region, store.id))

    def bad_roots(self, store):
        """The lineages of a store that are left out, each with the first region that can't be followed."""
        roots = {}
        lineages = self.lineages[store.id]
        for where, region in sorted(self.bad):
            if where == store.id:
                roots.setdefault(lineages.root(region), region)
        return roots

    def is_left_out(self, store, region):
        return self.lineages[store.id].root(region) in self.bad_roots(store)

    def left_out(self):
        """The store, the region and the reason of each region that is left out."""
        found = []
        for store in self.stores:
            roots = self.bad_roots(store)
            for region in sorted(set(store.places) | set(store.logs)):
                root = self.lineages[store.id].root(region)
                if root in roots:
                    reason = "of one lineage with region %d" % roots[root]
                    found.append((store.id, region, self.bad.get((store.id, region), reason)))
        return found

    def unseen_removals(self):
        """The regions that TiKV removed from a store by a change of peers that the text doesn't have."""
        return [
            (store.id, region)
            for store in self.stores
            for region, place in sorted(store.places.items())
            if place.both is not None
            and not self.is_left_out(store, region)
            and place.both.real.mode is Mode.REMOVED
            and place.both.written.mode is not Mode.REMOVED
        ]
