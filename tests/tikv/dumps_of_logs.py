"""Turns a log text into dumps as TiKV's stores could have them: the way back from what tools/from_tikv.py does.

Each first region gets its own index and epoch to begin at, made from a number. What TiKV's numbers are at each entry
is computed here, and not by the tool's own modules.
"""
import json
import random
from dataclasses import dataclass, field
from typing import Dict

import protobuf
from log_text import Commit, Empty, Peers, Prepare, Rollback, Split, Write
from region_rules import Mode
from store_replay import Replay


class Unfit(Exception):
    """A log text that the way to TiKV and back can't keep as it is."""


@dataclass
class Real:
    """A region's numbers in TiKV beside those of the text, now and before, by the text's."""

    conf_ver: int
    version: int
    conf_vers: Dict[int, int] = field(default_factory=dict)
    versions: Dict[int, int] = field(default_factory=dict)

    def then(self, written, conf_ver, version):
        """The numbers after an entry that leaves the text's region as `written`."""
        conf_vers, versions = self.conf_vers, self.versions
        if conf_ver != self.conf_ver:
            conf_vers = {**conf_vers, written.conf_ver: conf_ver}
        if version != self.version:
            versions = {**versions, written.version: version}
        return Real(conf_ver, version, conf_vers, versions)

    def epoch_for(self, written, entry):
        conf_ver = self.conf_vers.get(entry.conf_ver, entry.conf_ver - written.conf_ver + self.conf_ver)
        version = self.versions.get(entry.version, entry.version - written.version + self.version)
        return conf_ver, version


class Shifts:
    """Where each first region begins in TiKV, the same on all stores."""

    def __init__(self, chance, most=5000):
        self.chance = chance
        self.most = most
        self.known = {}

    def of(self, region):
        """By how much the index, `conf_ver` and `version` of a first region are above the text's."""
        if region not in self.known:
            self.known[region] = tuple(self.chance.randrange(most) for most in (self.most, 40, 60))
        return self.known[region]


class StoreDump:
    """One store's dump. It begins where the first `skip` steps of the store are done."""

    def __init__(self, logs, store, shifts, chance, family, skip=0):
        self.logs = logs
        self.store = store
        self.chance = chance
        self.family = family
        self.shifts = {region.id: shifts.of(region.id)[0] for region in store.regions}
        self.peer_stores = tuple(other.id for other in logs.stores)
        self.replay = Replay(store)
        self.reals = {}
        self.contexts = {}
        self.begun = {}
        self.gone = set()
        for region in store.regions:
            _, conf_ver, version = shifts.of(region.id)
            real = Real(1 + conf_ver, 1 + version, {1: 1 + conf_ver}, {1: 1 + version})
            self.reals[region.id] = real
        self.follow(skip)

    def follow(self, skip):
        """Computes TiKV's numbers before each entry, and notes the regions where the dump begins."""
        now = {region.id: (self.replay.places[region.id].first, 5) for region in self.store.regions}
        for place, (region, step) in enumerate(self.replay.order):
            if place == skip:
                self.begin(now)
            self.contexts[region, step.entry.index] = (step.before, self.reals[region])
            self.take(region, step)
            self.move(now, region, step)
        if skip >= len(self.replay.order):
            self.begin(now)

    def begin(self, now):
        """Lets the dump begin with these regions. Others that were made before are gone."""
        self.begun = {id: (state, applied, self.reals[id]) for id, (state, applied) in now.items()}
        self.gone = set(self.reals) - set(now)

    def move(self, now, region, step):
        """The regions that are there after an entry, each with its applied index."""
        now[region] = (step.after, step.entry.index)
        body = step.entry.body
        if step.after.mode is Mode.REMOVED:
            del now[region]
        if step.reply.startswith("ok") and isinstance(body, Split):
            now.update({id: (self.replay.places[id].first, 5) for id, _ in body.parts})
        elif step.reply.startswith("ok") and isinstance(body, Commit):
            del now[body.source]

    def take(self, region, step):
        """TiKV's numbers after an entry."""
        real, body = self.reals[region], step.entry.body
        conf_ver, version = real.conf_ver, real.version
        if not step.reply.startswith("ok"):
            return
        if isinstance(body, Split):
            version += len(body.parts)
        elif isinstance(body, Prepare):
            conf_ver, version = conf_ver + 1, version + 1
        elif isinstance(body, Commit):
            version = max(version, self.reals[body.source].version) + 1
        elif isinstance(body, Rollback):
            version += 1
        elif isinstance(body, Peers):
            conf_ver += 1
        self.reals[region] = real.then(step.after, conf_ver, version)
        if isinstance(body, Split):
            for id, _ in body.parts:
                self.reals[id] = self.reals[region]

    def shift(self, region):
        return self.shifts.get(region, 0)

    def peers_of(self, region):
        """The stores of a region's peers."""
        return region.peers if self.logs.version == 2 else self.peer_stores

    def peer(self, region_id, store):
        return protobuf.peer(region_id * 1000 + store, store)

    def content(self, region_id, entry, context):
        """The type and the data of an entry."""
        written, real = context
        body = entry.body
        if isinstance(body, Empty):
            if (entry.conf_ver, entry.version) == (written.conf_ver, written.version) and self.chance.random() < 0.7:
                return protobuf.NORMAL, b""
            kinds = protobuf.compact_log(7), protobuf.verify_hash(8), protobuf.compute_hash()
            rest = self.chance.choice(kinds)
        elif isinstance(body, Peers):
            return self.change(region_id, entry, context)
        else:
            rest = self.rest(region_id, entry, written)
        return protobuf.NORMAL, protobuf.command(region_id, real.epoch_for(written, entry), rest)

    def rest(self, region_id, entry, written):
        """What a command asks for."""
        body = entry.body
        if isinstance(body, Write):
            return protobuf.requests(self.operation(key, value) for key, value in body.operations)
        if isinstance(body, Split):
            stores = self.peers_of(written)
            parts = [(key, id, [id * 1000 + store for store in stores]) for id, key in body.parts]
            if len(parts) == 1 and self.chance.random() < 0.3:
                return protobuf.old_split(parts[0], body.side == "right")
            return protobuf.batch_split(parts, body.side == "right")
        if isinstance(body, Prepare):
            target = protobuf.region(body.target, b"a", b"b", 3, 4, [self.peer(body.target, 1)])
            return protobuf.prepare_merge(target, 5)
        if isinstance(body, Rollback):
            return protobuf.rollback_merge(body.commit + self.shift(region_id))
        return self.commit(body)

    def operation(self, key, value):
        families = {b"d": "default", b"l": "lock", b"w": "write"}
        family = self.family
        if family is None:
            family, key = families.get(key[-1:]), key[:-1]
            if family is None:
                raise Unfit("a key without a family's suffix")
        return protobuf.delete(family, key) if value is None else protobuf.put(family, key, value)

    def commit(self, body):
        source = self.replay.places.get(body.source)
        if source is None:
            real = Real(1, 1)
            written = None
        else:
            written, real = source.region, self.reals[body.source]
        peers = [self.peer(body.source, store) for store in self.peers_of(written)] if written else []
        region = protobuf.region(body.source, b"", b"", real.conf_ver, real.version, peers)
        shift = self.shift(body.source)
        entries = []
        for one in body.carried:
            context = self.contexts.get((body.source, one.index))
            if context is None:
                raise Unfit("a refused commit that carries entries")
            _, data = self.content(body.source, one, context)
            entries.append(protobuf.raft_entry(one.index + shift, data))
        return protobuf.commit_merge(region, body.commit + shift, entries)

    def change(self, region_id, entry, context):
        written, real = context
        store = entry.body.peer
        kind = protobuf.ADD if entry.body.word == "add" else protobuf.REMOVE
        peer_id = region_id * 1000 + store
        numbers = real.epoch_for(written, entry)
        if self.chance.random() < 0.5:
            rest = protobuf.change_peer(kind, self.peer(region_id, store))
            command = protobuf.command(region_id, numbers, rest)
            return protobuf.CONF_CHANGE, protobuf.conf_change(kind, peer_id, command)
        rest = protobuf.change_peer_v2([(kind, self.peer(region_id, store))])
        command = protobuf.command(region_id, numbers, rest)
        return protobuf.CONF_CHANGE_V2, protobuf.conf_change_v2([(kind, peer_id)], command)

    def entries(self):
        """The region, the index, the type and the data of each entry of the store's own logs behind the begin."""
        for region, log in sorted(self.store.logs.items()):
            place = self.replay.places[region]
            for entry in log:
                if region in self.gone or (region in self.begun and entry.index <= self.begun[region][1]):
                    continue
                context = self.contexts.get((region, entry.index), (place.region, self.reals[region]))
                yield (region, entry.index + self.shift(region)) + self.content(region, entry, context)

    def info(self, region, state, applied, real, commit):
        """The JSON object of a region."""
        peers = [
            {"id": region * 1000 + store, "store_id": store, "role": "Voter"} for store in self.peers_of(state)
        ]
        local = {
            "id": region,
            "start_key": (state.start or b"").hex().upper(),
            "end_key": (state.end or b"").hex().upper(),
            "region_epoch": {"conf_ver": real.conf_ver, "version": real.version},
            "peers": peers,
        }
        name = "Merging" if state.mode is Mode.MERGING else "Normal"
        return {
            "region_id": region,
            "region_local_state": {"region": local, "state": name},
            "raft_local_state": {"hard_state": {"term": 7, "vote": 1, "commit": commit}, "last_index": commit},
            "raft_apply_state": {
                "applied_index": applied,
                "commit_index": applied,
                "truncated_state": {"index": 5, "term": 5},
            },
        }

    def start(self):
        """The states where the dump begins."""
        infos = {}
        for region, (state, applied, real) in sorted(self.begun.items()):
            index = applied + self.shift(region)
            infos[str(region)] = self.info(region, state, index, real, index)
        return json.dumps({"region_infos": infos}, indent=2) + "\n"

    def end(self, cut=lambda region, last, applied: last):
        """The states where the dump ends; `cut` says up to where a log is committed."""
        infos = {}
        for region, place in sorted(self.replay.places.items()):
            log = self.store.logs.get(region, [])
            last = log[-1].index if log else 5
            if place.region.mode is not Mode.REMOVED:
                commit = cut(region, last, place.applied) + self.shift(region)
                applied = min(place.applied + self.shift(region), commit)
                infos[str(region)] = self.info(region, place.region, applied, self.reals[region], commit)
        return json.dumps({"region_infos": infos}, indent=2) + "\n"


def dumps_of(logs, seed, family="default", skips=None):
    """The dumps of all stores of a log text."""
    shifts = Shifts(random.Random(seed))
    skips = skips or {}
    return [
        StoreDump(logs, store, shifts, random.Random("%d carried" % seed), family, skips.get(store.id, 0))
        for store in logs.stores
    ]
