"""A region with TiKV's own numbers, and what its committed entries do to it by TiKV's rules.

These rules are TiKV's as docs/TIKV.md tells them: learners and joint changes of peers are among them. The numbers of
a log text are another thing; `written_regions` has them.
"""
from dataclasses import dataclass, replace
from typing import Tuple

from bad_input import Broken
from region_rules import Mode, Verdict
from tikv_commands import (
    Beyond,
    Change,
    ChangePeers,
    Commit,
    Nothing,
    Peer,
    Prepare,
    Role,
    Rollback,
    Split,
    Write,
)


@dataclass(frozen=True)
class Region:
    """A region as TiKV has it. An empty start or end is no bound."""

    id: int
    start: bytes
    end: bytes
    conf_ver: int
    version: int
    peers: Tuple[Peer, ...]
    mode: Mode = Mode.NORMAL
    partner: int = 0
    commit: int = 0

    def holds(self, key):
        return self.start <= key and (not self.end or key < self.end)


def compares(body):
    """Which numbers a command compares: that of `conf_ver`, that of `version`."""
    if isinstance(body, (Write, Split)):
        return False, True
    if isinstance(body, ChangePeers):
        return True, False
    return True, True


def verdict_of(region, command):
    """What TiKV answers to a committed command."""
    body = command.body
    if isinstance(body, (Nothing, Beyond)):
        return Verdict.EMPTY
    conf_ver, version = compares(body)
    if conf_ver and command.epoch.conf_ver != region.conf_ver:
        return Verdict.STALE
    if version and command.epoch.version != region.version:
        return Verdict.STALE
    if isinstance(body, Rollback):
        fits = region.mode is Mode.MERGING and region.commit == body.commit
        return Verdict.ACCEPT if fits else Verdict.BAD_ROLLBACK
    if region.mode is Mode.MERGING:
        return Verdict.MERGING
    if isinstance(body, Write):
        inside = all(region.holds(operation.key) for operation in body.operations)
        return Verdict.ACCEPT if inside else Verdict.OUTSIDE
    if isinstance(body, Split):
        return Verdict.ACCEPT if can_split(region, body) else Verdict.BAD_SPLIT
    if isinstance(body, ChangePeers) and after_changes(region, body) is None:
        return Verdict.BAD_PEER
    return Verdict.ACCEPT


def can_split(region, body):
    """Whether a split's keys rise inside the region, and each new region has a peer id for each peer."""
    before = region.start
    for part in body.parts:
        if part.key <= before or len(part.peer_ids) != len(region.peers):
            return False
        before = part.key
    return region.holds(before)


def split(region, body):
    """The region after a split, and the new regions from left to right."""
    cuts = [region.start] + [part.key for part in body.parts] + [region.end]
    ids = [(part.id, part.peer_ids) for part in body.parts]
    own = (region.id, tuple(peer.id for peer in region.peers))
    ids = ids + [own] if body.right_derive else [own] + ids
    version = region.version + len(body.parts)
    pieces = []
    for (id, peer_ids), start, end in zip(ids, cuts, cuts[1:]):
        peers = tuple(replace(peer, id=peer_id) for peer, peer_id in zip(region.peers, peer_ids))
        pieces.append(replace(region, id=id, start=start, end=end, version=version, peers=peers))
    kept = next(piece for piece in pieces if piece.id == region.id)
    return kept, [piece for piece in pieces if piece is not kept]


def after_changes(region, body):
    """The region after changes of peers, or None where they are refused."""
    if body.second_form and not body.changes:
        return left_joint(region)
    joint = len(body.changes) > 1
    peers = list(region.peers)
    for change, peer in body.changes:
        if any(known.role in (Role.INCOMING, Role.DEMOTING) for known in region.peers):
            raise Broken("a change of peers while the region is still in a joint state")
        if not change_one(peers, change, peer, joint, body.second_form):
            return None
    return replace(region, peers=tuple(peers), conf_ver=region.conf_ver + len(body.changes))


def change_one(peers, change, peer, joint, second_form):
    """Makes one change in the list, and says whether it may be made."""
    place = next((place for place, known in enumerate(peers) if known.store == peer.store), None)
    if place is None:
        if change is Change.REMOVE:
            return False
        voter = Role.INCOMING if joint else Role.VOTER
        peers.append(replace(peer, role=voter if change is Change.ADD else Role.LEARNER))
        return True
    known = peers[place]
    if change is Change.REMOVE:
        if known != peer or (joint and known.role is Role.VOTER) or len(peers) == 1:
            return False
        del peers[place]
        return True
    if known.id != peer.id:
        return False
    if change is Change.ADD and known.role is Role.LEARNER:
        peers[place] = replace(known, role=Role.INCOMING if joint else Role.VOTER)
        return True
    if change is Change.ADD_LEARNER and known.role is Role.VOTER and second_form:
        peers[place] = replace(known, role=Role.DEMOTING if joint else Role.LEARNER)
        return True
    return False


def left_joint(region):
    """The region after it left a joint state."""
    after = {Role.INCOMING: Role.VOTER, Role.DEMOTING: Role.LEARNER}
    changed = sum(peer.role in after for peer in region.peers)
    if changed == 0:
        raise Broken("the region leaves a joint state that it isn't in")
    peers = tuple(replace(peer, role=after.get(peer.role, peer.role)) for peer in region.peers)
    return replace(region, peers=peers, conf_ver=region.conf_ver + changed)


def joined(region, source):
    """The region after it took its neighbour over."""
    version = max(region.version, source.version) + 1
    if region.end and region.end == source.start:
        return replace(region, end=source.end, version=version)
    if source.end and source.end == region.start:
        return replace(region, start=source.start, version=version)
    raise Broken("the commit's source %d isn't next to the region" % source.id)


def accepted(region, index, command, source=None):
    """The region after an accepted entry, and the new regions. `source` is what a commit takes over."""
    body = command.body
    if isinstance(body, Split):
        return split(region, body)
    if isinstance(body, Prepare):
        after = replace(
            region,
            conf_ver=region.conf_ver + 1,
            version=region.version + 1,
            mode=Mode.MERGING,
            partner=body.target,
            commit=index,
        )
        return after, []
    if isinstance(body, Commit):
        return joined(region, source), []
    if isinstance(body, Rollback):
        return replace(region, version=region.version + 1, mode=Mode.NORMAL, partner=0, commit=0), []
    if isinstance(body, ChangePeers):
        return after_changes(region, body), []
    return region, []
