"""What an entry of a Raft log of TiKV asks for: its epoch and its command, read off its message."""
import enum
from dataclasses import dataclass
from typing import Optional, Tuple

import tikv_messages as tables
from bad_input import Broken
from messages import Message
from text_form import parse
from wire_form import decode


class EntryType(enum.Enum):
    NORMAL = "EntryNormal"
    CONF_CHANGE = "EntryConfChange"
    CONF_CHANGE_V2 = "EntryConfChangeV2"


class Role(enum.Enum):
    VOTER = "Voter"
    LEARNER = "Learner"
    INCOMING = "IncomingVoter"
    DEMOTING = "DemotingVoter"


class Change(enum.Enum):
    ADD = "AddNode"
    REMOVE = "RemoveNode"
    ADD_LEARNER = "AddLearnerNode"


@dataclass(frozen=True)
class Epoch:
    conf_ver: int
    version: int


@dataclass(frozen=True)
class Peer:
    id: int
    store: int
    role: Role


@dataclass(frozen=True)
class Operation:
    """A write of one key in a column family; without a value it deletes the key."""

    family: str
    key: bytes
    value: Optional[bytes]


@dataclass(frozen=True)
class Write:
    operations: Tuple[Operation, ...]


@dataclass(frozen=True)
class NewRegion:
    id: int
    key: bytes
    peer_ids: Tuple[int, ...]


@dataclass(frozen=True)
class Split:
    right_derive: bool
    parts: Tuple[NewRegion, ...]


@dataclass(frozen=True)
class Prepare:
    target: int


@dataclass(frozen=True)
class CarriedEntry:
    index: int
    command: "Command"


@dataclass(frozen=True)
class Commit:
    """A merge: its source's id and epoch, the index of the source's prepare, and the entries that it carries."""

    source: int
    source_epoch: Epoch
    commit: int
    carried: Tuple[CarriedEntry, ...]


@dataclass(frozen=True)
class Rollback:
    commit: int


@dataclass(frozen=True)
class ChangePeers:
    """Changes of peers with what `ChangePeerV2` says of them: none leaves a joint state, several enter one."""

    second_form: bool
    changes: Tuple[Tuple[Change, Peer], ...]


@dataclass(frozen=True)
class Nothing:
    """An entry without an effect on regions and pairs, by its kind."""

    kind: str


@dataclass(frozen=True)
class Beyond:
    """A command that changes pairs or regions in a way that a log text has no words for, by its kind."""

    kind: str


@dataclass(frozen=True)
class Command:
    """What an entry proposes. An empty entry has no epoch."""

    epoch: Optional[Epoch]
    body: object


EMPTY = Command(None, Nothing("empty entry"))
WITHOUT_EFFECT = ("CompactLog", "TransferLeader", "ComputeHash", "VerifyHash")
BEYOND = {
    "DeleteRange": "delete-range",
    "IngestSST": "ingest-sst",
    "PrepareFlashback": "flashback",
    "FinishFlashback": "flashback",
}


class CommandReader:
    """Reads commands. `ignored` has the fields that its caller asks it to skip, as `wire_form.decode` takes them."""

    def __init__(self, ignored=frozenset()):
        self.ignored = ignored

    def read(self, entry_type, data):
        """The command of an entry whose data is the bytes of a message, its text form, or the message itself."""
        if not data:
            return EMPTY
        if entry_type is EntryType.NORMAL:
            return self.command_in(self.message(tables.RAFT_COMMAND, data), entry_type)
        table = tables.CONF_CHANGE if entry_type is EntryType.CONF_CHANGE else tables.CONF_CHANGE_V2
        context = self.message(table, data).needed("context")
        return self.command_in(self.message(tables.RAFT_COMMAND, context), entry_type)

    def message(self, table, data):
        if isinstance(data, Message):
            return data
        return parse(table, data, self.ignored) if isinstance(data, str) else decode(table, data, self.ignored)

    def command_in(self, message, entry_type, carried=False):
        """The command of a RaftCmdRequest."""
        if message.has("status_request"):
            raise Broken("a status request in a log")
        header = message.needed("header")
        epoch = epoch_in(header.one("region_epoch", None))
        if not message.has("admin_request"):
            body = write_in(message.all("requests"))
        elif message.has("requests"):
            raise Broken("requests beside an admin request")
        else:
            body = self.admin_body(message.one("admin_request", None), carried)
        if isinstance(body, ChangePeers) != (entry_type is not EntryType.NORMAL):
            raise Broken("this command doesn't stand in an entry of type %s" % entry_type.value)
        if epoch is None and not isinstance(body, Nothing):
            raise Broken("RaftRequestHeader has no region_epoch")
        return Command(epoch, body)

    def admin_body(self, request, carried):
        """What an AdminRequest asks for. An entry that is carried can't carry others."""
        kind = request.one("cmd_type", "InvalidAdmin")
        if kind in WITHOUT_EFFECT:
            return Nothing(kind)
        if kind in BEYOND:
            return Beyond(BEYOND[kind])
        if kind == "CommitMerge" and not carried:
            return self.commit(request.needed("commit_merge"))
        if kind not in BODIES:
            raise Broken("an admin request %s, which can't stand here" % kind)
        return BODIES[kind](request)

    def commit(self, merge):
        source = merge.needed("source")
        carried = tuple(self.carried_entry(entry) for entry in merge.all("entries"))
        last = merge.one("commit", 0)
        for place, entry in enumerate(reversed(carried)):
            if entry.index != last - place:
                raise Broken("the carried entries don't end at the commit %d, one after the other" % last)
        if carried and not isinstance(carried[-1].command.body, Prepare):
            raise Broken("the last carried entry is no PrepareMerge")
        epoch = epoch_in(source.needed("region_epoch"))
        return Commit(an_id(source.one("id", 0)), epoch, last, carried)

    def carried_entry(self, entry):
        """An entry that a commit carries. Its data is a command of its own."""
        index = entry.one("index", 0)
        try:
            kind = EntryType(entry.one("entry_type", "EntryNormal"))
            if kind is not EntryType.NORMAL:
                raise Broken("its type is %s" % kind.value)
            data = entry.one("data", b"")
            command = EMPTY
            if data:
                command = self.command_in(self.message(tables.RAFT_COMMAND, data), kind, carried=True)
            if not isinstance(command.body, (Write, Nothing, Beyond, Prepare)):
                raise Broken("it is neither a write nor without an effect")
        except Broken as fault:
            raise Broken("carried entry %d: %s" % (index, fault.reason), fault.line) from None
        return CarriedEntry(index, command)


def epoch_in(message):
    if message is None:
        return None
    return Epoch(message.one("conf_ver", 0), message.one("version", 0))


def write_in(requests):
    """The write that a list of requests is."""
    kinds = [request.one("cmd_type", "Invalid") for request in requests]
    beyond = [kind for kind in kinds if kind in BEYOND]
    if beyond and len(set(kinds)) == 1:
        return Beyond(BEYOND[beyond[0]])
    if not requests:
        return Nothing("write of nothing")
    return Write(tuple(operation_in(kind, request) for kind, request in zip(kinds, requests)))


def operation_in(kind, request):
    if kind == "Put":
        put = request.needed("put")
        return Operation(family_in(put), put.one("key", b""), put.one("value", b""))
    if kind == "Delete":
        delete = request.needed("delete")
        return Operation(family_in(delete), delete.one("key", b""), None)
    raise Broken("a request %s in a write" % kind)


def family_in(request):
    """The name of the column family; the one without a name is `default`."""
    name = request.one("cf", b"") or b"default"
    try:
        return name.decode("ascii")
    except UnicodeDecodeError:
        raise Broken("a column family whose name isn't ASCII") from None


def old_split(request):
    split = request.needed("split")
    return Split(split.one("right_derive", False), (new_region(split),))


def batch_split(request):
    splits = request.needed("splits")
    parts = tuple(new_region(split) for split in splits.all("requests"))
    if not parts:
        raise Broken("a split without a new region")
    return Split(splits.one("right_derive", False), parts)


def new_region(split):
    peer_ids = tuple(split.all("new_peer_ids"))
    return NewRegion(an_id(split.one("new_region_id", 0)), split.one("split_key", b""), peer_ids)


def an_id(number):
    if number == 0:
        raise Broken("a region with the id 0")
    return number


def prepare(request):
    target = request.needed("prepare_merge").needed("target")
    return Prepare(an_id(target.one("id", 0)))


def rollback(request):
    return Rollback(request.needed("rollback_merge").one("commit", 0))


def change_peer(request):
    return ChangePeers(False, (one_change(request.needed("change_peer")),))


def change_peer_v2(request):
    changes = request.needed("change_peer_v2").all("changes")
    return ChangePeers(True, tuple(one_change(change) for change in changes))


def one_change(change):
    return Change(change.one("change_type", "AddNode")), peer_in(change.needed("peer"))


def peer_in(message):
    store = message.one("store_id", 0)
    if store == 0:
        raise Broken("a peer on the store 0")
    return Peer(message.one("id", 0), store, Role(message.one("role", "Voter")))


BODIES = {
    "ChangePeer": change_peer,
    "ChangePeerV2": change_peer_v2,
    "Split": old_split,
    "BatchSplit": batch_split,
    "PrepareMerge": prepare,
    "RollbackMerge": rollback,
}
