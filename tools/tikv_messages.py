"""The tables of TiKV's messages: `raft_cmdpb`, `eraftpb` and `metapb` of kvproto, as far as they are read here.

A field that isn't named here stops the reading. So do the fields that newer versions of kvproto have and whose
numbers aren't known here for sure; docs/TIKV.md says which. Whoever doesn't trust these tables gives the messages
in the text form that `protoc --decode` prints with TiKV's own files.
"""
from messages import Field, Kind, Table


def number(name, many=False):
    return Field(name, Kind.NUMBER, many)


def flag(name):
    return Field(name, Kind.FLAG)


def some_bytes(name, inner=None):
    return Field(name, Kind.BYTES, inner=inner)


def choice(name, choices):
    return Field(name, Kind.CHOICE, choices=choices)


def message(name, of, many=False):
    return Field(name, Kind.MESSAGE, many, of)


def opaque(name):
    return Field(name, Kind.OPAQUE)


PEER_ROLES = {0: "Voter", 1: "Learner", 2: "IncomingVoter", 3: "DemotingVoter"}
CHANGE_TYPES = {0: "AddNode", 1: "RemoveNode", 2: "AddLearnerNode"}
TRANSITIONS = {0: "Auto", 1: "Implicit", 2: "Explicit"}
ENTRY_TYPES = {0: "EntryNormal", 1: "EntryConfChange", 2: "EntryConfChangeV2"}
COMMANDS = {
    0: "Invalid",
    1: "Get",
    3: "Put",
    4: "Delete",
    5: "Snap",
    6: "Prewrite",
    7: "DeleteRange",
    8: "IngestSST",
    9: "ReadIndex",
}
ADMIN_COMMANDS = {
    0: "InvalidAdmin",
    1: "ChangePeer",
    2: "Split",
    3: "CompactLog",
    4: "TransferLeader",
    5: "ComputeHash",
    6: "VerifyHash",
    7: "PrepareMerge",
    8: "CommitMerge",
    9: "RollbackMerge",
    10: "BatchSplit",
    11: "ChangePeerV2",
    12: "PrepareFlashback",
    13: "FinishFlashback",
}

REGION_EPOCH = Table("RegionEpoch", {1: number("conf_ver"), 2: number("version")})
PEER = Table("Peer", {1: number("id"), 2: number("store_id"), 3: choice("role", PEER_ROLES)})
REGION = Table(
    "Region",
    {
        1: number("id"),
        2: some_bytes("start_key"),
        3: some_bytes("end_key"),
        4: message("region_epoch", REGION_EPOCH),
        5: message("peers", PEER, many=True),
    },
)
HEADER = Table(
    "RaftRequestHeader",
    {
        1: number("region_id"),
        2: opaque("peer"),
        3: flag("read_quorum"),
        4: some_bytes("uuid"),
        5: message("region_epoch", REGION_EPOCH),
        6: number("term"),
        7: flag("sync_log"),
        8: flag("replica_read"),
        9: number("applied_index"),
        10: number("flags"),
        11: some_bytes("flag_data"),
    },
)
PUT = Table("PutRequest", {1: some_bytes("cf"), 2: some_bytes("key"), 3: some_bytes("value")})
DELETE = Table("DeleteRequest", {1: some_bytes("cf"), 2: some_bytes("key")})
REQUEST = Table(
    "Request",
    {
        1: choice("cmd_type", COMMANDS),
        2: opaque("get"),
        4: message("put", PUT),
        5: message("delete", DELETE),
        6: opaque("snap"),
        7: opaque("prewrite"),
        8: opaque("delete_range"),
        9: opaque("ingest_sst"),
        10: opaque("read_index"),
    },
)
CHANGE_PEER = Table("ChangePeerRequest", {1: choice("change_type", CHANGE_TYPES), 2: message("peer", PEER)})
CHANGE_PEER_V2 = Table("ChangePeerV2Request", {1: message("changes", CHANGE_PEER, many=True)})
SPLIT = Table(
    "SplitRequest",
    {
        1: some_bytes("split_key"),
        2: number("new_region_id"),
        3: number("new_peer_ids", many=True),
        4: flag("right_derive"),
    },
)
BATCH_SPLIT = Table("BatchSplitRequest", {1: message("requests", SPLIT, many=True), 2: flag("right_derive")})
PREPARE_MERGE = Table("PrepareMergeRequest", {1: number("min_index"), 2: message("target", REGION)})
ROLLBACK_MERGE = Table("RollbackMergeRequest", {1: number("commit")})

# A commit carries entries, and the data of an entry is a command again. So the tables of the two are filled in below.
ENTRY = Table("Entry", {})
CONF_CHANGE = Table("ConfChange", {})
CONF_CHANGE_V2 = Table("ConfChangeV2", {})
COMMIT_MERGE = Table(
    "CommitMergeRequest",
    {1: message("source", REGION), 2: number("commit"), 3: message("entries", ENTRY, many=True)},
)
ADMIN_REQUEST = Table(
    "AdminRequest",
    {
        1: choice("cmd_type", ADMIN_COMMANDS),
        2: message("change_peer", CHANGE_PEER),
        3: message("split", SPLIT),
        4: opaque("compact_log"),
        5: opaque("transfer_leader"),
        6: opaque("verify_hash"),
        7: message("prepare_merge", PREPARE_MERGE),
        8: message("commit_merge", COMMIT_MERGE),
        9: message("rollback_merge", ROLLBACK_MERGE),
        10: message("splits", BATCH_SPLIT),
        11: message("change_peer_v2", CHANGE_PEER_V2),
        12: opaque("compute_hash"),
        13: opaque("prepare_flashback"),
        14: opaque("finish_flashback"),
    },
)
RAFT_COMMAND = Table(
    "RaftCmdRequest",
    {
        1: message("header", HEADER),
        2: message("requests", REQUEST, many=True),
        3: message("admin_request", ADMIN_REQUEST),
        4: opaque("status_request"),
    },
)
CONF_CHANGE_SINGLE = Table(
    "ConfChangeSingle", {1: choice("change_type", CHANGE_TYPES), 2: number("node_id")}
)
ENTRY.fields.update(
    {
        1: choice("entry_type", ENTRY_TYPES),
        2: number("term"),
        3: number("index"),
        4: some_bytes("data", RAFT_COMMAND),
        5: flag("sync_log"),
        6: some_bytes("context"),
    }
)
CONF_CHANGE.fields.update(
    {
        1: number("id"),
        2: choice("change_type", CHANGE_TYPES),
        3: number("node_id"),
        4: some_bytes("context", RAFT_COMMAND),
    }
)
CONF_CHANGE_V2.fields.update(
    {
        1: choice("transition", TRANSITIONS),
        2: message("changes", CONF_CHANGE_SINGLE, many=True),
        3: some_bytes("context", RAFT_COMMAND),
    }
)
