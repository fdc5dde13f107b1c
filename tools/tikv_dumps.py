"""Reads what was dumped of stores: the state of their regions as JSON, and their Raft entries, one a line."""
import base64
import binascii
import json
from dataclasses import dataclass
from typing import Dict, List, Optional

from bad_input import BadInput, Broken, read_lines, read_number, short
from text_form import braces, unescape
from tikv_commands import Command, EntryType, Peer, Role
from tikv_regions import Region

ENTRY_TYPES = {
    "normal": EntryType.NORMAL,
    "conf": EntryType.CONF_CHANGE,
    "conf2": EntryType.CONF_CHANGE_V2,
    "0": EntryType.NORMAL,
    "1": EntryType.CONF_CHANGE,
    "2": EntryType.CONF_CHANGE_V2,
    "EntryNormal": EntryType.NORMAL,
    "EntryConfChange": EntryType.CONF_CHANGE,
    "EntryConfChangeV2": EntryType.CONF_CHANGE_V2,
}
ENCODINGS = ("hex", "base64", "escaped", "text")


@dataclass(frozen=True)
class RegionState:
    """A region's state in a dump: the region, its applied index, and up to where its log is committed."""

    region: Region
    applied: int
    commit: Optional[int]
    state: str


@dataclass(frozen=True)
class DumpedEntry:
    store: int
    region: int
    index: int
    command: Command
    where: str


def object_at(value, name, where):
    """A member of a JSON object that must be an object itself."""
    member = value.get(name) if isinstance(value, dict) else None
    if not isinstance(member, dict):
        raise BadInput(where, "%s isn't there, or is no object" % name)
    return member


def number_at(value, name, where):
    number = value.get(name)
    if isinstance(number, bool) or not isinstance(number, int) or not 0 <= number < 2**64:
        raise BadInput(where, "%s isn't there, or is no number" % name)
    return number


def bytes_at(value, name, where):
    """A key of a JSON object, in hexadecimal digits of either case."""
    text = value.get(name)
    try:
        if not isinstance(text, str) or not (text == "" or text.isalnum()):
            raise ValueError
        return bytes.fromhex(text)
    except ValueError:
        raise BadInput(where, "%s isn't there, or isn't hexadecimal" % name) from None


def peer_at(value, where):
    if not isinstance(value, dict):
        raise BadInput(where, "a peer is no object")
    role = value.get("role", "Voter")
    if role not in [known.value for known in Role]:
        raise BadInput(where, "unknown role of a peer: %s" % short(str(role)))
    return Peer(number_at(value, "id", where), number_at(value, "store_id", where), Role(role))


def region_at(value, where):
    """The region of a `region_local_state`."""
    epoch = object_at(value, "region_epoch", where)
    peers = value.get("peers")
    if not isinstance(peers, list):
        raise BadInput(where, "peers isn't there, or is no list")
    region = Region(
        number_at(value, "id", where),
        bytes_at(value, "start_key", where),
        bytes_at(value, "end_key", where),
        number_at(epoch, "conf_ver", where),
        number_at(epoch, "version", where),
        tuple(peer_at(peer, where) for peer in peers),
    )
    if region.id == 0 or region.conf_ver == 0 or region.version == 0:
        raise BadInput(where, "an id and the numbers of an epoch are at least 1")
    if region.end and region.start >= region.end:
        raise BadInput(where, "the region's end isn't above its start")
    if len({peer.store for peer in region.peers}) != len(region.peers):
        raise BadInput(where, "two peers of a region on one store")
    return region


def state_at(value, where):
    local = object_at(value, "region_local_state", where)
    applied = number_at(object_at(value, "raft_apply_state", where), "applied_index", where)
    raft = value.get("raft_local_state")
    commit = None
    if raft is not None:
        hard = object_at(object_at(value, "raft_local_state", where), "hard_state", where)
        commit = number_at(hard, "commit", where)
    state = local.get("state", "Normal")
    if not isinstance(state, str):
        raise BadInput(where, "state is no text")
    return RegionState(region_at(object_at(local, "region", where), where), applied, commit, state)


def no_repeats(pairs):
    """A JSON object, with no name twice."""
    value = dict(pairs)
    if len(value) != len(pairs):
        raise ValueError("a name stands twice in an object")
    return value


def read_states(path) -> Dict[int, RegionState]:
    """The states in a file of the shape that `tikv-ctl raft region` prints, by region. Tombstones are left out."""
    text = "\n".join(read_lines(path))
    try:
        value = json.loads(text, object_pairs_hook=no_repeats)
    except json.JSONDecodeError as fault:
        raise BadInput("%s:%d" % (path, fault.lineno), "no JSON: %s" % fault.msg) from None
    except (ValueError, RecursionError) as fault:
        raise BadInput("%s:1" % path, "no JSON that is read here: %s" % fault) from None
    infos = object_at(value, "region_infos", "%s:1" % path)
    states = {}
    for name, info in infos.items():
        where = "%s:%d: region %s" % (path, line_of(text, name), short(name))
        state = state_at(info, where)
        if str(state.region.id) != name:
            raise BadInput(where, "it has the id %d inside" % state.region.id)
        if state.state != "Tombstone":
            states[state.region.id] = state
    return states


def line_of(text, name):
    """The line in which a region's object begins."""
    place = text.find(json.dumps(name) + ":")
    return text.count("\n", 0, max(place, 0)) + 1


def decode_data(text, encoding, where):
    """The bytes of an entry's data; in the text form the text itself."""
    if encoding == "text":
        return text
    try:
        if encoding == "hex":
            if text and not text.isalnum():
                raise ValueError
            return bytes.fromhex(text)
        if encoding == "base64":
            return base64.b64decode(text, validate=True)
        return unescape(text)
    except (ValueError, binascii.Error):
        raise BadInput(where, "the data isn't %s: %s" % (encoding, short(text))) from None
    except Broken as fault:
        raise BadInput(where, "the data isn't escaped bytes: %s" % fault.reason) from None


class EntryReader:
    """Reads files of dumped entries in one encoding."""

    def __init__(self, encoding, commands):
        self.encoding = encoding
        self.commands = commands

    def read(self, path) -> List[DumpedEntry]:
        """The entries of a file, in the order of its lines."""
        lines = read_lines(path)
        entries = []
        place = 0
        while place < len(lines):
            line = lines[place]
            place += 1
            if line.strip() and not line.startswith("#"):
                first = place
                block, place = self.block(path, lines, place)
                entries.append(self.entry(line, block, path, first))
        return entries

    def block(self, path, lines, place):
        """The lines of a message in the text form that begins with a brace, and the place behind it."""
        words = lines[place - 1].split(" ", 4)
        if self.encoding != "text" or len(words) < 5 or words[4] != "{":
            return None, place
        first = place
        depth = 1
        while depth:
            if place >= len(lines):
                raise BadInput("%s:%d" % (path, first), "the message has no closing brace")
            try:
                depth += braces(lines[place])
            except Broken as fault:
                raise BadInput("%s:%d" % (path, place + 1), fault.reason) from None
            place += 1
        if depth < 0 or lines[place - 1].strip() != "}":
            raise BadInput("%s:%d" % (path, place), "the closing brace doesn't stand alone")
        return "\n".join(lines[first : place - 1]), place

    def entry(self, line, block, path, number):
        """The entry of a line `STORE REGION INDEX TYPE DATA`; `-` or nothing for the data is an empty entry."""
        where = "%s:%d" % (path, number)
        words = line.split(" ", 4)
        if len(words) < 4:
            raise BadInput(where, "a line has STORE REGION INDEX TYPE DATA")
        store, region, index = (
            read_number(word, where, what) for word, what in zip(words, ("the store", "the region", "the index"))
        )
        if words[3] not in ENTRY_TYPES:
            raise BadInput(where, "unknown type of an entry: %s" % short(words[3]))
        data = b""
        if len(words) == 5 and words[4] != "-":
            data = decode_data(words[4], self.encoding, where) if block is None else block
        try:
            command = self.commands.read(ENTRY_TYPES[words[3]], data)
        except Broken as fault:
            if block is not None:
                where = "%s:%d" % (path, number + 1 + fault.line)
            reason = "store %d region %d index %d: %s" % (store, region, index, fault.reason)
            raise BadInput(where, reason) from None
        return DumpedEntry(store, region, index, command, where)
