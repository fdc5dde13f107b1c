"""Writes TiKV's messages in the wire form of protobuf: a small encoder, for tests alone.

It shares no table with the decoder in tools/: the field numbers stand here a second time.
"""
import base64

NORMAL, CONF_CHANGE, CONF_CHANGE_V2 = 0, 1, 2
VOTER, LEARNER = 0, 1
ADD, REMOVE, ADD_LEARNER = 0, 1, 2


def varint(number):
    data = bytearray()
    while number >= 0x80:
        data.append(number & 0x7F | 0x80)
        number >>= 7
    data.append(number)
    return bytes(data)


def number(field, value):
    """A number; 0 isn't written, as in proto3."""
    return varint(field << 3) + varint(value) if value else b""


def data(field, value):
    """Bytes or a message."""
    return varint(field << 3 | 2) + varint(len(value)) + value


def some_data(field, value):
    """Bytes; none aren't written, as in proto3."""
    return data(field, value) if value else b""


def epoch(conf_ver, version):
    return number(1, conf_ver) + number(2, version)


def peer(id, store, role=VOTER):
    return number(1, id) + number(2, store) + number(3, role)


def region(id, start, end, conf_ver, version, peers):
    fields = number(1, id) + some_data(2, start) + some_data(3, end) + data(4, epoch(conf_ver, version))
    return fields + b"".join(data(5, one) for one in peers)


def command(region_id, numbers, rest):
    """A RaftCmdRequest: its header, and what it asks for."""
    header = number(1, region_id) + data(2, peer(region_id * 1000 + 1, 1)) + data(5, epoch(*numbers)) + number(6, 7)
    return data(1, header) + rest


def put(family, key, value):
    cf = b"" if family == "default" else family.encode()
    return number(1, 3) + data(4, some_data(1, cf) + some_data(2, key) + some_data(3, value))


def delete(family, key):
    cf = b"" if family == "default" else family.encode()
    return number(1, 4) + data(5, some_data(1, cf) + some_data(2, key))


def delete_range(start, end):
    return number(1, 7) + data(8, some_data(2, start) + some_data(3, end))


def requests(ones):
    return b"".join(data(2, one) for one in ones)


def admin(kind, field, message):
    return data(3, number(1, kind) + data(field, message))


def compact_log(index):
    return admin(3, 4, number(1, index) + number(2, 6))


def verify_hash(index):
    return admin(6, 6, number(1, index) + data(2, b"\x01\x02\x03\x04"))


def compute_hash():
    return admin(5, 12, data(1, b"context"))


def split_request(key, id, peer_ids):
    packed = b"".join(varint(one) for one in peer_ids)
    return data(1, key) + number(2, id) + some_data(3, packed)


def batch_split(parts, right):
    return admin(10, 10, b"".join(data(1, split_request(*part)) for part in parts) + number(2, int(right)))


def old_split(part, right):
    return admin(2, 3, split_request(*part) + number(4, int(right)))


def prepare_merge(target, min_index):
    return admin(7, 7, number(1, min_index) + data(2, target))


def raft_entry(index, content):
    return number(2, 7) + number(3, index) + some_data(4, content)


def commit_merge(source, commit, entries):
    return admin(8, 8, data(1, source) + number(2, commit) + b"".join(data(3, one) for one in entries))


def rollback_merge(commit):
    return admin(9, 9, number(1, commit))


def prepare_flashback():
    return admin(12, 13, number(1, 440_000_000))


def change_request(kind, one):
    return number(1, kind) + data(2, one)


def change_peer(kind, one):
    return admin(1, 2, change_request(kind, one))


def change_peer_v2(changes):
    return admin(11, 11, b"".join(data(1, change_request(*change)) for change in changes))


def conf_change(kind, peer_id, context):
    return number(2, kind) + number(3, peer_id) + data(4, context)


def conf_change_v2(changes, context):
    singles = b"".join(data(2, number(1, kind) + number(2, peer_id)) for kind, peer_id in changes)
    return singles + data(3, context)


def escaped(content):
    """Bytes as TiKV's `escape` writes them."""
    letters = {10: "\\n", 13: "\\r", 9: "\\t", 34: '\\"', 92: "\\\\"}
    return "".join(
        letters.get(byte) or (chr(byte) if 32 <= byte < 127 else "\\%03o" % byte) for byte in content
    )


def line(store, region_id, index, kind, content, encoding="hex"):
    """The line of a dumped entry."""
    name = ("normal", "conf", "conf2")[kind]
    if encoding == "hex":
        text = content.hex()
    elif encoding == "base64":
        text = base64.b64encode(content).decode()
    else:
        text = escaped(content)
    return "%d %d %d %s %s" % (store, region_id, index, name, text or "-")
