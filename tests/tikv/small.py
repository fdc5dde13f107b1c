"""A small dump to try single things on: one store, with region 7 at index 100 and epoch 5 9, or two regions."""
import json

import protobuf
from protobuf import command, peer

EPOCH = (5, 9)
PEERS = ((71, 1, "Voter"), (72, 2, "Voter"), (73, 3, "Learner"))


def info(id, start, end, epoch=EPOCH, peers=PEERS, applied=100, commit=None, state="Normal"):
    region = {
        "id": id,
        "start_key": start.hex(),
        "end_key": end.hex(),
        "region_epoch": {"conf_ver": epoch[0], "version": epoch[1]},
        "peers": [{"id": one, "store_id": store, "role": role} for one, store, role in peers],
    }
    value = {
        "region_id": id,
        "region_local_state": {"region": region, "state": state},
        "raft_apply_state": {"applied_index": applied},
    }
    if commit is not None:
        value["raft_local_state"] = {"hard_state": {"commit": commit}}
    return value


def states(*infos):
    return json.dumps({"region_infos": {str(one["region_id"]): one for one in infos}}, indent=1)


def normal(index, rest, epoch=EPOCH, region=7, store=1):
    """The line of an entry that is a command."""
    return protobuf.line(store, region, index, protobuf.NORMAL, command(region, epoch, rest))


def writes(*ones):
    return protobuf.requests(ones)


def conf(index, changes, epoch=EPOCH, region=7, store=1):
    """The line of changes of peers, in the second form."""
    context = command(region, epoch, protobuf.change_peer_v2([(kind, peer(*one)) for kind, one in changes]))
    singles = [(kind, one[0]) for kind, one in changes]
    return protobuf.line(store, region, index, protobuf.CONF_CHANGE_V2, protobuf.conf_change_v2(singles, context))


def convert(harness, lines, *words, start=None):
    """What from_tikv.py answers to a dump of one store."""
    harness.write("start.json", start or states(info(7, b"b", b"m")))
    harness.write("small.entries", "".join(line + "\n" for line in lines))
    given = ["--start", "1=start.json", *words]
    if not any(word == "--end" for word in words):
        given.append("--all-committed")
    return harness.tool("from_tikv.py", *given, "small.entries")


def entries_of(answer):
    """The entries of the text that the tool wrote, or its whole answer where it refused."""
    status, out, errors = answer
    if not out:
        return answer
    return status, [line for line in out.split("\n")[1:-2] if line.split(" ")[0] not in ("store", "region", "log")]
