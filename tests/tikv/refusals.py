"""Bad input of each kind: the tools name the line, end with status 1 or 2, and write nothing."""
import os

import protobuf
from harness import TOP
from protobuf import command, put
from small import convert, info, normal, states, writes

GOOD = writes(put("default", b"c", b"1"))
LOG = "raftreplay 1\nstore 1\nregion 7 62 6d\nlog 7\n6 1 1 write put 63 31\nend\n"
FOLD = (
    "store 1\nregion 7 epoch 1 1 range 62 6d applied 6 left 0 normal\nreply 7 6 ok 1\n"
    "pair 63 31\nhistory 63 7/6=31\n"
)


def raw(content, index=101, kind=0):
    return protobuf.line(1, 7, index, kind, content)


def entries():
    """Lines of entries with what is said of them."""
    good = command(7, (5, 9), GOOD)
    yield "truncated", [raw(good[:-3])], "small.entries:1: store 1 region 7 index 101: the message ends inside a field"
    yield "truncated number", [raw(good + b"\x80")], "index 101: the message ends inside a number"
    yield "a number that is too long", [raw(b"\xff" * 11)], "a number has more than 10 bytes"
    yield "a wrong wire type", [raw(b"\x08\x01")], "RaftCmdRequest.header has wire type 0"
    yield "a group", [raw(b"\x0b\x0c")], "wire type 3 isn't read"
    yield "field 0", [raw(b"\x00\x01")], "field number 0"
    yield "a field twice", [raw(good + good)], "RaftCmdRequest.header comes twice"
    yield "no header", [raw(GOOD)], "RaftCmdRequest has no header"
    yield "an unknown command", [normal(101, protobuf.data(2, protobuf.number(1, 2)))], "unknown cmd_type 2"
    yield "a read", [normal(101, protobuf.data(2, protobuf.number(1, 1)))], "a request Get in a write"
    yield "an unknown admin command", [normal(101, protobuf.data(3, protobuf.number(1, 14)))], "unknown cmd_type 14"
    yield "an unknown family", [normal(101, writes(put("raft", b"c", b"")))], "a write of the family raft"
    yield "a key that is too long", [normal(101, writes(put("lock", b"c" * 256, b"")))], "a key of 257 bytes"
    yield "a conf change without a command", [raw(protobuf.number(3, 1), kind=1)], "ConfChange has no context"
    yield "a write in a conf change", [raw(protobuf.conf_change(0, 1, good), kind=1)], "in an entry of type EntryConfChange"
    yield "an index with a gap", [normal(101, GOOD), normal(103, GOOD)], "small.entries:2: store 1 region 7: index 103 after 101"
    yield "a gap behind the start", [normal(102, GOOD)], "its entries begin at 102: a gap"
    twice = protobuf.old_split((b"g", 7, [1, 2, 3]), True)
    yield "a new region that is there", [normal(101, twice)], "index 101: the new region 7 is there already"
    yield "a region without a start", [normal(101, GOOD, region=9)], "region 9 of store 1 isn't in the --start"
    yield "a store without a start", [normal(101, GOOD, store=2)], "small.entries:1: store 2 has no --start"
    yield "a short line", ["1 7 101"], "small.entries:1: a line has STORE REGION INDEX TYPE DATA"
    yield "no number", ["1 7 1x1 normal"], "the index isn't a number"
    yield "a number that is too great", ["1 7 18446744073709551616 normal"], "is above"
    yield "an unknown type", ["1 7 101 other"], "unknown type of an entry"
    yield "no hexadecimal", ["1 7 101 normal 0g"], "the data isn't hex"


def starts():
    """States at the start with what is said of them."""
    good = states(info(7, b"b", b"m"))
    yield "no JSON", good[:-4], "no JSON"
    yield "no regions", "{}", "start.json:1: region_infos isn't there"
    yield "an id twice", good.replace('"id": 7,', '"id": 7, "id": 7,'), "a name stands twice"
    yield "another id inside", good.replace('"id": 7,', '"id": 8,'), "it has the id 8 inside"
    yield "no epoch", good.replace("region_epoch", "epoch"), "region_epoch isn't there"
    yield "a number as a text", good.replace('"version": 9', '"version": "9"'), "version isn't there, or is no number"
    yield "bounds that fall", states(info(7, b"m", b"b")), "the region's end isn't above its start"
    yield "an unknown role", good.replace("Learner", "Witness"), "unknown role of a peer"
    yield "deep", "[" * 100000, "no JSON that is read here"


def test_from_tikv(harness):
    for name, lines, part in entries():
        harness.refusal(name, convert(harness, lines), part)
    for name, start, part in starts():
        harness.refusal("start: " + name, convert(harness, [], start=start), part)
    front = states(info(7, b"b", b"cc"), info(8, b"cc", b"m"))
    lines = [normal(101, writes(put("write", b"c", b"")))]
    harness.refusal("a key that is a front of a bound", convert(harness, lines, start=front), "is a front of a region's bound")
    harness.refusal("bad base64", convert(harness, ["1 7 101 normal a"], "--data", "base64"), "the data isn't base64")
    harness.refusal("a bad escape", convert(harness, ["1 7 101 normal \\q"], "--data", "escaped"), "isn't escaped bytes")
    harness.refusal("no text form", convert(harness, ["1 7 101 normal ?"], "--data", "text"), "isn't protobuf's text form")
    harness.write("other.json", states(info(7, b"b", b"n")))
    answer = convert(harness, [], "--start", "2=other.json")
    harness.refusal("two starts that differ", answer, "other.json:1: region 7 at index 100 isn't the same on the stores 1 and 2")
    harness.refusal("no words", harness.tool("from_tikv.py"), "usage:", 2)
    harness.refusal("no file", harness.tool("from_tikv.py", "--start", "1=none", "--all-committed", "none"), "none")


def test_trace(harness):
    harness.write("log", LOG)
    harness.write("fold", FOLD)
    status, out, errors = harness.tool("trace.py", "7", "log", "fold")
    harness.judge("trace", (status, "6 own: write put 63 31 at 1 1: ok 1" in out, errors), (0, True, ""))
    for name, before, after in (("a reply", "ok 1", "ok 2"), ("an epoch", "epoch 1 1", "epoch 1 2"), ("left", "left 0", "left 1")):
        harness.write("fold", FOLD.replace(before, after))
        status, _, errors = harness.tool("trace.py", "7", "log", "fold")
        harness.judge("trace differs in %s" % name, (status, "fold has" in errors), (3, True))
    harness.write("fold", "syntax 1 BadHeader\n")
    harness.refusal("trace of a refused log", harness.tool("trace.py", "7", "log", "fold"), "fold:1: the program refuses")
    harness.write("fold", FOLD)
    for name, line, part in (
        ("a body", "6 1 1 what", "log:5: not the body"),
        ("no number", "6 1 x empty", "log:5: "),
        ("an index", "5 1 1 empty", "log:5: the index 5 should be 6"),
    ):
        harness.write("log", LOG.replace("6 1 1 write put 63 31", line))
        harness.refusal("trace: %s" % name, harness.tool("trace.py", "7", "log", "fold"), part)
    harness.write("log", LOG.replace("end\n", ""))
    harness.refusal("trace: no end", harness.tool("trace.py", "7", "log", "fold"), "log:6: the text has no line `end`")
    harness.write("log", LOG)
    harness.write("fold", "store 1\nwhat\n")
    harness.refusal("trace: no fold", harness.tool("trace.py", "7", "log", "fold"), "fold:2: not a line")


def test_against(harness):
    harness.write("fold", FOLD + "history 6464 7/6=31 7/8!\n")
    for name, data, wanted in (
        ("nothing", "7a63 31\n7a6565 99\n", (0, "")),
        ("a lost value", "", (3, "lost 63 logs 31 first 7/6 last 7/6\n")),
        ("another value", "7a63 32\n", (3, "differs 63 logs 31 stored 32 first 7/6 last 7/6\n")),
        ("a key that is still there", "7a63 31\n7a6464 -\n", (3, "not gone 6464 stored - first 7/6 last 7/8\n")),
    ):
        harness.write("data", data)
        harness.judge("against: %s" % name, harness.tool("against.py", "fold", "--data", "data", "--prefix", "7a")[:2], wanted)
    for name, data, part in (
        ("no prefix", "63 31\n", "data:1: the key doesn't begin with 7a"),
        ("a key twice", "7a63 31\n7a63 31\n", "data:2: the key comes twice"),
        ("no value", "7a63\n", "data:1: a line has KEY VALUE"),
        ("an odd digit", "7a63 3\n", "data:1: the value isn't hexadecimal"),
    ):
        harness.write("data", data)
        harness.refusal("against: %s" % name, harness.tool("against.py", "fold", "--data", "data", "--prefix", "7a"), part)
    harness.write("data", "")
    harness.refusal("against: no store", harness.tool("against.py", "fold", "--data", "data", "--store", "9"), "store 9 isn't there")
    harness.refusal("against: a family", harness.tool("against.py", "fold", "--data", "raft=data"), "isn't one of", 2)


def test_changed_example(harness):
    """A store's log that is changed alone is found by the program's check, and not by the tool."""
    folder = os.path.join(TOP, "examples", "from-tikv")
    with open(os.path.join(folder, "cluster.log"), encoding="ascii") as file:
        text = file.read()
    front, mark, back = text.rpartition("736d616c6c6572")
    status, answer = harness.ask(["check"], front + "736d616c6c6573" + back)
    harness.judge("a changed example", (mark != "", status, answer.split("\n")[0]), (True, 3, "unlawful differ 1 2 70 15"))


def test(harness):
    test_from_tikv(harness)
    test_trace(harness)
    test_against(harness)
    test_changed_example(harness)
