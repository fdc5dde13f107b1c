"""What becomes of single entries, and what the tool's options change."""
import protobuf
from protobuf import ADD, ADD_LEARNER, LEARNER, REMOVE, delete, put
from small import conf, convert, entries_of, info, normal, states, writes

LONG = b"v" * 5000
TEXT = r"""1 7 101 normal header { region_epoch { conf_ver: 5 version: 9 } } requests { cmd_type: Put put { cf: "write" key: "c\001\"" value: "\377" } }
1 7 102 normal {
header {
  region_id: 7
  peer { id: 71 store_id: 1 }
  region_epoch {
    conf_ver: 5
    version: 9
  }
}
admin_request {
  cmd_type: BatchSplit
  splits {
    requests { split_key: "g" new_region_id: 8 new_peer_ids: [81, 82, 83] }
    right_derive: true
  }
}
}
1 7 103 conf2 changes { node_id: 74 } context { header { region_epoch { conf_ver: 5 version: 10 } } admin_request {
1 7 104 normal -
"""


def test_kinds(harness):
    """The families, empty entries, and commands without an effect."""
    lines = [
        "1 7 101 normal",
        normal(102, writes(put("default", b"c", b"1"), put("lock", b"c", b""), delete("write", b"d"))),
        normal(103, protobuf.compact_log(50), (1, 1)),
        normal(104, b""),
        normal(105, writes(put("write", b"a", b"1"))),
    ]
    wanted = [
        "6 1 1 empty",
        "7 1 1 write put 6364 31 put 636c - del 6477",
        "8 0 0 empty",
        "9 1 1 empty",
        "10 1 1 write put 6177 31",
    ]
    harness.judge("kinds", entries_of(convert(harness, lines)), (0, wanted))


def test_epochs(harness):
    """What was stale stays stale, and both numbers are followed through learners and joint changes."""
    lines = [
        conf(101, [(ADD, (73, 3))]),
        normal(102, writes(put("lock", b"c", b"1")), (5, 8)),
        conf(103, [(ADD_LEARNER, (75, 5, LEARNER))], (6, 9)),
        conf(104, [(ADD, (76, 6)), (ADD_LEARNER, (72, 2))], (7, 9)),
        conf(105, [], (9, 9)),
        conf(106, [(REMOVE, (72, 2, LEARNER))], (11, 9)),
        conf(107, [(REMOVE, (76, 6))], (6, 9)),
        conf(108, [(ADD, (77, 7))], (12, 9)),
        normal(109, protobuf.old_split((b"g", 8, [1, 2, 3, 4, 5]), False), (13, 9)),
        normal(110, protobuf.old_split((b"f", 9, [1, 2, 3, 4, 5]), False), (13, 9)),
    ]
    wanted = [
        "6 1 1 empty",
        "7 1 0 write put 636c 31",
        "8 1 1 empty",
        "9 1 1 empty",
        "10 1 1 empty",
        "11 1 1 remove 2",
        "12 1 1 remove 6",
        "13 2 1 add 7",
        "14 3 1 split left 8 67",
        "15 3 1 split left 9 66",
    ]
    answer = convert(harness, lines)
    harness.judge("epochs", entries_of(answer), (0, wanted))
    status, text = harness.ask(["fold"], answer[1])
    replies = [line for line in text.split("\n") if line.startswith(("reply 7 7 ", "reply 7 12 ", "reply 7 15 "))]
    wanted = ["reply 7 7 stale 1 1", "reply 7 12 stale 2 1", "reply 7 15 stale 3 2"]
    harness.judge("epochs: what is stale", (status, replies), (0, wanted))


def test_options(harness):
    """Each option changes what it says, and is told of."""
    ranged = [normal(101, writes(protobuf.delete_range(b"c", b"d")))]
    harness.refusal("a range without the option", convert(harness, ranged), "small.entries:1: store 1 region 7 index 101: ")
    answer = convert(harness, ranged, "--as-empty", "delete-range")
    harness.judge("a range as empty", entries_of(answer), (0, ["6 1 1 empty"]))
    harness.judge("a range is counted", "1: delete-range became empty, as asked" in answer[2], True)
    flashback = [normal(101, protobuf.prepare_flashback())]
    harness.refusal("a flashback without the option", convert(harness, flashback), "no word for flashback")
    harness.judge("a flashback", entries_of(convert(harness, flashback, "--as-empty", "flashback")), (0, ["6 1 1 empty"]))
    long = [normal(101, writes(put("write", b"c", LONG)))]
    harness.refusal("a long value without the option", convert(harness, long), "a value of 5000 bytes")
    status, out, _ = convert(harness, long, "--hash-long-values")
    harness.judge("a long value", (status, b"raftreplay-sha256:5000:".hex() in out), (0, True))
    plain = [normal(101, writes(put("default", b"c", b"1")))]
    answer = convert(harness, plain, "--only-family", "default", "--text-version", "1")
    harness.judge("one family, version 1", (answer[0], answer[1]), (
        0, "raftreplay 1\nstore 1\nregion 7 62 6d\nlog 7\n6 1 1 write put 63 31\nend\n"))
    unknown = [normal(101, writes(put("default", b"c", b"1")) + protobuf.number(9, 1))]
    harness.refusal("an unknown field", convert(harness, unknown), "RaftCmdRequest: unknown field 9")
    answer = convert(harness, unknown, "--ignore-field", "RaftCmdRequest.9")
    harness.judge("an unknown field that is to be ignored", answer[0], 0)


def test_text_form(harness):
    """The text form of `protoc --decode`, in one line and in several."""
    lines = TEXT.split("\n")[:-1]
    broken = convert(harness, lines, "--data", "text")
    harness.refusal("a text form without its end", broken, "small.entries:19: store 1 region 7 index 103: the text form ends")
    lines[-2] += " cmd_type: ChangePeerV2 change_peer_v2 { changes { peer { id: 74 store_id: 4 } } } } }"
    wanted = ["6 1 1 write put 63012277 ff", "7 1 1 split right 8 67", "8 1 2 add 4", "9 2 2 empty"]
    harness.judge("the text form", entries_of(convert(harness, lines, "--data", "text")), (0, wanted))


def two_regions(**rest):
    return states(info(7, b"b", b"m"), info(8, b"m", b"p", (6, 20), ((81, 1, "Voter"),), 300, **rest))


def merge_lines(last=303, carried=True):
    """Region 8 merges into region 7; its own log may end before its prepare."""
    target = protobuf.region(7, b"b", b"m", 5, 9, [])
    content = {
        301: protobuf.command(8, (6, 20), writes(put("write", b"n", b"1"))),
        302: b"",
        303: protobuf.command(8, (6, 20), protobuf.prepare_merge(target, 300)),
    }
    source = protobuf.region(8, b"m", b"p", 7, 21, [])
    entries = [protobuf.raft_entry(index, content[index]) for index in content] if carried else []
    lines = [normal(101, protobuf.commit_merge(source, 303, entries)), normal(102, writes(put("lock", b"n", b"")), (5, 22))]
    return lines + [protobuf.line(1, 8, index, 0, content[index]) for index in content if index <= last]


def test_merges(harness):
    """Indexes of a merge have their source's shift; what is cut, what isn't, and what is left out."""
    wanted = [
        "6 1 1 commit 8 8 3", "carry 6 1 1 write put 6e77 31", "carry 7 1 1 empty", "carry 8 1 1 prepare 7",
        "7 1 3 write put 6e6c -",
    ]
    own = ["6 1 1 write put 6e77 31", "7 1 1 empty", "8 1 1 prepare 7"]
    for last in (300, 301, 303):
        answer = convert(harness, merge_lines(last), start=two_regions())
        harness.judge("a merge, own log to %d" % last, entries_of(answer), (0, wanted + own[: last - 300]))
    harness.write("end.json", states(info(7, b"b", b"p", commit=102), info(8, b"m", b"p", (6, 20), applied=300, commit=301)))
    answer = convert(harness, merge_lines(), "--end", "1=end.json", start=two_regions())
    harness.judge("a merge commits its source's log", entries_of(answer), (0, wanted + own))
    harness.write("end.json", states(info(7, b"b", b"m", commit=100), info(8, b"m", b"p", (6, 20), applied=300, commit=301)))
    answer = convert(harness, merge_lines(), "--end", "1=end.json", start=two_regions())
    harness.judge("without the merge it is cut", entries_of(answer), (0, own[:1]))
    for name, lines, start in (
        ("a partner that isn't there", merge_lines(300), None),
        ("a source that ends too early", merge_lines(301, False), two_regions()),
    ):
        status, out, errors = convert(harness, lines, start=start)
        harness.judge("%s is left out" % name, (status, out, "left out: region 7 of store 1" in errors), (
            3, "raftreplay 2\nstore 1\nend\n", True))
        harness.judge("%s, as asked" % name, convert(harness, lines, "--partial", start=start)[0], 0)


def test_ends(harness):
    """A region that isn't there at the end was merged or removed; what lies behind isn't committed there."""
    harness.write("end.json", states(info(7, b"b", b"p", commit=102)))
    lines = merge_lines() + [protobuf.line(1, 8, 304, 0, b"")]
    status, out, errors = convert(harness, lines, "--end", "1=end.json", start=two_regions())
    harness.judge("a region that was merged", (status, out.count("\n8 1 1 prepare 7\n"), "1: not committed" in errors), (
        0, 1, True))
    status, out, errors = convert(harness, [], "--end", "1=end.json", start=two_regions())
    reason = "left out: region 8 of store 1: it isn't in the store's --end, and nothing in the dump ends it"
    harness.judge("a region that nothing ends", (status, "region 8" in out, reason in errors), (3, False, True))
    lines = [conf(101, [(REMOVE, (71, 1))]), normal(102, b"", (6, 9))]
    answer = convert(harness, lines)
    harness.judge("a removed region", entries_of(answer), (0, ["6 1 1 remove 1"]))
    harness.judge("what lies behind is counted", "1: behind the removal" in answer[2], True)
    lines = [conf(101, [(REMOVE, (73, 3, LEARNER)), (REMOVE, (71, 1))])]
    harness.judge("a joint removal of a voter is refused", convert(harness, lines)[0], 0)
    merging = states(info(7, b"b", b"m", state="Merging"))
    harness.judge("a region that is merging at the start", convert(harness, [], start=merging)[0], 3)


def test(harness):
    test_kinds(harness)
    test_epochs(harness)
    test_options(harness)
    test_text_form(harness)
    test_merges(harness)
    test_ends(harness)
