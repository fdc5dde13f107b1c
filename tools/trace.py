#!/usr/bin/env python3
"""Shows what each entry of a region did: the verdict, and the region's epoch, range and mode before and after.

    tools/trace.py REGION LOG FOLD [--store ID] [--numbers FILE]

LOG is a log text, and FOLD what `raftreplay fold` writes for it. The tool applies the log by a small replay of its
own, which is trusted and not proved, and holds it against FOLD. Status 0: they agree. 1: the input can't be taken.
2: the words aren't understood. 3: they differ, and the first differences are told on standard error.
"""
import argparse
import sys

from bad_input import DIFFERS, DONE, BadInput, Broken, read_lines, run_tool
from fold_text import chosen_store, read_fold
from log_text import body_text, bound, read_logs
from number_table import read_shifts
from store_replay import Replay

MOST_TOLD = 20


def options():
    parser = argparse.ArgumentParser(description="Shows what each entry of a region did.")
    parser.add_argument("region", type=int, metavar="REGION")
    parser.add_argument("log", metavar="LOG", help="a log text")
    parser.add_argument("fold", metavar="FOLD", help="what `raftreplay fold` writes for it")
    parser.add_argument("--store", type=int, metavar="ID", help="this store alone")
    parser.add_argument("--numbers", metavar="FILE", help="show TiKV's indexes, by what from_tikv.py --numbers wrote")
    return parser


def region_text(place):
    """The line of a region as the text of `fold` has it, without its id."""
    region = place.region
    peers = " peers %s" % " ".join(map(str, region.peers)) if region.peers else ""
    parts = (region.conf_ver, region.version, bound(region.start), bound(region.end), place.applied, place.left())
    return "epoch %d %d range %s %s applied %d left %d " % parts + region.mode_text() + peers


def differences(replay, outcome):
    """Where the replay and the program's answer differ, over all regions of a store."""
    replies = {}
    lines = {}
    for id, place in replay.places.items():
        lines[id] = region_text(place)
        for step in place.steps:
            replies[id, step.entry.index] = step.reply
    for name, ours, theirs in (("region", lines, outcome.regions), ("reply", replies, outcome.replies)):
        for key in sorted(set(ours) | set(theirs)):
            if ours.get(key) != theirs.get(key):
                where = "%d" % key if name == "region" else "%d %d" % key
                here, there = ours.get(key, "nothing"), theirs.get(key, "nothing")
                yield "store %d %s %s: fold has %s, this replay %s" % (replay.store, name, where, there, here)


def state_text(region, peers):
    """A region's epoch, range and mode."""
    text = "%d %d %s %s %s" % (
        region.conf_ver, region.version, bound(region.start), bound(region.end), region.mode_text())
    return text + (" peers %s" % " ".join(map(str, region.peers)) if peers and region.peers else "")


def short_body(entry):
    """An entry's body, cut where it is long."""
    text = body_text(entry.body)
    return text if len(text) <= 80 else text[:78] + ".."


def lines_of(replay, region, shift):
    """The lines for a region on a store."""
    place = replay.places.get(region)
    yield "store %d" % replay.store
    if place is None:
        yield "region %d isn't there" % region
        return
    yield "region %d begins %s" % (region, state_text(place.first, True))
    for step in place.steps:
        number = "%d" % step.entry.index
        if shift is not None:
            number += " (%d)" % (step.entry.index + shift)
        log = "own" if step.own else "carried"
        epoch = "%d %d" % (step.entry.conf_ver, step.entry.version)
        yield "%s %s: %s at %s: %s" % (number, log, short_body(step.entry), epoch, step.reply)
        before, after = state_text(step.before, False), state_text(step.after, False)
        if step.before == step.after:
            yield "    %s, as before" % before
        else:
            yield "    %s -> %s" % (before, after)
    yield "region %d ends %s, applied %d, left %d" % (
        region, state_text(place.region, True), place.applied, place.left())


def main():
    wanted = options().parse_args()
    lines = read_lines(wanted.fold)
    if lines and lines[0].split(" ")[0] in ("syntax", "unlawful"):
        raise BadInput("%s:1" % wanted.fold, "the program refuses the log: %s" % lines[0])
    logs = read_logs(wanted.log, read_lines(wanted.log))
    outcomes = read_fold(wanted.fold, lines)
    shift = None if wanted.numbers is None else read_shifts(wanted.numbers).get(wanted.region)
    shown = []
    told = []
    stores = [store for store in logs.stores if wanted.store in (None, store.id)]
    if not stores and wanted.store is not None:
        raise BadInput("%s:1" % wanted.log, "store %d isn't there" % wanted.store)
    for store in stores:
        outcome = chosen_store(outcomes, store.id, wanted.fold)
        try:
            replay = Replay(store)
        except Broken as fault:
            told.append("store %d: %s" % (store.id, fault.reason))
            continue
        told.extend(differences(replay, outcome))
        shown.extend(lines_of(replay, wanted.region, shift))
    for line in told[:MOST_TOLD]:
        print("trace: %s" % line, file=sys.stderr)
    if told:
        print("trace: %d differences: the replay and the program's answer don't agree" % len(told), file=sys.stderr)
    return "".join(line + "\n" for line in shown), DIFFERS if told else DONE


if __name__ == "__main__":
    run_tool("trace", main)
