#!/usr/bin/env python3
"""Makes a log text of what was dumped of TiKV's stores: the states of their regions, and their Raft entries.

    tools/from_tikv.py --start STORE=FILE .. (--end STORE=FILE .. | --all-committed) [OPTION ..] ENTRIES ..

docs/TIKV.md tells the forms of the files and what becomes of each entry. The text goes to standard output, and what
was dropped, changed and left out is told on standard error. This tool is trusted, and nothing is proved of it.

Status 0: nothing is lost, or what is lost was asked for. 1: the input can't be taken. 2: the words aren't understood.
3: a text was written, and something is left out that no option asked for.
"""
import argparse
import re
import sys
from collections import Counter

from bad_input import DIFFERS, DONE, BadInput, run_tool
from log_text import Logs, StoreLogs, text_of
from tikv_alignment import Alignment
from tikv_commands import CommandReader, Split
from tikv_dumps import ENCODINGS, EntryReader, read_states
from tikv_stores import Store
from written_regions import Speller, Spelling, Wishes

MOST_STORES = 64
MOST_ENTRIES = 1_048_576
MOST_REGIONS = 4096
BEYOND = ("delete-range", "ingest-sst", "flashback")


def store_file(word):
    """The store and the file of a word `STORE=FILE`."""
    match = re.fullmatch(r"([1-9][0-9]{0,18})=(.+)", word)
    if match is None:
        raise argparse.ArgumentTypeError("%r isn't STORE=FILE" % word)
    return int(match.group(1)), match.group(2)


def field_number(word):
    """The message's name and the field of a word `MESSAGE.FIELD`."""
    match = re.fullmatch(r"([A-Za-z0-9]+)\.([A-Za-z0-9_]+)", word)
    if match is None:
        raise argparse.ArgumentTypeError("%r isn't MESSAGE.FIELD" % word)
    name, number = match.groups()
    return name, int(number) if number.isdigit() else number


def options():
    parser = argparse.ArgumentParser(description="Makes a log text of what was dumped of TiKV's stores.")
    add = parser.add_argument
    add("entries", nargs="+", metavar="ENTRIES", help="a file of lines STORE REGION INDEX TYPE DATA")
    add("--start", action="append", required=True, type=store_file, metavar="STORE=FILE",
        help="a store's regions where its dump begins, as `tikv-ctl raft region` prints them")
    add("--end", action="append", default=[], type=store_file, metavar="STORE=FILE",
        help="the same where its dump ends: up to where each log is committed")
    add("--all-committed", action="store_true", help="take every entry as committed; no --end is needed")
    add("--data", choices=ENCODINGS, default="hex", help="how DATA is written (hex)")
    add("--text-version", type=int, choices=(1, 2), default=2, help="the version of the log text (2)")
    add("--only-family", metavar="NAME", help="the one column family; its name doesn't go into the keys")
    add("--hash-long-values", action="store_true", help="write a marked hash for a value above 4096 bytes")
    add("--as-empty", action="append", default=[], choices=BEYOND, help="take these commands as empty entries")
    add("--ignore-field", action="append", default=[], type=field_number, metavar="MESSAGE.FIELD",
        help="skip a field that the tables don't have")
    add("--partial", action="store_true", help="status 0 also where regions or entries are left out")
    add("--numbers", metavar="FILE", help="write TiKV's indexes and epochs beside those of the text")
    return parser


def by_store(pairs, name, parser):
    """The files by store. A store that comes twice is no usage."""
    files = dict(pairs)
    if len(files) != len(pairs):
        parser.error("%s: a store comes twice" % name)
    return files


def logs_of(entries, stores):
    """The entries by store and region, each log with one index after the other."""
    logs = {store: {} for store in stores}
    for entry in entries:
        if entry.store not in logs:
            raise BadInput(entry.where, "store %d has no --start" % entry.store)
        log = logs[entry.store].setdefault(entry.region, [])
        if log and entry.index != log[-1].index + 1:
            reason = "store %d region %d: index %d after %d" % (entry.store, entry.region, entry.index, log[-1].index)
            raise BadInput(entry.where, reason)
        log.append(entry)
    return logs


def bounds_of(states, entries):
    """All bounds of regions that the dump speaks of, sorted."""
    bounds = set()
    for regions in states.values():
        for state in regions.values():
            bounds.update((state.region.start, state.region.end))
    for entry in entries:
        if isinstance(entry.command.body, Split):
            bounds.update(part.key for part in entry.command.body.parts)
    bounds.discard(b"")
    return sorted(bounds)


class Conversion:
    """From dumps to a log text."""

    def __init__(self, wanted, starts, ends):
        self.wanted = wanted
        self.starts = starts
        self.states = {store: read_states(path) for store, path in sorted(starts.items())}
        self.commits = {store: self.commits_in(path) for store, path in ends.items()}
        commands = CommandReader(frozenset(wanted.ignore_field))
        reader = EntryReader(wanted.data, commands)
        entries = [entry for path in wanted.entries for entry in reader.read(path)]
        self.logs = logs_of(entries, self.states)
        wishes = Wishes(wanted.text_version, wanted.only_family, wanted.hash_long_values, frozenset(wanted.as_empty))
        self.spelling = Spelling(wishes, bounds_of(self.states, entries))
        self.speller = Speller(self.spelling)
        self.report = Counter()
        self.lost = False
        self.notes = []
        self.table = ""

    def commits_in(self, path):
        """Up to where each region's log is committed, by the states at the dump's end."""
        commits = {}
        for region, state in read_states(path).items():
            if state.commit is None:
                raise BadInput("%s:1" % path, "region %d has no raft_local_state" % region)
            commits[region] = max(state.commit, state.applied)
        return commits

    def text(self):
        """The log text, with the report made on the way."""
        stores = [
            Store(store, self.states[store], self.logs[store], self.commits.get(store)) for store in self.states
        ]
        alignment = Alignment(stores, self.states, self.starts)
        holds = alignment.holds()
        self.spelling.shifts.update({region: hold - 5 for region, hold in holds.items()})
        for store in stores:
            store.begin(self.speller, holds)
        alignment.compare()
        for store in stores:
            store.run()
            alignment.finish(store)
            store.spell_left()
        self.tell(alignment, stores)
        self.table = self.numbers(alignment, stores)
        return self.checked(Logs(self.wanted.text_version, [self.store_logs(store, alignment) for store in stores]))

    def store_logs(self, store, alignment):
        """What the text has of a store."""
        logs = StoreLogs(store.id)
        for region, place in sorted(store.places.items()):
            if place.both is None or alignment.is_left_out(store, region):
                continue
            if place.first_region is not None:
                logs.regions.append(place.first_region)
            log = [entry for index, entry in sorted(place.entries.items()) if self.is_own(place, index)]
            if log:
                logs.logs[region] = log
        return logs

    def is_own(self, place, index):
        """Whether the text has an entry in the region's own log."""
        if place.own_entry(index) is None:
            return False
        return not self.is_gone(place) or index <= place.applied

    def is_gone(self, place):
        """Whether the region was merged and isn't there at the dump's end: what lies behind its prepare isn't committed."""
        return place.merged and place.limit is None and not self.wanted.all_committed

    def checked(self, logs):
        """The logs, unless they are beyond a log text's limits."""
        entries = sum(len(log) for store in logs.stores for log in store.logs.values())
        if entries > MOST_ENTRIES:
            raise BadInput(self.wanted.entries[0], "%d entries; a log text has at most %d" % (entries, MOST_ENTRIES))
        return logs

    def tell(self, alignment, stores):
        """Makes the report: what was dropped, changed and left out."""
        left_out = {(store, region) for store, region, _ in alignment.left_out()}
        for kind, _, _ in self.speller.noted:
            self.report[kind] += 1
        for store in stores:
            for region, log in store.logs.items():
                if (store.id, region) in left_out:
                    self.report["left out with their region"] += len(log)
                else:
                    self.tell_log(alignment, store, region, log)
        for store, region, reason in alignment.left_out():
            self.notes.append("left out: region %d of store %d: %s" % (region, store, reason))
            self.lost = True
        for store, region in alignment.unseen_removals():
            self.notes.append("region %d of store %d stays in the text, and TiKV removed it there" % (region, store))
            self.lost = True

    def tell_log(self, alignment, store, region, log):
        """Counts the entries of a region's own log that the text doesn't have."""
        place = store.places[region]
        begin = alignment.begin.get(region, 5)
        state = self.states[store.id].get(region)
        applied = state.applied if state is not None else 5
        if place.overwritten:
            self.report["not committed, and overwritten by a merge"] += place.overwritten
        for entry in log:
            if entry.index <= applied:
                self.report["applied before the dump begins"] += 1
            elif entry.index <= begin or place.both is None:
                self.report["before the text begins"] += 1
                self.lost = True
            elif place.own_entry(entry.index) is None or (self.is_gone(place) and entry.index > place.applied):
                self.report["not committed"] += 1
            elif entry.index not in place.entries:
                self.report["behind the removal of the store's own peer"] += 1

    def numbers(self, alignment, stores):
        """TiKV's indexes and epochs beside those of the text, a line for each region."""
        lines = {}
        for store in stores:
            for region, place in sorted(store.places.items()):
                if place.both is not None and not alignment.is_left_out(store, region):
                    line = "region %d index %+d" % (region, self.spelling.shift(region))
                    for name, numbers in (("conf_ver", place.both.conf_ver), ("version", place.both.version)):
                        line += " %s %s" % (name, ",".join(pairs_of(numbers)))
                    lines[region] = max(lines.get(region, ""), line, key=len)
        return "".join(lines[region] + "\n" for region in sorted(lines))


def pairs_of(numbers):
    """The text's number and TiKV's, as `TEXT=TIKV`, from the first to the last."""
    pairs = []
    while numbers is not None:
        pairs.append("%d=%d" % (numbers.written, numbers.real))
        numbers = numbers.before
    return reversed(pairs)


def main():
    parser = options()
    wanted = parser.parse_args()
    starts = by_store(wanted.start, "--start", parser)
    ends = by_store(wanted.end, "--end", parser)
    if wanted.all_committed == bool(ends):
        parser.error("give --end for each store, or --all-committed")
    if ends and set(ends) != set(starts):
        parser.error("--start and --end name different stores")
    if len(starts) > MOST_STORES:
        parser.error("a log text has at most %d stores" % MOST_STORES)
    conversion = Conversion(wanted, starts, ends)
    text = text_of(conversion.text())
    if wanted.numbers is not None:
        with open(wanted.numbers, "w", encoding="ascii") as file:
            file.write(conversion.table)
    for kind, count in sorted(conversion.report.items()):
        print("from_tikv: %d: %s" % (count, kind), file=sys.stderr)
    for note in conversion.notes:
        print("from_tikv: %s" % note, file=sys.stderr)
    return text, DIFFERS if conversion.lost and not wanted.partial else DONE


if __name__ == "__main__":
    run_tool("from_tikv", main)
