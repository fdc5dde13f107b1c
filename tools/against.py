#!/usr/bin/env python3
"""Holds what a store has stored against what its logs say: the text of `raftreplay fold`.

    tools/against.py FOLD --data FAMILY=FILE .. [--store ID] [--prefix HEX] [--numbers FILE]

Each data file has a line `KEY VALUE` in hexadecimal digits for each pair that the store holds in a column family; `-`
is the empty value. Without `FAMILY=` keys are taken as they are, for a text without families. Looked at are the keys
that entries of the text wrote, and no others. Status 0: nothing differs. 1: the input can't be taken. 2: the words
aren't understood. 3: something differs, and a line for each such key is written.
"""
import argparse
import re
import sys

from bad_input import DIFFERS, DONE, BadInput, read_hex, read_lines, run_tool
from families import LONGEST_VALUE, SUFFIXES, family_named, marked_hash
from fold_text import chosen_store, read_fold
from log_text import hexadecimal
from number_table import Naming


def data_file(word):
    """The family and the file of a word `FAMILY=FILE`; without a family the file alone."""
    family, mark, path = word.partition("=")
    if not mark:
        return None, word
    if family not in SUFFIXES:
        raise argparse.ArgumentTypeError("%r isn't one of %s" % (family, ", ".join(sorted(SUFFIXES))))
    return family, path


def prefix_bytes(word):
    if not re.fullmatch("(?:[0-9a-fA-F]{2})+", word):
        raise argparse.ArgumentTypeError("%r isn't hexadecimal" % word)
    return bytes.fromhex(word)


def options():
    parser = argparse.ArgumentParser(description="Holds what a store has stored against what its logs say.")
    parser.add_argument("fold", metavar="FOLD", help="what `raftreplay fold` writes")
    parser.add_argument("--data", action="append", required=True, type=data_file, metavar="FAMILY=FILE")
    parser.add_argument("--store", type=int, metavar="ID", help="which store; needed where FOLD has several")
    parser.add_argument("--prefix", type=prefix_bytes, default=b"", metavar="HEX",
                        help="what stands before each key of the data: 7a for TiKV's data keys")
    parser.add_argument("--numbers", metavar="FILE", help="show TiKV's indexes, by what from_tikv.py --numbers wrote")
    return parser


def read_pairs(path, prefix, suffix, pairs):
    """Takes the pairs of a data file in, by the keys that the text has for them."""
    for number, line in enumerate(read_lines(path), 1):
        where = "%s:%d" % (path, number)
        words = line.split(" ")
        if len(words) != 2:
            raise BadInput(where, "a line has KEY VALUE")
        key, value = read_hex(words[0], where, "the key"), read_hex(words[1], where, "the value")
        if not key.startswith(prefix):
            raise BadInput(where, "the key doesn't begin with %s" % prefix.hex())
        key = key[len(prefix) :] + suffix
        if key in pairs:
            raise BadInput(where, "the key comes twice")
        pairs[key] = marked_hash(value) if len(value) > LONGEST_VALUE else value


def finding(key, history, said, stored, naming):
    """The line for a key that differs, or None."""
    if said == stored:
        return None
    if said is None:
        what = "not gone %s stored %s" % (key.hex(), hexadecimal(stored))
    elif stored is None:
        what = "lost %s logs %s" % (key.hex(), hexadecimal(said))
    else:
        what = "differs %s logs %s stored %s" % (key.hex(), hexadecimal(said), hexadecimal(stored))
    return "%s first %s last %s\n" % (what, naming.name(history[0]), naming.name(history[-1]))


def main():
    parser = options()
    wanted = parser.parse_args()
    families = [family for family, _ in wanted.data]
    if None in families and len(families) > 1:
        parser.error("--data without a family stands alone")
    outcome = chosen_store(read_fold(wanted.fold, read_lines(wanted.fold)), wanted.store, wanted.fold)
    pairs = {}
    for family, path in wanted.data:
        read_pairs(path, wanted.prefix, SUFFIXES[family] if family else b"", pairs)
    looked_at = [key for key in outcome.histories if None in families or family_named(key) in families]
    naming = Naming(wanted.numbers)
    lines = []
    for key in sorted(looked_at):
        line = finding(key, outcome.histories[key], outcome.pairs.get(key), pairs.get(key), naming)
        if line is not None:
            lines.append(line)
    counts = len(looked_at), len(lines), len(outcome.histories) - len(looked_at)
    print("against: %d keys looked at, %d differ; %d of other families" % counts, file=sys.stderr)
    return "".join(lines), DIFFERS if lines else DONE


if __name__ == "__main__":
    run_tool("against", main)
