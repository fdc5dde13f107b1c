#!/usr/bin/env python3
"""Shows the histories of all engine keys of one user key, from the text of `raftreplay fold`.

    tools/user_key.py KEY FOLD [--store ID] [--numbers FILE] [--only-family]

KEY is the user's key in hexadecimal digits, as a transaction names it. TiKV stores it memcomparable: in groups of 8
bytes, each with a byte behind it that counts the padding. In the families `write` and `default` a timestamp follows,
with all bits turned, so that newer versions come first; in `lock` none does. Status 0: there are such keys, or none.
1: the input can't be taken. 2: the words aren't understood.
"""
import argparse
import sys

from bad_input import DONE, read_hex, read_lines, run_tool
from families import family_named
from fold_text import read_fold
from log_text import hexadecimal
from number_table import Naming

GROUP = 8
TIMESTAMP = 8


def memcomparable(key):
    """A user's key as TiKV's engine keys begin with it."""
    coded = b""
    for place in range(0, len(key) + 1, GROUP):
        group = key[place : place + GROUP]
        padding = GROUP - len(group)
        coded += group + bytes(padding) + bytes([0xFF - padding])
    return coded


def version_of(rest):
    """What stands behind the user's key: its timestamp in decimal, `-` for none, or the bytes as they are."""
    if not rest:
        return "-"
    if len(rest) != TIMESTAMP:
        return "0x" + rest.hex()
    return "%d" % (2**64 - 1 - int.from_bytes(rest, "big"))


def options():
    parser = argparse.ArgumentParser(description="Shows the histories of all engine keys of one user key.")
    parser.add_argument("key", metavar="KEY", help="the user's key, in hexadecimal digits")
    parser.add_argument("fold", metavar="FOLD", help="what `raftreplay fold` writes")
    parser.add_argument("--store", type=int, metavar="ID", help="this store alone")
    parser.add_argument("--numbers", metavar="FILE", help="show TiKV's indexes, by what from_tikv.py --numbers wrote")
    parser.add_argument("--only-family", action="store_true", help="the text's keys have no family")
    return parser


def line_of(key, prefix, history, naming, only_family):
    """The line of an engine key: its family, its timestamp, and its history."""
    family = "-" if only_family else family_named(key) or "?"
    rest = key[len(prefix) :] if only_family else key[len(prefix) : -1]
    items = " ".join(
        naming.name(item) + ("!" if item.value is None else "=" + hexadecimal(item.value)) for item in history
    )
    return "%s %s %s" % (family, version_of(rest), items)


def main():
    wanted = options().parse_args()
    prefix = memcomparable(read_hex(wanted.key, "KEY", "the key"))
    stores = read_fold(wanted.fold, read_lines(wanted.fold))
    naming = Naming(wanted.numbers)
    lines = []
    found = 0
    for id, store in stores.items():
        if wanted.store in (None, id):
            lines.append("store %d" % id)
            for key, history in sorted(store.histories.items()):
                if key.startswith(prefix):
                    lines.append(line_of(key, prefix, history, naming, wanted.only_family))
                    found += 1
    print("user_key: %d engine keys begin with %s" % (found, prefix.hex()), file=sys.stderr)
    return "".join(line + "\n" for line in lines), DONE


if __name__ == "__main__":
    run_tool("user_key", main)
