#!/usr/bin/env python3
"""Draws what became of the regions of a log text, as SVG or as lines for a terminal.

    raftreplay fold < LOG | tools/lineage.py LOG > picture.svg
    raftreplay fold < LOG | tools/lineage.py --text LOG

Each region is a band over the order of the entries; splits fork and merges join. All stores stand over one order, so
that a store that lags ends earlier. Entries that were refused are crosses.
"""
import argparse
import sys

from picture.as_svg import svg_of
from picture.as_text import text_of
from picture.texts import Unfit, read_fold, read_logs
from picture.timeline import picture_of


def arguments():
    parser = argparse.ArgumentParser(description="Draws what became of the regions of a log text.")
    parser.add_argument("log", metavar="LOG", help="the log text")
    parser.add_argument("fold", metavar="FOLD", nargs="?", help="what 'raftreplay fold' wrote of it; else standard input")
    parser.add_argument("--text", action="store_true", help="lines for a terminal, in place of SVG")
    return parser.parse_args()


def content(path):
    if path is None:
        return sys.stdin.buffer.read().decode("ascii", "replace")
    with open(path, encoding="ascii", errors="replace") as file:
        return file.read()


def main():
    given = arguments()
    try:
        picture = picture_of(read_logs(content(given.log)), read_fold(content(given.fold)))
        text = text_of(picture) if given.text else svg_of(picture)
    except (Unfit, OSError) as why:
        print("lineage: %s" % why, file=sys.stderr)
        return 1
    sys.stdout.buffer.write(text.encode())
    return 0


if __name__ == "__main__":
    sys.exit(main())
