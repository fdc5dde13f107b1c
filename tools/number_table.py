"""Reads what `from_tikv.py --numbers` wrote: TiKV's indexes beside those of the text."""
import re

from bad_input import BadInput, read_lines

LINE = re.compile(r"region ([0-9]{1,20}) index ([+-][0-9]{1,20}) conf_ver [0-9=,]+ version [0-9=,]+")


def read_shifts(path):
    """By how much a region's indexes in TiKV are above those of the text, by region."""
    shifts = {}
    for number, line in enumerate(read_lines(path), 1):
        match = LINE.fullmatch(line)
        if match is None:
            raise BadInput("%s:%d" % (path, number), "not a line of what --numbers writes")
        shifts[int(match.group(1))] = int(match.group(2))
    return shifts


class Naming:
    """How an entry is named: by region and index, and with its index in TiKV where that is known."""

    def __init__(self, path):
        self.shifts = None if path is None else read_shifts(path)

    def name(self, item):
        name = "%d/%d" % (item.region, item.index)
        if self.shifts is not None and item.region in self.shifts:
            name += " (%d)" % (item.index + self.shifts[item.region])
        return name
