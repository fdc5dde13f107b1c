"""How TiKV's keys and values are spelled in a log text, which has no column families and shorter values.

The column family becomes the last byte of the key. A key keeps its place between the bounds of regions by it, unless
the key is a front of a bound: `place_kept` says whether that is so for the bounds of a dump.
"""
import hashlib
from bisect import bisect_right

SUFFIXES = {"default": b"d", "lock": b"l", "write": b"w"}
LONGEST_KEY = 256
LONGEST_VALUE = 4096
HASH_MARK = b"raftreplay-sha256:"


def marked_hash(value):
    """What stands for a value that is too long: a mark, the value's length and its hash."""
    return HASH_MARK + b"%d:" % len(value) + hashlib.sha256(value).digest()


def family_named(key):
    """The family that a key's last byte names, or None."""
    return next((name for name, suffix in SUFFIXES.items() if key.endswith(suffix)), None)


def place_kept(bounds, key, spelled):
    """Whether as many of the sorted bounds lie at or below the spelled key as below the key itself."""
    return bisect_right(bounds, key) == bisect_right(bounds, spelled)
