"""Reads the text that `raftreplay fold` writes: of each store its regions, replies, pairs and histories."""
from dataclasses import dataclass, field
from typing import Dict, List, Optional, Tuple

from bad_input import BadInput, read_hex, read_number, short


@dataclass(frozen=True)
class Item:
    """A write of a key: the region and the index of its entry, and the value, or None for a deletion."""

    region: int
    index: int
    value: Optional[bytes]


@dataclass
class StoreOutcome:
    id: int
    regions: Dict[int, str] = field(default_factory=dict)
    replies: Dict[Tuple[int, int], str] = field(default_factory=dict)
    pairs: Dict[bytes, bytes] = field(default_factory=dict)
    histories: Dict[bytes, List[Item]] = field(default_factory=dict)


def item_of(text, where):
    """The item `REGION/INDEX=VALUE` or `REGION/INDEX!`."""
    head, mark, value = text.partition("=")
    if not mark and head.endswith("!"):
        head, mark = head[:-1], "!"
    region, slash, index = head.partition("/")
    if not mark or not slash:
        raise BadInput(where, "no item of a history: %s" % short(text))
    numbers = read_number(region, where, "the region"), read_number(index, where, "the index")
    return Item(*numbers, None if mark == "!" else read_hex(value, where, "the value"))


def take_line(store, words, where):
    """Takes a line of a store in."""
    if words[0] == "region" and len(words) > 2:
        store.regions[read_number(words[1], where, "the region")] = " ".join(words[2:])
    elif words[0] == "reply" and len(words) > 3:
        region, index = (read_number(word, where, "the field") for word in words[1:3])
        store.replies[region, index] = " ".join(words[3:])
    elif words[0] == "pair" and len(words) == 3:
        store.pairs[read_hex(words[1], where, "the key")] = read_hex(words[2], where, "the value")
    elif words[0] == "history" and len(words) > 2:
        store.histories[read_hex(words[1], where, "the key")] = [item_of(text, where) for text in words[2:]]
    else:
        raise BadInput(where, "not a line of what `fold` writes: %s" % short(" ".join(words)))


def read_fold(path, lines) -> Dict[int, StoreOutcome]:
    """The outcomes of a text's lines, by store."""
    stores = {}
    store = None
    for number, line in enumerate(lines, 1):
        where = "%s:%d" % (path, number)
        words = line.split(" ")
        if words[0] == "store" and len(words) == 2:
            id = read_number(words[1], where, "the store")
            if id in stores:
                raise BadInput(where, "store %d comes twice" % id)
            store = stores[id] = StoreOutcome(id)
        elif store is None:
            raise BadInput(where, "not what `fold` writes: %s" % short(line))
        else:
            take_line(store, words, where)
    return stores


def chosen_store(stores, wanted, path):
    """The outcome of a store that is named, or of the only one."""
    if wanted is None:
        if len(stores) != 1:
            raise BadInput("%s:1" % path, "there are %d stores; say which by --store" % len(stores))
        return next(iter(stores.values()))
    if wanted not in stores:
        raise BadInput("%s:1" % path, "store %d isn't there" % wanted)
    return stores[wanted]
