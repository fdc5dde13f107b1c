"""Log texts that are turned into dumps with other indexes and epochs, and back by the tool."""
import os
import random

import protobuf
from dumps_of_logs import StoreDump, Shifts, dumps_of
from harness import TOP
from log_text import read_logs, text_of
from region_rules import Mode

ENCODINGS = ("hex", "base64", "escaped")


def texts(harness):
    """The lawful texts of the examples and of the worked cases."""
    found = []
    for folder in ("examples", os.path.join("tests", "cases")):
        for name in sorted(os.listdir(os.path.join(TOP, folder))):
            path = os.path.join(TOP, folder, name)
            path = os.path.join(path, "in") if os.path.isdir(path) else path
            if os.path.exists(path) and path.endswith((".log", "in")):
                with open(path, "rb") as file:
                    text = file.read().decode("latin-1")
                if text.isascii() and "store" in text and harness.ask(["check"], text)[0] == 0:
                    found.append(text)
    return found


def generated(harness, chance, most=30):
    """A text that the program makes from a number, of 1 to `most` rounds."""
    number = 2000 * chance.randrange(10**6) + chance.randrange(most)
    return harness.ask(["gen", str(number)], "")[1]


def logs_of(text):
    return read_logs("text", text.split("\n")[:-1])


def write_dumps(harness, dumps, encoding, cut=None):
    """Writes the dumps' files, and gives the words by which the tool is called."""
    words = ["--data", encoding, "--text-version", str(dumps[0].logs.version)]
    if dumps[0].family is not None:
        words += ["--only-family", dumps[0].family]
    lines = []
    for dump in dumps:
        store = dump.store.id
        harness.write("start-%d.json" % store, dump.start())
        words += ["--start", "%d=start-%d.json" % (store, store)]
        if cut is not None:
            harness.write("end-%d.json" % store, dump.end(cut(dump)))
            words += ["--end", "%d=end-%d.json" % (store, store)]
        for region, index, kind, content in dump.entries():
            lines.append(protobuf.line(store, region, index, kind, content, encoding) + "\n")
    if cut is None:
        words.append("--all-committed")
    harness.write("dump.entries", "".join(lines))
    return words + ["dump.entries"]


def without_entries_of_the_removed(logs, dumps):
    """The text that comes back: what lies behind the removal of a store's own peer isn't in it."""
    for dump in dumps:
        for region, place in dump.replay.places.items():
            if place.region.mode is Mode.REMOVED and region in dump.store.logs:
                dump.store.logs[region] = dump.store.logs[region][: place.applied - 5]
    return text_of(logs)


def lagging(chance):
    """Lets logs of merged regions be committed by their own numbers for a part only; their merge commits the rest."""

    def of_dump(dump):
        def cut(region, last, applied):
            place = dump.replay.places[region]
            if place.region.mode is Mode.MERGED and last <= applied:
                return chance.randint(5, last)
            return last

        return cut

    return of_dump


def there_and_back(harness, seed, texts):
    """One random text with random numbers."""
    chance = random.Random(seed)
    text = generated(harness, chance) if not texts or chance.random() < 0.6 else chance.choice(texts)
    logs = logs_of(text)
    dumps = dumps_of(logs, seed)
    cut = None if chance.random() < 0.4 else lagging(chance)
    words = write_dumps(harness, dumps, chance.choice(ENCODINGS), cut)
    wanted = without_entries_of_the_removed(logs, dumps)
    status, back, errors = harness.tool("from_tikv.py", *words)
    harness.judge("round trip %d" % seed, (status, back, errors if status else ""), (0, wanted, ""))


def live_regions(outcome):
    """The regions that are there at the end, with range and mode, from what `fold` writes of a text."""
    store = None
    found = set()
    for line in outcome.split("\n"):
        words = line.split(" ")
        if words[0] == "store":
            store = words[1]
        elif words[0] == "region" and words[11] == "normal":
            found.add((store, words[1], words[6], words[7]))
    return found


def later_begin(harness, seed):
    """A text whose second store is dumped from a later moment on: the text begins there on both stores."""
    chance = random.Random("later %d" % seed)
    text = generated(harness, chance, 8)
    logs = logs_of(text)
    shifts = Shifts(random.Random(seed))
    first, second = logs.stores
    steps = len(StoreDump(logs, second, shifts, chance, "default").replay.order)
    dumps = [
        StoreDump(logs, first, shifts, random.Random(1), "default"),
        StoreDump(logs, second, shifts, random.Random(1), "default", chance.randrange(1, steps + 1)),
    ]
    words = write_dumps(harness, dumps, "hex")
    status, back, errors = harness.tool("from_tikv.py", *words)
    asked, _, _ = harness.tool("from_tikv.py", "--partial", *words)
    lost = "before the text begins" in errors or "left out" in errors
    harness.judge("later begin %d: status" % seed, (status, asked), (3 if lost else 0, 0))
    harness.judge("later begin %d: lawful" % seed, harness.ask(["check"], back)[0], 0)
    if "left out" not in errors:
        there, here = (live_regions(harness.ask(["fold"], one)[1]) for one in (text, back))
        harness.judge("later begin %d: regions" % seed, here, there)
