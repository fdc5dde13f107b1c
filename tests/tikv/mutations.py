"""Random changes of the example's dumps. The tool refuses them with a line, or writes a text that the program reads."""
import os
import random
import re

from harness import TOP

EXAMPLE = os.path.join(TOP, "examples", "from-tikv")
FILES = ["store-%d%s" % (store, rest) for store in (1, 2) for rest in ("-start.json", "-end.json", ".entries")]
WORDS = ["--start", "1=store-1-start.json", "--start", "2=store-2-start.json"]
WORDS += ["--end", "1=store-1-end.json", "--end", "2=store-2-end.json", "store-1.entries", "store-2.entries"]
COUNT = 200
MESSAGE = re.compile(r"from_tikv: store-[12](-start\.json|-end\.json|\.entries):[0-9]+: ")


def changed(content, chance):
    """A text with one change: a byte, some bytes, a line or the end."""
    place = chance.randrange(len(content))
    kind = chance.randrange(8)
    if kind == 0:
        return content[:place] + bytes([chance.randrange(256)]) + content[place + 1 :]
    if kind == 1:
        return content[:place] + content[place + chance.randrange(1, 6) :]
    if kind == 2:
        return content[:place] + chance.choice([b"0", b"f", b" ", b"-", b"9", b"\n", b"7b"]) + content[place:]
    if kind == 3:
        return content[:place]
    if kind == 4:
        digits = [spot for spot in range(len(content)) if content[spot : spot + 1] in b"0123456789abcdef"]
        spot = chance.choice(digits)
        return content[:spot] + chance.choice([b"0", b"1", b"8", b"a", b"f"]) + content[spot + 1 :]
    lines = content.split(b"\n")
    spot = chance.randrange(len(lines))
    if kind == 5:
        del lines[spot]
    elif kind == 6:
        lines.insert(spot, chance.choice(lines))
    else:
        other = chance.randrange(len(lines))
        lines[spot], lines[other] = lines[other], lines[spot]
    return b"\n".join(lines)


def flaw(harness, answer):
    """What is wrong with an answer, or the empty text."""
    status, out, errors = answer
    if "Traceback" in errors:
        return "a traceback"
    if status in (1, 2):
        if out:
            return "a refusal that wrote something"
        return "" if MESSAGE.match(errors) else "a message without a line"
    if status not in (0, 3):
        return "status %d" % status
    found, text = harness.ask(["check"], out)
    return "" if found in (0, 3) else "the program can't read the text: %s" % text


def test(harness):
    contents = {}
    for name in FILES:
        with open(os.path.join(EXAMPLE, name), "rb") as file:
            contents[name] = file.read()
    refused = 0
    for seed in range(COUNT):
        chance = random.Random("mutation %d" % seed)
        name = chance.choice(FILES)
        for other in FILES:
            harness.write(other, contents[other])
        content = contents[name]
        for _ in range(chance.choice([1, 1, 3])):
            content = changed(content, chance) or b"\n"
        harness.write(name, content)
        answer = harness.tool("from_tikv.py", *WORDS)
        refused += answer[0] in (1, 2)
        harness.judge("mutation %d of %s" % (seed, name), (flaw(harness, answer), answer[2][-800:]), ("", answer[2][-800:]))
    harness.judge("most mutations are refused", refused > COUNT // 2, True)
