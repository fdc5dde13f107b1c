"""What the tools say where their input can't be taken, and the statuses that they end with."""
import sys

DONE = 0
REFUSED = 1
USAGE = 2
DIFFERS = 3


class BadInput(Exception):
    """An input that can't be taken: where it stands, as `FILE:LINE`, and why."""

    def __init__(self, where, reason):
        super().__init__("%s: %s" % (where, reason))


class Broken(Exception):
    """A message that can't be decoded. Whoever has its line makes a BadInput of it.

    `line` counts the lines of the message itself from 0, where it has several.
    """

    def __init__(self, reason, line=0):
        super().__init__(reason)
        self.reason = reason
        self.line = line


def read_lines(path):
    """The lines of a text file, without their ends. A file that isn't ASCII is a BadInput."""
    with open(path, "rb") as file:
        lines = file.read().split(b"\n")
    if lines and lines[-1] == b"":
        lines.pop()
    texts = []
    for number, line in enumerate(lines, 1):
        try:
            texts.append(line.decode("ascii").rstrip("\r"))
        except UnicodeDecodeError:
            raise BadInput("%s:%d" % (path, number), "a byte that isn't ASCII") from None
    return texts


def read_hex(text, where, what):
    """The bytes that hexadecimal digits stand for; `-` stands for none."""
    if text == "-":
        return b""
    try:
        if not text or not text.isalnum():
            raise ValueError
        return bytes.fromhex(text)
    except ValueError:
        raise BadInput(where, "%s isn't hexadecimal: %s" % (what, short(text))) from None


def read_number(text, where, what, most=2**64 - 1):
    """A decimal number without sign or leading zero."""
    digits = text.isascii() and text.isdigit() and len(text) <= 20
    if not digits or (len(text) > 1 and text[0] == "0"):
        raise BadInput(where, "%s isn't a number: %s" % (what, short(text)))
    number = int(text)
    if number > most:
        raise BadInput(where, "%s is above %d: %s" % (what, most, text))
    return number


def short(text):
    """A front of the text that fits into a message."""
    shown = ascii(text)
    return shown if len(shown) <= 60 else shown[:57] + ".."


def run_tool(name, main):
    """Calls `main`, which gives the text to write and a status, and ends the process.

    Nothing is written to standard output before `main` has ended, and nothing where it refuses.
    """
    try:
        text, status = main()
    except BadInput as refusal:
        print("%s: %s" % (name, refusal), file=sys.stderr)
        sys.exit(REFUSED)
    except OSError as fault:
        print("%s: %s: %s" % (name, fault.filename, fault.strerror), file=sys.stderr)
        sys.exit(REFUSED)
    try:
        sys.stdout.write(text)
        sys.stdout.flush()
    except BrokenPipeError:
        sys.stderr.close()
        sys.exit(REFUSED)
    sys.exit(status)
