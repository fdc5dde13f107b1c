"""Reads the text form of protobuf messages, as `protoc --decode` prints it."""
import re
from dataclasses import dataclass

from bad_input import Broken, short
from messages import Kind, Message, chosen

TOKEN = re.compile(
    r"""(?P<space>[ \t\r\n]+|\#[^\n]*)
    |(?P<string>"(?:[^"\\\n]|\\.)*"|'(?:[^'\\\n]|\\.)*')
    |(?P<word>[A-Za-z_][A-Za-z0-9_]*)
    |(?P<number>[0-9][0-9A-Fa-fx]*)
    |(?P<mark>[{}<>:;,\[\]-])""",
    re.VERBOSE,
)
ESCAPE = re.compile(rb"\\(?:([0-3][0-7]{2}|[0-7]{1,2})|[xX]([0-9A-Fa-f]{1,2})|(.)|)", re.DOTALL)
LETTERS = {b"n": b"\n", b"r": b"\r", b"t": b"\t", b'"': b'"', b"'": b"'", b"\\": b"\\"}
LETTERS.update({b"a": b"\a", b"b": b"\b", b"f": b"\f", b"v": b"\v", b"?": b"?"})
DEEPEST = 32
CLOSING = {"{": "}", "<": ">"}


@dataclass(frozen=True)
class Token:
    kind: str
    text: str
    line: int


def unescape(text):
    """The bytes that an escaped text stands for: octal and hexadecimal escapes, and those of single letters."""

    def one(match):
        octal, digits, letter = match.groups()
        if octal:
            return bytes([int(octal, 8)])
        if digits:
            return bytes([int(digits, 16)])
        if letter not in LETTERS:
            raise Broken("an escape that isn't known: %s" % short(match.group().decode("latin-1")))
        return LETTERS[letter]

    return ESCAPE.sub(one, text.encode("ascii"))


def tokens_of(text):
    """The tokens of a text, each with its line, counted from 0."""
    tokens = []
    place = line = 0
    while place < len(text):
        match = TOKEN.match(text, place)
        if match is None:
            raise Broken("this isn't protobuf's text form: %s" % short(text[place : place + 20]), line)
        if match.lastgroup != "space":
            tokens.append(Token(match.lastgroup, match.group(), line))
        line += match.group().count("\n")
        place = match.end()
    return tokens


def braces(line):
    """How many braces a line of the text form opens more than it closes."""
    marks = [token.text for token in tokens_of(line) if token.kind == "mark"]
    return sum(mark in "{<" for mark in marks) - sum(mark in "}>" for mark in marks)


class Reader:
    """Goes through tokens from the first to the last."""

    def __init__(self, tokens, ignored):
        self.tokens = tokens
        self.ignored = ignored
        self.place = 0

    def peek(self):
        """The next token's text, or the empty text at the end."""
        return self.tokens[self.place].text if self.place < len(self.tokens) else ""

    def take(self):
        if self.place >= len(self.tokens):
            raise Broken("the text form ends inside a message", self.tokens[-1].line if self.tokens else 0)
        self.place += 1
        return self.tokens[self.place - 1]

    def message(self, table, closing, depth):
        """The fields up to the closing brace, or up to the end where that is the empty text."""
        if depth > DEEPEST:
            raise Broken("messages lie more than %d deep in one another" % DEEPEST, self.take().line)
        message = Message(table)
        while self.peek() != closing:
            self.field(message, depth)
            while self.peek() in (";", ","):
                self.take()
        if closing:
            self.take()
        return message

    def field(self, message, depth):
        """One field with its value or its list of values."""
        name = self.take()
        if name.kind not in ("word", "number"):
            raise Broken("a field's name should stand here: %s" % short(name.text), name.line)
        known = self.known(message.table, name)
        if self.peek() == ":":
            self.take()
        if self.peek() != "[":
            self.value(message, known, name, depth)
            return
        self.take()
        while self.peek() != "]":
            self.value(message, known, name, depth)
            if self.peek() == ",":
                self.take()
        self.take()

    def known(self, table, name):
        """The field of a name, or None where it is to be ignored."""
        known = table.named(name.text)
        if known is not None:
            number = next(key for key, value in table.fields.items() if value is known)
            return None if (table.name, number) in self.ignored else known
        if name.text.isdigit() and (table.name, int(name.text)) in self.ignored:
            return None
        if (table.name, name.text) in self.ignored:
            return None
        raise Broken("%s: unknown field %s" % (table.name, short(name.text)), name.line)

    def value(self, message, known, name, depth):
        """Takes one value, and puts it into the message unless it is to be ignored."""
        opening = self.peek()
        if opening in CLOSING:
            self.take()
            if known is None or known.kind is Kind.OPAQUE:
                self.skip(CLOSING[opening])
                value = b""
            else:
                value = self.block(known, CLOSING[opening], name, depth)
        else:
            value = self.scalar(known, self.take())
        if known is None:
            return
        try:
            message.add(known, value)
        except Broken as fault:
            raise Broken(fault.reason, name.line) from None

    def block(self, known, closing, name, depth):
        """A message in braces; bytes that hold a message may be given as that message, too."""
        table = known.of if known.kind is Kind.MESSAGE else known.inner
        if table is None:
            raise Broken("%s isn't a message" % known.name, name.line)
        return self.message(table, closing, depth + 1)

    def skip(self, closing):
        """Goes behind the closing brace of a message that nothing is read of."""
        open_ones = [closing]
        while open_ones:
            text = self.take().text
            if text in CLOSING:
                open_ones.append(CLOSING[text])
            elif text == open_ones[-1]:
                open_ones.pop()

    def scalar(self, known, token):
        """A value that is no message."""
        if known is None:
            if token.text == "-":
                self.take()
            return None
        if token.kind == "string" and known.kind is Kind.BYTES:
            return self.strings(token)
        if known.kind is Kind.FLAG and token.text in ("true", "false", "0", "1"):
            return token.text in ("true", "1")
        if known.kind is Kind.CHOICE and token.text in known.choices.values():
            return token.text
        if known.kind in (Kind.CHOICE, Kind.NUMBER) and token.text.isdigit() and len(token.text) <= 20:
            return self.number(known, token)
        raise Broken("%s can't be %s" % (known.name, short(token.text)), token.line)

    def number(self, known, token):
        number = int(token.text)
        if number >= 2**64:
            raise Broken("a number is above 2^64 - 1", token.line)
        try:
            return chosen(known, number) if known.kind is Kind.CHOICE else number
        except Broken as fault:
            raise Broken(fault.reason, token.line) from None

    def strings(self, token):
        """The bytes of a string; strings that follow one another are one."""
        try:
            value = unescape(token.text[1:-1])
            while self.place < len(self.tokens) and self.tokens[self.place].kind == "string":
                value += unescape(self.take().text[1:-1])
        except Broken as fault:
            raise Broken(fault.reason, token.line) from None
        return value


def parse(table, text, ignored=frozenset()):
    """The message of a table that the text is."""
    return Reader(tokens_of(text), ignored).message(table, "", 0)
