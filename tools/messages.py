"""Decoded protobuf messages, and the tables by which they are decoded.

A table names a message and tells of each field its number, its name and its kind. Both readers, of the wire form
and of the text form, go by the same tables and give the same `Message`.
"""
import enum
from dataclasses import dataclass, field
from typing import Optional

from bad_input import Broken


class Kind(enum.Enum):
    """What a field holds. An OPAQUE field is a message that nothing is read of."""

    NUMBER = "number"
    FLAG = "flag"
    BYTES = "bytes"
    CHOICE = "choice"
    MESSAGE = "message"
    OPAQUE = "opaque"


@dataclass(frozen=True)
class Field:
    """A field: its name, its kind, whether it may come several times, and its message or its choices.

    A BYTES field with an `inner` table holds the bytes of such a message.
    """

    name: str
    kind: Kind
    many: bool = False
    of: Optional["Table"] = None
    choices: Optional[dict] = None
    inner: Optional["Table"] = None


@dataclass(frozen=True)
class Table:
    """A message: its name and its fields by number."""

    name: str
    fields: dict = field(compare=False)

    def named(self, name):
        """The field of a name, or None."""
        return next((known for known in self.fields.values() if known.name == name), None)


class Message:
    """The values of a message's fields, by name."""

    def __init__(self, table):
        self.table = table
        self.values = {}

    def add(self, known, value):
        """Takes a further value of a field in. A field that isn't repeated comes once."""
        values = self.values.setdefault(known.name, [])
        if values and not known.many:
            raise Broken("%s.%s comes twice" % (self.table.name, known.name))
        values.append(value)

    def has(self, name):
        return name in self.values

    def one(self, name, default):
        """The value of a field, or the default where it isn't there."""
        values = self.values.get(name)
        return values[0] if values else default

    def all(self, name):
        return self.values.get(name, [])

    def needed(self, name):
        """The value of a field that must be there."""
        if name not in self.values:
            raise Broken("%s has no %s" % (self.table.name, name))
        return self.values[name][0]


def chosen(known, number):
    """The name of a choice. A number without a name is never guessed."""
    if number not in known.choices:
        raise Broken("unknown %s %d" % (known.name, number))
    return known.choices[number]
