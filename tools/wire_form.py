"""Reads the wire form of protobuf messages: a list of fields, each a tag and a value."""
from bad_input import Broken
from messages import Kind, Message, chosen

VARINT, FIXED_64, BYTES, FIXED_32 = 0, 1, 2, 5
WIRE_OF = {
    Kind.NUMBER: VARINT,
    Kind.FLAG: VARINT,
    Kind.CHOICE: VARINT,
    Kind.BYTES: BYTES,
    Kind.MESSAGE: BYTES,
    Kind.OPAQUE: BYTES,
}


def varint(data, place):
    """The number at a place, and the place behind it."""
    number = shift = 0
    while True:
        if place >= len(data):
            raise Broken("the message ends inside a number")
        byte = data[place]
        place += 1
        number |= (byte & 0x7F) << shift
        if byte < 0x80:
            break
        shift += 7
        if shift > 63:
            raise Broken("a number has more than 10 bytes")
    if number >= 2**64:
        raise Broken("a number is above 2^64 - 1")
    return number, place


def value_at(data, place, wire):
    """The value of a wire type at a place, a number or bytes, and the place behind it."""
    if wire == VARINT:
        return varint(data, place)
    if wire == BYTES:
        length, place = varint(data, place)
    elif wire in (FIXED_32, FIXED_64):
        length = 4 if wire == FIXED_32 else 8
    else:
        raise Broken("wire type %d isn't read" % wire)
    if place + length > len(data):
        raise Broken("the message ends inside a field")
    return data[place : place + length], place + length


def decode(table, data, ignored=frozenset()):
    """The message of a table that the bytes are. `ignored` has pairs of a message's name and a field's number."""
    message = Message(table)
    place = 0
    while place < len(data):
        tag, place = varint(data, place)
        number, wire = tag >> 3, tag & 7
        if number == 0:
            raise Broken("%s: field number 0" % table.name)
        value, place = value_at(data, place, wire)
        if (table.name, number) in ignored:
            continue
        known = table.fields.get(number)
        if known is None:
            raise Broken("%s: unknown field %d" % (table.name, number))
        for item in items(table, known, wire, value, ignored):
            message.add(known, item)
    return message


def items(table, known, wire, value, ignored):
    """The values of a field: one, or the numbers of a packed list."""
    if wire == WIRE_OF[known.kind]:
        return [item(known, value, ignored)]
    if wire != BYTES or not known.many:
        raise Broken("%s.%s has wire type %d" % (table.name, known.name, wire))
    numbers = []
    place = 0
    while place < len(value):
        number, place = varint(value, place)
        numbers.append(item(known, number, ignored))
    return numbers


def item(known, value, ignored):
    """A field's value as its kind says."""
    if known.kind is Kind.CHOICE:
        return chosen(known, value)
    if known.kind is Kind.FLAG:
        return value != 0
    if known.kind is Kind.MESSAGE:
        return decode(known.of, value, ignored)
    return value
