"""Frames of the wire, as docs/WIRE.md spells them, and damage of their bytes."""


def number(value, length):
    return (value % (1 << (8 * length))).to_bytes(length, "big")


def reference(space, an_object, a_class):
    return b"\x03" + number(space, 16) + number(an_object, 8) + number(a_class, 2)


def integer(value):
    return b"\x01" + number(value, 4)


def ints(values):
    return b"\x02" + number(len(values), 4) + b"".join(number(it, 4) for it in values)


NULL = b"\x00"


def framed(kind, *fields):
    body = bytes([kind]) + b"".join(fields)
    return number(len(body), 4) + body


def hello(space, digest=bytes(32)):
    return framed(1, b"\x01", number(space, 16), digest)


def call(at, an_object, method, fuel, values):
    return framed(2, number(at, 8), number(an_object, 8), number(method, 4), number(fuel, 8), bytes([len(values)]), *values)


def returned(at, fuel, value=None):
    return framed(3, number(at, 8), number(fuel, 8), b"\x00" if value is None else b"\x01" + value)


def threw(at, a_class):
    return framed(4, number(at, 8), number(a_class, 2))


def spent(at):
    return framed(5, number(at, 8))


def ack(at):
    return framed(6, number(at, 8))


def dirty(sequence, period, objects):
    return framed(7, number(sequence, 8), number(period, 8), number(len(objects), 2), *[number(it, 8) for it in objects])


def lease(sequence, period):
    return framed(8, number(sequence, 8), number(period, 8))


def clean(sequence, strong, objects):
    return framed(9, number(sequence, 8), bytes([strong]), number(len(objects), 2), *[number(it, 8) for it in objects])


def cleaned(sequence):
    return framed(10, number(sequence, 8))


def lookup(at, name):
    return framed(11, number(at, 8), bytes([len(name)]), name)


def damaged(choose, content):
    """The bytes with some of them altered, lost, repeated, or in another place."""
    content = bytearray(content)
    for _ in range(choose.choice([1, 1, 1, 2, 5])):
        at = choose.randrange(len(content) + 1)
        way = choose.randrange(6)
        if way == 0:
            content[at:at] = choose.randbytes(choose.choice([1, 2, 8]))
        elif way == 1:
            del content[at:at + choose.choice([1, 4, 8])]
        elif way == 2:
            content[at:at] = content[at:at + choose.choice([1, 4, 16])]
        elif at < len(content):
            content[at] = choose.choice([0, 1, 0x7f, 0x80, 0xff, content[at] ^ (1 << choose.randrange(8)), choose.randrange(256)])
    return bytes(content)
