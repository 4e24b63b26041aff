"""Writes a class T that is wide in two sizes at once, so that a cost of their product shows.

Words: a shape, and the size of the file in bytes, which is nearly reached. A method has up to 32,000 bytes of code and
up to 60,000 of frames; a file has as many methods as fit.

- branches: branches that each compare a deep operand stack with the frame that it came from
- others: the same, with a frame that is spelled anew and says the same
- nulls: the same, with null on the stack where the frame asks for an object
- pushed: the same, with a deep operand stack that instructions have pushed
- appends: frames that each append three local variables
- equal: switches whose targets are equal, by many local variables
- targets: switches whose targets all differ, by many local variables
- stores: branches, each after a local variable was stored, by many local variables
- news: `new`, each with many ints on the stack
- inits: `new` and its `<init>`, each with many ints on the stack
- items: frames whose types are the class, which has a long name
- classes: Class entries that name one long text
- pairs: NameAndType entries that name one long text
- starts: fields whose long names begin alike
"""

import sys

from long_method import PUBLIC_STATIC, PUBLIC_SUPER, attribute, u2, u4, utf8

WIDE, BRANCHES, LONGEST = 60_000, 8_000, 65_535
INT, NULL, OBJECT, OWN = b"\x01", b"\x05", b"\x07\x00\x04", b"\x07\x00\x02"


def full(delta, local_types, stack_types):
    """A frame that says all of its types."""
    return b"\xff" + u2(delta) + u2(len(local_types)) + b"".join(local_types) + u2(len(stack_types)) + b"".join(stack_types)


def far(way):
    """The two bytes of a branch that goes this far."""
    return u2(way % 65_536)


def branches_to(target, start, count, before=b"\x03"):
    """Branches to an offset, each after an int was pushed, from an offset on."""
    step = len(before) + 3
    return b"".join(before + b"\x99" + far(target - (start + step * n + step - 3)) for n in range(count))


def shape_sizes(size):
    """How wide a method is and how many instructions it has, of as many bytes."""
    return min(size // 3, WIDE), min(size // 6, BRANCHES)


def unreached(code, frames, wide=0, back=3):
    """A method that returns at once. Other code stands between, from its declared frame on, and goes back at its end."""
    insns = b"\xa7" + far(len(code) + 6) + code
    insns += b"\xa7" + far(back - len(insns))
    last = sum(int.from_bytes(frame[1:3], "big") + 1 for frame in frames) - 1
    return wide, insns + b"\xb1", frames + [full(len(insns) - last - 1, [], [])]


def branches(size):
    wide, count = shape_sizes(size)
    return wide + 1, *unreached(branches_to(3, 3, count), [full(3, [], [INT] * wide)])


def split(first, second):
    """Branches from a frame of the first type to one of the second, whose types are as many."""
    def method(size):
        wide, count = shape_sizes(size)
        wide //= len(first) + len(second)
        end = 3 + 4 * count
        frames = [full(3, [], [first] * wide), full(end - 4, [], [second] * wide)]
        return wide + 1, *unreached(branches_to(end, 3, count), frames, back=end)

    return method


def pushed(size):
    wide = min(size // 3, 18_000)
    start = wide + 3
    frames = [full(3, [], []), full(wide - 1, [], [INT] * wide)]
    return wide + 1, *unreached(b"\x03" * wide + branches_to(start, start, wide // 6), frames, back=start)


def appends(size):
    count = min(size // 7, 21_000)
    return 1, LONGEST, b"\x00" * count + b"\xb1", [b"\xfe\x00\x00\x00\x00\x00"] * count


def switched(size, is_equal):
    wide, count = min(size // 2, WIDE), min(size // 12, 6_000)
    start, end = 4, 4 * count + 16
    ways = [end - start + (0 if is_equal else n) for n in range(count)]
    code = b"\x03\xaa" + b"\x00" * 3 + u4(ways[0]) + u4(0) + u4(count - 2) + b"".join(u4(way) for way in ways[1:])
    frames = [full(3, [INT] * wide, []), b"\xfb" + u2(len(code) - 1)]
    code += b"\x00" * (1 if is_equal else count)
    frames += [] if is_equal else [b"\x00"] * (count - 1)
    return 1, *unreached(code, frames, wide)


def stores(size):
    wide, count = min(size // 2, WIDE), min(size // 16, 3_500)
    before = b"\x03\xc4\x36" + u2(wide // 2) + b"\x03"
    return 2, *unreached(branches_to(3, 3, count, before), [full(3, [INT] * wide, [])], wide)


def news(size):
    wide, count = shape_sizes(size)
    return wide + 1, *unreached(b"\xbb\x00\x04\x57" * count, [full(3, [], [INT] * wide)])


def inits(size):
    wide, count = shape_sizes(size)
    return wide + 1, *unreached(b"\xbb\x00\x04\xb7\x00\x0a" * (count // 2), [full(3, [], [INT] * wide)])


def items(size):
    wide, count = 250, min(size // 800, 80)
    frames = [full(3, [OWN] * wide, [])] + [full(0, [OWN] * wide, [])] * (count - 1)
    return 1, *unreached(b"\x00" * count, frames, wide)


METHODS = {
    "branches": branches,
    "others": split(INT, INT),
    "nulls": split(NULL, OBJECT),
    "pushed": pushed,
    "appends": appends,
    "equal": lambda size: switched(size, True),
    "targets": lambda size: switched(size, False),
    "stores": stores,
    "news": news,
    "inits": inits,
    "items": items,
}


class Writer:
    """The class T of a pool, fields and methods."""

    def __init__(self, name):
        self.pool = [
            utf8(name),
            b"\x07" + u2(1),
            utf8("java/lang/Object"),
            b"\x07" + u2(3),
            utf8("Code"),
            utf8("StackMapTable"),
            utf8("()V"),
            utf8("<init>"),
            b"\x0c" + u2(8) + u2(7),
            b"\x0a" + u2(4) + u2(9),
        ]
        self.size = 200 + len(name)
        self.fields, self.methods = [], []

    def add(self, entry):
        self.pool.append(entry)
        self.size += len(entry)
        return len(self.pool)

    def add_field(self, name, descriptor):
        self.fields.append(u2(1) + u2(name) + u2(descriptor) + u2(0))
        self.size += 8

    def add_method(self, stack, wide, code, frames):
        name = self.add(utf8(f"f{len(self.methods)}"))
        table = attribute(6, u2(len(frames)) + b"".join(frames))
        body = u2(stack) + u2(wide) + u4(len(code)) + code + u2(0) + u2(1) + table
        self.methods.append(u2(PUBLIC_STATIC) + u2(name) + u2(7) + u2(1) + attribute(5, body))
        self.size += len(self.methods[-1])

    def spell(self):
        lists = [self.fields, self.methods]
        return (
            u4(0xCAFEBABE) + u2(0) + u2(52) + u2(len(self.pool) + 1) + b"".join(self.pool)
            + u2(PUBLIC_SUPER) + u2(2) + u2(4) + u2(0)
            + b"".join(u2(len(rows)) + b"".join(rows) for rows in lists) + u2(0)
        )


def write_methods(writer, shape, size):
    """As many methods as fit, and one at least."""
    method = METHODS[shape](size - writer.size)
    many = max(1, (size - writer.size) // (len(method[2]) + len(b"".join(method[3])) + 60))
    for _ in range(many):
        writer.add_method(*method)


def write_pool(writer, shape, size):
    """Entries that name a text of a length that is half of the file, or the longest."""
    name = writer.add(utf8("n" * min(size // 2, LONGEST)))
    while writer.size < size and len(writer.pool) < 65_000:
        writer.add(b"\x07" + u2(name) if shape == "classes" else b"\x0c" + u2(name) + u2(7))


def write_fields(writer, size):
    """As many fields as make the most of names that begin alike."""
    count = int((size / 4) ** 0.5)
    kind = writer.add(utf8("I"))
    long = (size - writer.size) // count - 20
    for n in range(count):
        writer.add_field(writer.add(utf8("n" * (long - 6) + f"{n:06d}")), kind)


def main(shape, size):
    writer = Writer("T" * min(size // 8, LONGEST) if shape == "items" else "T")
    if shape in METHODS:
        write_methods(writer, shape, size)
    elif shape in ("classes", "pairs"):
        write_pool(writer, shape, size)
    else:
        write_fields(writer, size)
    sys.stdout.buffer.write(writer.spell())


if __name__ == "__main__":
    main(sys.argv[1], int(sys.argv[2]))
