"""Writes an abstract class T whose members share long texts.

Words: what is shared, and how many members there are.

- names: methods of one name of 65,535 bytes, each with a descriptor of its own.
- types: methods of one descriptor of 65,535 bytes that names a class, each with a name of its own.
- parameters: methods of one descriptor of 255 parameters, each with a name of its own.
- interfaces: one superinterface with a name of 65,535 bytes, named again and again.
- references: methods as of names, and code that names the last of them 1,000 times.
- descriptors: methods of one name, each with another descriptor of 254 parameters.

The class that a shared descriptor or interface names is not in the set: the class is read whole, and refused then.
"""

import sys

from long_method import attribute, u2, u4, utf8

ABSTRACT = 0x0400
PUBLIC = 0x0001
LONGEST = 65_535
CALLS = 1_000


def number(n):
    """A short name for a number."""
    letters = ""
    while True:
        letters = chr(ord("a") + n % 26) + letters
        n //= 26
        if n == 0:
            return letters


def descriptors(count):
    """Descriptors of ints and arrays of ints, each another one."""
    for n in range(count):
        yield "(" + "".join("I" if bit == "0" else "[I" for bit in f"{n + 1:b}"[1:]) + ")V"


def members(kind, count, add):
    """The name and descriptor indices of the methods."""
    if kind in ("names", "references"):
        name = add("n" * LONGEST)
        # The one without parameters is the last.
        return [(name, add(text)) for text in descriptors(count)][::-1]
    if kind == "descriptors":
        name = add("n")
        return [(name, add("(" + f"{n:012b}".replace("0", "I").replace("1", "Z") + "I" * 242 + ")V")) for n in range(count)]
    if kind == "types":
        shared = add("(L" + "c" * (LONGEST - 5) + ";)V")
    elif kind == "parameters":
        shared = add("(" + "I" * 254 + ")V")
    else:
        return []
    return [(add(number(n)), shared) for n in range(count)]


def calls(pool, add, this, member):
    """Returns a method `c()V` that calls a method of its class again and again, on null."""
    pool.append(b"\x0c" + u2(member[0]) + u2(member[1]))
    pool.append(b"\x0a" + u2(this) + u2(len(pool)))
    insns = (b"\x01\xb6" + u2(len(pool))) * CALLS + b"\xb1"
    code = u2(1) + u2(1) + u4(len(insns)) + insns + u2(0) + u2(0)
    return u2(PUBLIC) + u2(add("c")) + u2(add("()V")) + u2(1) + attribute(add("Code"), code)


def main(kind, count):
    pool = []

    def add(text):
        pool.append(utf8(text))
        return len(pool)

    this_name, object_name = add("T"), add("java/lang/Object")
    pool.append(b"\x07" + u2(this_name))
    this = len(pool)
    pool.append(b"\x07" + u2(object_name))
    superclass = len(pool)
    interfaces = b""
    methods = members(kind, count, add)
    if kind == "interfaces":
        pool.append(b"\x07" + u2(add("i" * LONGEST)))
        interfaces = u2(len(pool)) * count
    body = b"".join(u2(PUBLIC | ABSTRACT) + u2(name) + u2(descriptor) + u2(0) for name, descriptor in methods)
    caller = calls(pool, add, this, methods[-1]) if kind == "references" else b""
    sys.stdout.buffer.write(
        u4(0xCAFEBABE) + u2(0) + u2(52) + u2(len(pool) + 1) + b"".join(pool)
        + u2(PUBLIC | ABSTRACT | 0x0020) + u2(this) + u2(superclass) + u2(len(interfaces) // 2) + interfaces + u2(0)
        + u2(len(methods) + bool(caller)) + body + caller + u2(0)
    )


if __name__ == "__main__":
    main(sys.argv[1], int(sys.argv[2]))
