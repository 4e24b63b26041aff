"""Writes classes T0, T1 .. with as many small items as their tables take, into a folder.

Words: the folder, what the items are, and how many classes.

- methods: 65,025 abstract methods, of 255 names and 255 descriptors: each takes 8 bytes.
- fields: 65,025 fields, of 255 names and 255 descriptors of classes: each takes 8 bytes.
- empty, letters: 65,000 texts of the constant pool, of no byte and of one: each takes 3 or 4 bytes.
- classes: 65,000 classes of the constant pool: each takes 3 bytes.
- interfaces: 65,000 superinterfaces: each takes 2 bytes.
- one_name: 21,501 methods of one name of 65,535 bytes, each with a descriptor of its own.
- parameters: 3,800 methods of one name, each with a descriptor of its own of 254 parameters, all letters.
- types: 1,000 methods of one name, each with a descriptor of its own that names 200 classes by three letters.

The classes of descriptors and the interfaces are not in the folder: each class is read whole, and the set is refused then.
"""

import itertools
import os
import sys

from long_method import u2, u4, utf8
from shared_texts import LONGEST, descriptors, number

ABSTRACT_CLASS = 0x0421
ABSTRACT = 0x0401
FEW = 255
MANY = 65_000


class Pool:
    def __init__(self):
        self.entries = []

    def entry(self, content):
        self.entries.append(content)
        return len(self.entries)

    def text(self, value):
        return self.entry(utf8(value))

    def class_entry(self, name):
        return self.entry(b"\x07" + u2(self.text(name)))


def pairs(pool, texts):
    names = [pool.text(number(n)) for n in range(FEW)]
    return itertools.product(names, [pool.text(text) for text in texts])


def of_one_name(pool, name, texts):
    index = pool.text(name)
    return [(index, pool.text(text)) for text in texts]


def letters(count):
    for n in range(count):
        yield "(" + f"{n:012b}".replace("0", "I").replace("1", "Z") + "I" * 242 + ")V"


def class_types(count, length):
    names = ("".join(letters) for letters in itertools.product("abcdefghijklmnopqrstuvwxyzABCDEFGHIJKLMNOPQRSTUVWXYZ0123456789", repeat=3))
    for _ in range(count):
        yield "(" + "".join(f"L{name};" for name in itertools.islice(names, length)) + ")V"


def members(pool, kind):
    """The name and descriptor indices of the fields, and those of the methods."""
    if kind == "methods":
        return [], pairs(pool, descriptors(FEW))
    if kind == "fields":
        return pairs(pool, (f"L{number(n)};" for n in range(FEW))), []
    if kind == "one_name":
        return [], of_one_name(pool, "n" * LONGEST, descriptors(21_501))
    if kind == "parameters":
        return [], of_one_name(pool, "n", letters(3_800))
    if kind == "types":
        return [], of_one_name(pool, "n", class_types(1_000, 200))
    return [], []


def add_entries(pool, kind):
    """Adds the entries of the constant pool that nothing names. What the superinterfaces are."""
    if kind == "interfaces":
        return [pool.class_entry("i")] * MANY
    if kind in ("empty", "letters", "classes"):
        name = pool.text("c")
        content = {"empty": utf8(""), "letters": utf8("l"), "classes": b"\x07" + u2(name)}[kind]
        for _ in range(MANY):
            pool.entry(content)
    return []


def spell(items, flags):
    items = list(items)
    return u2(len(items)) + b"".join(u2(flags) + u2(name) + u2(descriptor) + u2(0) for name, descriptor in items)


def class_bytes(name, kind):
    pool = Pool()
    this, superclass = pool.class_entry(name), pool.class_entry("java/lang/Object")
    fields, methods = members(pool, kind)
    fields, methods = spell(fields, 0), spell(methods, ABSTRACT)
    interfaces = add_entries(pool, kind)
    return (
        u4(0xCAFEBABE) + u2(0) + u2(52) + u2(len(pool.entries) + 1) + b"".join(pool.entries) + u2(ABSTRACT_CLASS) + u2(this)
        + u2(superclass) + u2(len(interfaces)) + b"".join(map(u2, interfaces)) + fields + methods + u2(0)
    )


def main(folder, kind, count):
    os.mkdir(folder)
    for n in range(count):
        with open(os.path.join(folder, f"T{n}.class"), "wb") as file:
            file.write(class_bytes(f"T{n}", kind))


if __name__ == "__main__":
    main(sys.argv[1], sys.argv[2], int(sys.argv[3]))
