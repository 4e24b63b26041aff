"""Writes a folder of small classes, a file each.

Words: the folder, the shape, and how many classes.

- small: classes below java/lang/Object, each with a static method of two instructions.
- chain: each class extends the one before it.
- overriders: each class extends the one before it, and all of them declare one instance method of the same name.
- callers: a chain, of which the last class names a static method of the first one 20,000 times.
- ladder: interfaces, two a rung; each extends both of the rung below.
- repeaters: a chain above an interface, which each class names 2,000 times among its superinterfaces.
- crowds: a chain; each class declares 100 methods of instances that no other class does.
"""

import os
import sys

from long_method import attribute, u2, u4, utf8

PUBLIC, STATIC, SUPER, INTERFACE, ABSTRACT = 0x0001, 0x0008, 0x0020, 0x0200, 0x0400


# How often the last class of a chain names a method of the first one.
CALLS = 20_000
# How often a class names an interface, and how many methods a class of a crowd has.
TIMES, CROWD = 2_000, 100


def class_file(name, superclass, interfaces, flags, method_name=None, called=None, crowd=0):
    """Returns the bytes of a class. Its method has this name if one is told, and is then one of instances; it calls a method if one is told.

    There are this many methods more, which share its code.
    """
    pool = []

    def text(value):
        pool.append(utf8(value))
        return len(pool)

    def class_entry(value):
        index = text(value)
        pool.append(b"\x07" + u2(index))
        return len(pool)

    this, above = class_entry(name), class_entry(superclass)
    entries = {interface: class_entry(interface) for interface in dict.fromkeys(interfaces)}
    below = [entries[interface] for interface in interfaces]
    methods = []
    if not flags & INTERFACE:
        insns = b"\x1a\xac"
        if called:
            pair = text(called[1]), text("(I)I")
            pool.append(b"\x0c" + u2(pair[0]) + u2(pair[1]))
            owner = class_entry(called[0])
            pool.append(b"\x0a" + u2(owner) + u2(len(pool) - 2))
            insns = b"\x1a" + (b"\xb8" + u2(len(pool))) * CALLS + b"\xac"
        elif method_name:
            insns = b"\x1b\xac"
        code = u2(1) + u2(2) + u4(len(insns)) + insns + u2(0) + u2(0)
        method = text(method_name or "f" + name), text("(I)I"), text("Code")
        access = PUBLIC if method_name else PUBLIC | STATIC
        methods = [u2(access) + u2(method[0]) + u2(method[1]) + u2(1) + attribute(method[2], code)]
        for n in range(crowd):
            methods.append(u2(PUBLIC) + u2(text(f"m{n}{name}")) + methods[0][4:])
    return (
        u4(0xCAFEBABE) + u2(0) + u2(52) + u2(len(pool) + 1) + b"".join(pool)
        + u2(flags) + u2(this) + u2(above) + u2(len(below)) + b"".join(map(u2, below)) + u2(0)
        + u2(len(methods)) + b"".join(methods) + u2(0)
    )


def shaped(shape, n, is_last):
    name = f"C{n:05}"
    if shape == "small":
        return name, class_file(name, "java/lang/Object", [], PUBLIC | SUPER)
    if shape == "repeaters":
        if not n:
            return name, class_file(name, "java/lang/Object", [], PUBLIC | INTERFACE | ABSTRACT)
        above = f"C{n - 1:05}" if n > 1 else "java/lang/Object"
        return name, class_file(name, above, ["C00000"] * TIMES, PUBLIC | SUPER)
    if shape == "crowds":
        above = f"C{n - 1:05}" if n else "java/lang/Object"
        return name, class_file(name, above, [], PUBLIC | SUPER, "f" + name, None, CROWD)
    if shape in ("chain", "overriders", "callers"):
        above = f"C{n - 1:05}" if n else "java/lang/Object"
        method_name = "f" if shape == "overriders" else None
        called = (above, "fC00000") if shape == "callers" and is_last else None
        return name, class_file(name, above, [], PUBLIC | SUPER, method_name, called)
    rung = n // 2
    below = [f"C{rung * 2 - 2 + side:05}" for side in (0, 1)] if rung else []
    return name, class_file(name, "java/lang/Object", below, PUBLIC | INTERFACE | ABSTRACT)


def main(folder, shape, count):
    os.makedirs(folder, exist_ok=True)
    for n in range(count):
        name, content = shaped(shape, n, n == count - 1)
        with open(os.path.join(folder, name + ".class"), "wb") as file:
            file.write(content)


if __name__ == "__main__":
    main(sys.argv[1], sys.argv[2], int(sys.argv[3]))
