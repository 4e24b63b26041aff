#!/usr/bin/env python3
"""Sets of classes whose references cost a search each: how the time of a check grows with them.

With no words, for each shape of SIZES a set of each size is written and checked, in turn: the least time of five runs,
less that of a set of three, with the bytes of its files and the ratio to the size before it, which is half. A search goes
by halves among the members of a class, so the ratio is a little above 2: the status is 1 if one is above 2.3. It builds
the program if that is older than its sources, and needs no network.

With three words, a folder, a shape and a number N, it writes such a set into the folder:

- members: an interface of N abstract methods, and a class whose code names a third of them once each, the last
  ones first.
- fields: the same of a class with N fields.
- one_name: as members, but all methods have one name of 65,535 bytes, and each has a descriptor of its own.
- diamonds: a ladder of N rungs of two interfaces, each of which extends both of the rung below, and a class T
  that implements the two of the top rung. None of them declares the method that is asked for.
- news: a class with a name of 65,535 bytes, and classes whose methods name it in `new` N times in all.
"""

import os
import pathlib
import subprocess
import sys
import tempfile
import time

from long_method import attribute, u2, u4
from shared_texts import descriptors

PUBLIC, STATIC, SUPER, INTERFACE, ABSTRACT = 0x0001, 0x0008, 0x0020, 0x0200, 0x0400
LONGEST = 65_535
# How many `new` and `pop` a method holds: its code is below 65,536 bytes.
NEWS = 16_000
# A pool has fewer than 65,536 entries, and a file is at most 1 MiB long.
SIZES = {
    "members": (15_000, 30_000, 60_000),
    "fields": (15_000, 30_000, 60_000),
    "one_name": (7_000, 14_000, 28_000),
}
FEW, TURNS = 3, 5
MOST = 2.3
TOP = pathlib.Path(__file__).resolve().parent.parent
PROGRAM = TOP / "crates" / "rmispace" / "out" / "rmispace"


class Pool:
    """A constant pool that is being made: each entry stands once."""

    def __init__(self):
        self.entries, self.indices = [], {}

    def add(self, entry):
        if entry not in self.indices:
            self.entries.append(entry)
            self.indices[entry] = len(self.entries)
        return self.indices[entry]

    def text(self, value):
        return self.add(b"\x01" + u2(len(value)) + value.encode())

    def class_entry(self, name):
        return self.add(b"\x07" + u2(self.text(name)))

    def member(self, tag, owner, name, descriptor):
        pair = self.add(b"\x0c" + u2(self.text(name)) + u2(self.text(descriptor)))
        return self.add(tag + u2(self.class_entry(owner)) + u2(pair))


def class_file(pool, name, interfaces, flags, methods, fields=()):
    this, above = pool.class_entry(name), pool.class_entry("java/lang/Object")
    below = [pool.class_entry(interface) for interface in interfaces]
    return (
        u4(0xCAFEBABE) + u2(0) + u2(52) + u2(len(pool.entries) + 1) + b"".join(pool.entries)
        + u2(flags) + u2(this) + u2(above) + u2(len(below)) + b"".join(map(u2, below))
        + u2(len(fields)) + b"".join(fields) + u2(len(methods)) + b"".join(methods) + u2(0)
    )


def method(pool, name, insns, stack, local_count):
    """A static method `name(I)I`, of these instructions."""
    code = u2(stack) + u2(local_count) + u4(len(insns)) + insns + u2(0) + u2(0)
    return u2(PUBLIC | STATIC) + u2(pool.text(name)) + u2(pool.text("(I)I")) + u2(1) + attribute(pool.text("Code"), code)


def rows(pool, flags, pairs):
    """The rows of members without attributes."""
    return [u2(flags) + u2(pool.text(name)) + u2(pool.text(descriptor)) + u2(0) for name, descriptor in pairs]


def user(kind, pairs):
    """A class whose code names these members of I once each: calls them on null, or reads them."""
    pool, methods, insns = Pool(), [], b""
    for name, descriptor in pairs:
        if kind == "fields":
            # aconst_null; getfield; pop
            insns += b"\x01\xb4" + u2(pool.member(b"\x09", "I", name, descriptor)) + b"\x57"
        else:
            # aconst_null; for each argument aconst_null or iconst_0; invokeinterface
            arguments = bytes(1 if it == "A" else 3 for it in descriptor[1:-2].replace("[I", "A"))
            insns += b"\x01" + arguments + b"\xb9" + u2(pool.member(b"\x0b", "I", name, descriptor)) + bytes([len(arguments) + 1, 0])
        if len(insns) > 60_000:
            methods.append(method(pool, f"f{len(methods)}", insns + b"\x1a\xac", 32, 1))
            insns = b""
    methods.append(method(pool, "f", insns + b"\x1a\xac", 32, 1))
    return class_file(pool, "T", [], PUBLIC | SUPER, methods)


def members(count, kind="members"):
    if kind == "one_name":
        pairs = list(zip(["n" * LONGEST] * count, descriptors(count)))
    else:
        pairs = [(f"m{n}", "I" if kind == "fields" else "()V") for n in range(count)]
    pool = Pool()
    if kind == "fields":
        yield "I", class_file(pool, "I", [], PUBLIC | SUPER, [], rows(pool, PUBLIC, pairs))
    else:
        methods = rows(pool, PUBLIC | ABSTRACT, pairs)
        yield "I", class_file(pool, "I", [], PUBLIC | INTERFACE | ABSTRACT, methods)
    yield "T", user(kind, pairs[::-1][: count // 3])


def diamonds(rungs):
    for n in range(rungs * 2):
        rung = n // 2
        below = [f"C{rung * 2 - 2 + side:05}" for side in (0, 1)] if rung else []
        yield f"C{n:05}", class_file(Pool(), f"C{n:05}", below, PUBLIC | INTERFACE | ABSTRACT, [])
    top = [f"C{rungs * 2 - 2 + side:05}" for side in (0, 1)]
    yield "T", class_file(Pool(), "T", top, PUBLIC | SUPER, [])


def news(count):
    long_name = "N" * LONGEST
    yield "N", class_file(Pool(), long_name, [], PUBLIC | SUPER, [])
    pool, methods = Pool(), []
    for n in range(0, count, NEWS):
        # new; pop
        insns = (b"\xbb" + u2(pool.class_entry(long_name)) + b"\x57") * min(NEWS, count - n)
        methods.append(method(pool, f"f{n}", insns + b"\x1a\xac", 1, 1))
    methods.append(method(pool, "f", b"\x1a\xac", 1, 1))
    yield "T", class_file(pool, "T", [], PUBLIC | SUPER, methods)


def write(folder, shape, count):
    os.makedirs(folder, exist_ok=True)
    makers = {"diamonds": diamonds, "news": news}
    for name, content in makers[shape](count) if shape in makers else members(count, shape):
        with open(os.path.join(folder, name + ".class"), "wb") as file:
            file.write(content)


def checked(folder):
    """The seconds of a check, which has to accept the set."""
    begin = time.perf_counter()
    ended = subprocess.run([PROGRAM, "check", folder], stdin=subprocess.DEVNULL, capture_output=True, text=True)
    taken = time.perf_counter() - begin
    if ended.returncode != 0:
        sys.exit(f"{folder}: {ended.stdout}{ended.stderr}")
    return taken


def measure(work, shape):
    """Prints a line for each size of a shape, and says whether each ratio is small enough."""
    folders = {count: os.path.join(work, f"{shape}{count}") for count in (FEW, *SIZES[shape])}
    for count, folder in folders.items():
        write(folder, shape, count)
    least = {}
    for _ in range(TURNS):
        for count, folder in folders.items():
            least[count] = min(checked(folder), least.get(count, sys.maxsize))
    before, is_small = None, True
    for count in SIZES[shape]:
        taken = least[count] - least[FEW]
        size = sum(file.stat().st_size for file in pathlib.Path(folders[count]).iterdir())
        line = f"{shape:8} {count:6}, {size:8} bytes: {taken * 1e3:8.1f} ms"
        if before:
            line += f", ratio {taken / before:.2f}"
            is_small = is_small and taken <= MOST * before
        print(line, flush=True)
        before = taken
    return is_small


def main(words):
    if words:
        write(words[0], words[1], int(words[2]))
        return 0
    subprocess.run([TOP / "rmispace", "--version"], stdin=subprocess.DEVNULL, stdout=subprocess.DEVNULL, check=True)
    with tempfile.TemporaryDirectory() as work:
        return 0 if all([measure(work, shape) for shape in SIZES]) else 1


if __name__ == "__main__":
    sys.exit(main(sys.argv[1:]))
