"""Writes a class T with `static int f(int)` of n instructions and two more, which returns its argument.

Each 100 instructions but the first begin at a declared frame and have a branch to the next 100.
Arguments: n, a multiple of 100 up to 64,000, and how many such methods (1 by default): f, f1, f2 and so on.
"""

import sys

PUBLIC_SUPER, PUBLIC_STATIC = 0x21, 0x09


def u2(number):
    return number.to_bytes(2, "big")


def u4(number):
    return number.to_bytes(4, "big")


def utf8(text):
    return b"\x01" + u2(len(text)) + text.encode()


def attribute(name, content):
    return u2(name) + u4(len(content)) + content


def main(size, methods):
    blocks = size // 100
    # iload_0; ifle to the next block; iload_0 and pop, 49 times.
    block = b"\x1a\x9e" + u2(101) + b"\x1a\x57" * 49
    code = block * blocks + b"\x1a\xac"
    # Frames of the tag 251, which say the distance and change nothing.
    distances = [102] + [101] * (blocks - 1) if blocks else []
    frames = b"".join(b"\xfb" + u2(distance) for distance in distances)
    table = attribute(8, u2(blocks) + frames)
    body = u2(1) + u2(1) + u4(len(code)) + code + u2(0) + u2(1) + table
    pool = [
        utf8("T"),
        b"\x07" + u2(1),
        utf8("java/lang/Object"),
        b"\x07" + u2(3),
        utf8("f"),
        utf8("(I)I"),
        utf8("Code"),
        utf8("StackMapTable"),
    ]
    names = [5] + list(range(len(pool) + 1, len(pool) + methods))
    pool += [utf8(f"f{place}") for place in range(1, methods)]
    rows = [u2(PUBLIC_STATIC) + u2(name) + u2(6) + u2(1) + attribute(7, body) for name in names]
    sys.stdout.buffer.write(
        u4(0xCAFEBABE) + u2(0) + u2(52) + u2(len(pool) + 1) + b"".join(pool)
        + u2(PUBLIC_SUPER) + u2(2) + u2(4) + u2(0) + u2(0) + u2(methods) + b"".join(rows) + u2(0)
    )


if __name__ == "__main__":
    main(int(sys.argv[1]), int(sys.argv[2]) if len(sys.argv) > 2 else 1)
