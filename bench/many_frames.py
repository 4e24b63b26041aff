"""Writes a class T with `static int f(int)` of n nops and 65,535 local variables. A frame is declared at each nop. The
method returns its argument.

Arguments: the kind of the frames, and n (65,000 at most). A `same` frame keeps the local variables of the frame
before it; an `append` frame has one more, of the type top, so that the last has as many as there are frames.
"""

import sys

from long_method import PUBLIC_STATIC, PUBLIC_SUPER, attribute, u2, u4, utf8

# The distance of a frame from the instruction after the one before it, in the tag or after it.
FRAMES = {"same": b"\x00", "append": b"\xfc\x00\x00\x00"}


def main(kind, count):
    code = b"\x00" * count + b"\x1a\xac"
    table = attribute(8, u2(count) + FRAMES[kind] * count)
    body = u2(1) + u2(65_535) + u4(len(code)) + code + u2(0) + u2(1) + table
    pool = [
        utf8("T"),
        b"\x07" + u2(1),
        utf8("java/lang/Object"),
        b"\x07" + u2(3),
        utf8("f"),
        utf8("(I)I"),
        utf8("Code"),
        utf8("StackMapTable"),
    ]
    sys.stdout.buffer.write(
        u4(0xCAFEBABE) + u2(0) + u2(52) + u2(len(pool) + 1) + b"".join(pool)
        + u2(PUBLIC_SUPER) + u2(2) + u2(4) + u2(0) + u2(0) + u2(1)
        + u2(PUBLIC_STATIC) + u2(5) + u2(6) + u2(1) + attribute(7, body) + u2(0)
    )


if __name__ == "__main__":
    main(sys.argv[1], int(sys.argv[2]))
