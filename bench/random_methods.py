"""Writes random class files for comparison with another verifier and interpreter.

Each has one static method over ints, in a folder of its own; half of them are damaged somewhere, so
that most of the rules of type checking come up. Words: the folder, how many, and the seed. The file
`calls` of the folder has a line for each: the class, the method and random arguments.
"""

import os
import random
import sys

PUSH = [*range(2, 9)]  # iconst
BINARY = [96, 100, 104, 108, 112, 120, 122, 124, 126, 128, 130]
UNARY = [116, 145, 146, 147]
IF, IF_COMPARE = [*range(153, 159)], [*range(159, 165)]
POP, DUP, SWAP, GOTO, GOTO_W, IRETURN, RETURN = 87, 89, 95, 167, 200, 172, 177
PLAIN = [0, *PUSH, *BINARY, *UNARY, *IF, *IF_COMPARE, POP, DUP, SWAP, GOTO, IRETURN, RETURN, *range(26, 30), *range(59, 63)]
LONGEST = 60


def u1(number):
    return (number & 0xFF).to_bytes(1, "big")


def u2(number):
    return (number & 0xFFFF).to_bytes(2, "big")


def u4(number):
    return (number & 0xFFFFFFFF).to_bytes(4, "big")


def utf8(text):
    return b"\x01" + u2(len(text)) + text.encode()


def attribute(name, content):
    return u2(name) + u4(len(content)) + content


class Branch:
    """The operand of a branch: the index of an instruction."""

    def __init__(self, target):
        self.target = target


class Body:
    """A method's instructions, with what is known of the frame before the next one."""

    def __init__(self, choose):
        self.choose = choose
        self.parameters = choose.randint(0, 3)
        self.result = choose.choice("IIIIV")
        self.max_locals = self.parameters + choose.randint(0, 3)
        # Of each local variable whether it holds an int.
        self.ints = [place < self.parameters for place in range(self.max_locals)]
        self.depth = 0
        self.reached = True
        self.code = []
        # The frames at indices that were branched to, and those that are declared.
        self.wanted, self.declared = {}, {}

    def put(self, opcode, operand=b""):
        self.code.append((opcode, operand))

    def want(self, target):
        """A branch from here to a later index."""
        depth, ints = self.wanted.setdefault(target, (self.depth, list(self.ints)))
        self.wanted[target] = (depth, [a and b for a, b in zip(ints, self.ints)])

    def level(self):
        """Brings the depth to that of the branches to this index."""
        place = len(self.code)
        depth, ints = self.wanted.pop(place)
        while self.depth != depth:
            self.put(POP if self.depth > depth else self.choose.choice(PUSH))
            self.depth += -1 if self.depth > depth else 1
        for _, operand in self.code:
            if isinstance(operand, Branch) and operand.target == place:
                operand.target = len(self.code)
        self.wanted[len(self.code)] = (depth, ints)

    def meet(self):
        """Declares a frame here if one is wanted, if nothing falls in, and now and then."""
        place = len(self.code)
        if place in self.wanted and self.reached and self.wanted[place][0] != self.depth and self.choose.random() < 0.9:
            self.level()
            place = len(self.code)
        if place not in self.wanted and self.reached and self.choose.random() > 0.08:
            return
        depth, ints = self.wanted.get(place, (self.depth if self.reached else 0, self.ints))
        if self.reached:
            ints = [a and b for a, b in zip(ints, self.ints)]
        else:
            self.depth = depth
        self.ints, self.reached = list(ints), True
        self.declared[place] = (self.depth, list(ints))

    def compute(self):
        if self.depth >= 2 and self.choose.random() < 0.7:
            self.put(self.choose.choice(BINARY))
            self.depth -= 1
        elif self.depth >= 2 and self.choose.random() < 0.3:
            self.put(SWAP)
        elif self.depth >= 1:
            opcode = self.choose.choice([*UNARY, POP, DUP])
            self.put(opcode)
            self.depth += {POP: -1, DUP: 1}.get(opcode, 0)

    def store(self):
        if self.depth >= 1 and self.max_locals >= 1:
            place = self.choose.randrange(self.max_locals)
            self.put(59 + place) if place < 4 else self.put(54, u1(place))
            self.depth -= 1
            self.ints[place] = True

    def load(self):
        held = [place for place, is_int in enumerate(self.ints) if is_int]
        kind = self.choose.random()
        if held and kind < 0.6:
            place = self.choose.choice(held)
            spellings = [(21, u1(place)), (196, b"\x15" + u2(place))] + [(26 + place, b"")] * (place < 4)
            self.put(*self.choose.choice(spellings))
        elif kind < 0.8:
            self.put(self.choose.choice(PUSH))
        else:
            self.put(17, u2(self.choose.randrange(65536)))
        self.depth += 1

    def increment(self):
        held = [place for place, is_int in enumerate(self.ints) if is_int]
        if held:
            self.put(132, u1(self.choose.choice(held)) + u1(self.choose.randrange(256)))

    def branch(self):
        opcodes = [GOTO, GOTO_W] if self.choose.random() < 0.3 else IF_COMPARE if self.depth >= 2 else IF
        if opcodes is IF and self.depth < 1:
            return
        self.depth -= {154: 1, 160: 2}.get(opcodes[1], 0)
        target = len(self.code) + self.choose.randint(1, 6)
        if self.declared and self.choose.random() < 0.35:
            target = self.choose.choice(list(self.declared))
        else:
            self.want(target)
        self.put(self.choose.choice(opcodes), Branch(target))
        self.reached = opcodes[0] != GOTO

    def fill(self):
        least = self.choose.randint(3, 28)
        kinds = [self.compute] * 5 + [self.store] * 2 + [self.load] * 5 + [self.increment, self.branch, self.branch]
        while len(self.code) < LONGEST:
            self.meet()
            if len(self.code) >= least and self.depth >= (self.result == "I"):
                self.put(IRETURN if self.result == "I" else RETURN)
                return
            self.choose.choice(kinds)()

    def spell(self):
        """The code, the offsets of its instructions, and the frames by offset."""
        lengths = [1 + (len(o) if isinstance(o, bytes) else 4 if op == GOTO_W else 2) for op, o in self.code]
        offsets = [sum(lengths[:place]) for place in range(len(lengths))]
        spelled = b""
        for place, (opcode, operand) in enumerate(self.code):
            if isinstance(operand, Branch):
                target = min(operand.target, len(offsets) - 1)
                self.declared.setdefault(target, (0, list(self.ints)))
                operand = (u4 if opcode == GOTO_W else u2)(offsets[target] - offsets[place])
            spelled += u1(opcode) + operand
        frames = {offsets[place]: frame for place, frame in self.declared.items() if place < len(offsets)}
        return spelled, offsets, sorted(frames.items())


def table_of(choose, parameters, frames):
    """The entries of a StackMapTable, each in one of the forms that spell it (JVMS 4.7.4)."""
    entries, last, before = [], -1, [True] * parameters
    for offset, (depth, ints) in frames:
        while ints and not ints[-1] and choose.random() < 0.9:
            ints = ints[:-1]
        delta, change = offset - last - 1, len(ints) - len(before)
        items = b"".join(u1(is_int) for is_int in ints)
        shared = min(len(ints), len(before))
        if ints == before and depth == 0 and delta < 64:
            entry = u1(delta)
        elif ints == before and depth == 1:
            entry = u1(64 + delta) + b"\x01" if delta < 64 and choose.random() < 0.5 else u1(247) + u2(delta) + b"\x01"
        elif ints[:shared] == before[:shared] and abs(change) <= 3 and depth == 0:
            entry = u1(251 + change) + u2(delta) + items[len(before):]
        else:
            entry = u1(255) + u2(delta) + u2(len(ints)) + items + u2(depth) + b"\x01" * depth
        entries.append(entry)
        last, before = offset, ints
    return entries


def damage(choose, code, offsets, entries):
    """Turns an opcode, drops a frame, or turns a byte of one."""
    kind = choose.random()
    if kind < 0.6:
        place = choose.choice(offsets)
        code = code[:place] + u1(choose.choice(PLAIN)) + code[place + 1:]
    elif entries:
        place = choose.randrange(len(entries))
        entry = entries.pop(place)
        if kind < 0.8:
            at = choose.randrange(len(entry))
            byte = choose.choice([0, 1, 5, 8, 64, 247, 248, 251, 255, entry[at] + 1])
            entries.insert(place, entry[:at] + u1(byte) + entry[at + 1:])
    return code, entries


def class_file(choose, name):
    """A class file, and its method's name and descriptor."""
    body = Body(choose)
    body.fill()
    code, offsets, frames = body.spell()
    entries = table_of(choose, body.parameters, frames)
    max_stack, result = 12, body.result
    if choose.random() < 0.4:
        code, entries = damage(choose, code, offsets, entries)
    elif choose.random() < 0.15:
        max_stack, result = choose.randint(0, 4), choose.choice("IV")
    table = attribute(6, u2(len(entries)) + b"".join(entries)) if entries else b""
    content = u2(max_stack) + u2(body.max_locals) + u4(len(code)) + code + u2(0) + u2(bool(entries)) + table
    descriptor = "(" + "I" * body.parameters + ")" + result
    pool = [utf8(name), b"\x07" + u2(1), utf8("java/lang/Object"), b"\x07" + u2(3), utf8("Code"), utf8("StackMapTable"), utf8("f"), utf8(descriptor)]
    method = u2(0x09) + u2(7) + u2(8) + u2(1) + attribute(5, content)
    head = u4(0xCAFEBABE) + u2(0) + u2(52) + u2(len(pool) + 1) + b"".join(pool)
    return head + u2(0x21) + u2(2) + u2(4) + u2(0) + u2(0) + u2(1) + method + u2(0), "f" + descriptor


def main(folder, count, seed):
    choose = random.Random(seed)
    with open(os.path.join(folder, "calls"), "w") as calls:
        for number in range(count):
            name = f"M{number}"
            content, method = class_file(choose, name)
            os.makedirs(os.path.join(folder, name))
            with open(os.path.join(folder, name, name + ".class"), "wb") as file:
                file.write(content)
            values = [choose.choice([0, 1, -1, 31, -(2**31), choose.randrange(-(2**31), 2**31)]) for _ in range(method.count("I", 0, method.index(")")))]
            print(name, method, *values, file=calls)


if __name__ == "__main__":
    main(sys.argv[1], int(sys.argv[2]), int(sys.argv[3]))
