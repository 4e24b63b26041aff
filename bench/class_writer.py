"""Class files from their parts: constants, instructions with labels, and stack map frames.

A type of a frame is one of the words below, the name of a class, or the instruction `new` that made an object
on which no `<init>` has run.
"""

from random_methods import attribute, u1, u2, u4, utf8

TOP, INT, NULL, THIS, ARRAY = "top", "int", "null", "uninitializedThis", "[I"
ITEMS = {TOP: b"\x00", INT: b"\x01", NULL: b"\x05", THIS: b"\x06"}
TABLESWITCH, LOOKUPSWITCH, GOTO_W = 170, 171, 200


def descriptor_of(kind):
    """The descriptor of a type that a field can have."""
    return {INT: "I", ARRAY: "[I"}.get(kind) or f"L{kind};"


class Pool:
    """The constants of a class, each once."""

    def __init__(self):
        self.entries, self.found = [], {}

    def entry(self, content):
        if content not in self.found:
            self.entries.append(content)
            self.found[content] = len(self.entries)
        return self.found[content]

    def text(self, value):
        return self.entry(utf8(value))

    def integer(self, value):
        return self.entry(b"\x03" + u4(value))

    def class_entry(self, name):
        return self.entry(b"\x07" + u2(self.text(name)))

    def member(self, tag, owner, name, descriptor):
        pair = self.entry(b"\x0c" + u2(self.text(name)) + u2(self.text(descriptor)))
        return self.entry(u1(tag) + u2(self.class_entry(owner)) + u2(pair))

    def spell(self):
        return u2(len(self.entries) + 1) + b"".join(self.entries)


class Label:
    """An index in the code, with the frame that is declared there: local variables and operands, the one on top last."""

    def __init__(self, frame):
        self.frame = frame


class Insn:
    """An instruction: its opcode and operand, and the labels that it goes to, the default of a switch first."""

    def __init__(self, opcode, operand=b"", targets=(), keys=()):
        self.opcode, self.operand, self.targets, self.keys = opcode, operand, list(targets), keys

    def copy(self):
        return Insn(self.opcode, self.operand, self.targets, self.keys)

    def length(self, at):
        """How many bytes it takes at an offset."""
        if not self.targets:
            return 1 + len(self.operand)
        if self.opcode == TABLESWITCH:
            return 1 + (3 - at) % 4 + 12 + 4 * len(self.keys)
        if self.opcode == LOOKUPSWITCH:
            return 1 + (3 - at) % 4 + 8 + 8 * len(self.keys)
        return 5 if self.opcode == GOTO_W else 3

    def spell(self, at, offsets):
        """Its bytes at an offset, by the offsets of the labels."""
        ways = [offsets.get(target, 0) - at for target in self.targets]
        head, padding = u1(self.opcode), b"\x00" * ((3 - at) % 4)
        if not ways:
            return head + self.operand
        if self.opcode == TABLESWITCH:
            return head + padding + u4(ways[0]) + u4(self.keys[0]) + u4(self.keys[-1]) + b"".join(map(u4, ways[1:]))
        if self.opcode == LOOKUPSWITCH:
            rows = zip(self.keys, ways[1:])
            return head + padding + u4(ways[0]) + u4(len(self.keys)) + b"".join(u4(key) + u4(way) for key, way in rows)
        return head + (u4 if self.opcode == GOTO_W else u2)(ways[0])


def offsets_of(items):
    """The offset of each instruction and label of a code, and the length of it all."""
    offsets, at = {}, 0
    for item in items:
        offsets.setdefault(item, at)
        at += item.length(at) if isinstance(item, Insn) else 0
    return offsets, at


def spell_code(items, offsets):
    spelled = b""
    for item in items:
        if isinstance(item, Insn):
            spelled += item.spell(len(spelled), offsets)
    return spelled


class FrameTable:
    """The entries of a StackMapTable, each in one of the forms that spell it (JVMS 4.7.4)."""

    def __init__(self, choose, pool, offsets, arguments):
        self.choose, self.pool, self.offsets = choose, pool, offsets
        self.last, self.before, self.entries = -1, arguments, []

    def item(self, kind):
        if isinstance(kind, Insn):
            return b"\x08" + u2(self.offsets.get(kind, 0))
        return ITEMS.get(kind) or b"\x07" + u2(self.pool.class_entry(kind))

    def items(self, kinds):
        return b"".join(map(self.item, kinds))

    def forms(self, delta, local_items, stack):
        """The forms that spell a frame, a whole one last."""
        before, change = self.before, len(local_items) - len(self.before)
        shared = min(len(local_items), len(before))
        if local_items == before and not stack:
            yield u1(delta) if delta < 64 else u1(251) + u2(delta)
            yield u1(251) + u2(delta)
        elif local_items == before and len(stack) == 1:
            yield (u1(64 + delta) if delta < 64 else u1(247) + u2(delta)) + self.items(stack)
            yield u1(247) + u2(delta) + self.items(stack)
        elif local_items[:shared] == before[:shared] and abs(change) <= 3 and not stack:
            yield u1(251 + change) + u2(delta) + self.items(local_items[len(before):])
        yield u1(255) + u2(delta) + u2(len(local_items)) + self.items(local_items) + u2(len(stack)) + self.items(stack)

    def add(self, offset, frame):
        local_items, stack = list(frame[0]), frame[1]
        while local_items and local_items[-1] == TOP and self.choose.random() < 0.9:
            local_items.pop()
        forms = list(self.forms(offset - self.last - 1, local_items, stack))
        self.entries.append(forms[0] if self.choose.random() < 0.8 else self.choose.choice(forms))
        self.last, self.before = offset, local_items

    def add_all(self, items):
        for item in items:
            if isinstance(item, Label) and item.frame and self.offsets[item] > self.last:
                self.add(self.offsets[item], item.frame)


class Code:
    """What a method does: its instructions and labels, its limits, and the types of its arguments."""

    def __init__(self, items, max_stack, max_locals, arguments):
        self.items, self.max_stack, self.max_locals, self.arguments = items, max_stack, max_locals, arguments
        # A change of the bytes of the table of frames.
        self.turn_table = list

    def spell(self, choose, pool):
        offsets, length = offsets_of(self.items)
        table = FrameTable(choose, pool, offsets, self.arguments)
        table.add_all(self.items)
        entries = self.turn_table(table.entries)
        frames = attribute(pool.text("StackMapTable"), u2(len(entries)) + b"".join(entries)) if entries else b""
        limits = u2(self.max_stack) + u2(self.max_locals) + u4(length)
        content = limits + spell_code(self.items, offsets) + u2(0) + u2(bool(entries)) + frames
        return attribute(pool.text("Code"), content)


def spell_members(pool, members):
    """Fields or methods: flags, name, descriptor and the attribute that is spelled, if there is one."""
    spelled = [u2(flags) + u2(pool.text(name)) + u2(pool.text(kind)) + u2(bool(own)) + own for flags, name, kind, own in members]
    return u2(len(members)) + b"".join(spelled)


def class_bytes(pool, flags, name, superclass, interfaces, fields, methods):
    names = u2(flags) + u2(pool.class_entry(name)) + u2(pool.class_entry(superclass)) + u2(len(interfaces))
    names += b"".join(u2(pool.class_entry(it)) for it in interfaces)
    rest = names + spell_members(pool, fields) + spell_members(pool, methods) + u2(0)
    return u4(0xCAFEBABE) + u2(0) + u2(52) + pool.spell() + rest
