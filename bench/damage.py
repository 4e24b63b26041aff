"""Damage of a random method that type checks: most of it is no longer type safe then."""

from class_writer import ARRAY, INT, NULL, THIS, TOP, Insn, Label
from random_methods import u1, u2

# Opcodes without operand, each of which another one of them may stand for.
PLAIN = [0, 1, *range(2, 9), *range(26, 30), *range(42, 46), 46, *range(59, 63), *range(75, 80), *range(87, 97), 100, 116, 145, 172, 176, 177, 190, 191]
BRANCHES = [*range(153, 168), 198, 199]
# Opcodes with an index of a local variable, and with one of the constants: classes, fields, methods.
LOCALS, CLASSES, FIELDS, METHODS = [21, 25, 54, 58], [187, 192, 193], [178, 180, 181], [182, 183, 184]


def insns_of(code, opcodes=None):
    return [it for it in code.items if isinstance(it, Insn) and (opcodes is None or it.opcode in opcodes)]


def framed(code):
    return [it for it in code.items if isinstance(it, Label) and it.frame]


def turn_opcode(choose, world, pool, code):
    """An instruction becomes another one of the same form."""
    for group in choose.sample([PLAIN, PLAIN, BRANCHES, LOCALS, CLASSES, FIELDS, METHODS], 7):
        found = insns_of(code, group)
        if found:
            choose.choice(found).opcode = choose.choice(group)
            return


def turn_local(choose, world, pool, code):
    found = insns_of(code, LOCALS)
    if found:
        choose.choice(found).operand = u1(choose.randint(0, code.max_locals))


def turn_constant(choose, world, pool, code):
    """An instruction names another class, field or method of those that the class names."""
    found = insns_of(code, CLASSES + FIELDS + METHODS)
    if found:
        insn = choose.choice(found)
        tag = 7 if insn.opcode in CLASSES else 9 if insn.opcode in FIELDS else 10
        insn.operand = u2(choose.choice([at + 1 for at, entry in enumerate(pool.entries) if entry[0] == tag]))


def turn_count(choose, world, pool, code):
    found = insns_of(code, [185])
    if found:
        insn = choose.choice(found)
        insn.operand = insn.operand[:2] + u1(choose.randint(1, 5)) + b"\x00"


def drop(choose, world, pool, code):
    if len(insns_of(code)) > 1:
        code.items.remove(choose.choice(insns_of(code)))


def repeat(choose, world, pool, code):
    code.items.insert(choose.randrange(len(code.items)), choose.choice(insns_of(code)).copy())


def swap(choose, world, pool, code):
    if len(code.items) > 1:
        place = choose.randrange(len(code.items) - 1)
        code.items[place:place + 2] = reversed(code.items[place:place + 2])


def retarget(choose, world, pool, code):
    found = [it for it in insns_of(code) if it.targets]
    if found and framed(code):
        insn = choose.choice(found)
        insn.targets[choose.randrange(len(insn.targets))] = choose.choice(framed(code))


def less_room(choose, world, pool, code):
    if choose.random() < 0.5:
        code.max_stack = max(0, code.max_stack - choose.randint(1, 2))
    else:
        code.max_locals = max(0, code.max_locals - choose.randint(1, 2))


def drop_frame(choose, world, pool, code):
    if framed(code):
        choose.choice(framed(code)).frame = None


def turn_item(choose, world, pool, code):
    """A type of a frame becomes another one, or goes, or comes."""
    if framed(code):
        kinds = choose.choice(choose.choice(framed(code)).frame)
        made = insns_of(code, [187])
        kind = choose.choice([TOP, INT, NULL, THIS, ARRAY, choose.choice(world.names()), choose.choice(made) if made else INT])
        place = choose.randint(0, len(kinds))
        kinds[place:place + choose.choice([1, 1, 1, 0])] = [kind] * choose.choice([1, 1, 1, 0])


def turn_table(choose, world, pool, code):
    """A byte of an entry of the table of frames becomes another one."""
    def turned(entries):
        if entries:
            place = choose.randrange(len(entries))
            entry = bytearray(entries[place])
            entry[choose.randrange(len(entry))] = choose.choice([*range(10), 64, 130, *range(247, 256)])
            entries[place] = bytes(entry)
        return entries

    code.turn_table = turned


WAYS = [turn_opcode] * 4 + [turn_local, turn_constant, turn_constant, turn_count, drop, drop, repeat, swap, retarget, less_room]
WAYS += [drop_frame, turn_item, turn_item, turn_item, turn_table]


def damage(choose, world, pool, code):
    for _ in range(choose.choice([1, 1, 2])):
        choose.choice(WAYS)(choose, world, pool, code)
