"""The instructions of random bodies, a function each, and which may be chosen: see random_bodies.py."""

from class_writer import ARRAY, INT, NULL, THIS, TOP, Insn, descriptor_of
from random_bodies import (
    ACONST_NULL, ARRAYLENGTH, ASTORE, ATHROW, CHECKCAST, DEEPEST, DUP2_X2, GETFIELD, GETSTATIC, IALOAD, IASTORE, IINC, INSTANCEOF,
    INVOKEINTERFACE, INVOKESPECIAL, INVOKESTATIC, INVOKEVIRTUAL, ISTORE, NEWARRAY, OBJECT, POP, PUTFIELD, THROWABLE, WIDE, WORDS,
    is_reference,
)
from random_methods import BINARY, UNARY, u1, u2


def constant(body):
    body.put(ACONST_NULL, b"", 0, [NULL]) if body.choose.random() < 0.2 else body.push_int()


def load(body):
    held = [place for place, kind in enumerate(body.locals) if kind != TOP]
    if held:
        body.load(body.choose.choice(held))


def store(body):
    places = [place for place, kind in enumerate(body.locals) if kind != THIS]
    if body.stack and body.stack[-1] != TOP and places:
        place, kind = body.choose.choice(places), body.stack[-1]
        body.put(*body.local(*((ISTORE, 59) if kind == INT else (ASTORE, 75)), place), 1)
        body.locals[place] = kind


def increment(body):
    places = [place for place, kind in enumerate(body.locals) if kind == INT]
    if places:
        place = body.choose.choice(places)
        body.put(*body.choose.choice([(IINC, u1(place) + b"\x05"), (WIDE, u1(IINC) + u2(place) + b"\xff\xfe")]))


def rearrange(body):
    opcode = body.choose.choice([POP, *range(POP, DUP2_X2 + 2)])
    takes, order = WORDS[opcode]
    words = body.stack[len(body.stack) - takes:]
    if len(words) == takes and len(body.stack) + len(order) - takes <= DEEPEST:
        body.put(opcode, b"", takes, [words[int(it)] for it in order])


def compute(body):
    if body.stack[-2:] == [INT, INT]:
        body.put(body.choose.choice(BINARY), b"", 2, [INT])
    elif body.stack[-1:] == [INT]:
        body.put(body.choose.choice(UNARY), b"", 1, [INT])


def use_array(body):
    kind = body.choose.choice(["new", "load", "store", "length"])
    body.make(INT if kind == "new" else ARRAY)
    if kind == "new":
        body.put(NEWARRAY, u1(10), 1, [ARRAY])
    elif kind == "length":
        body.put(ARRAYLENGTH, b"", 1, [INT])
    else:
        body.make_all([INT] * (1 if kind == "load" else 2))
        body.put(*((IALOAD, b"", 2, [INT]) if kind == "load" else (IASTORE, b"", 3)))


def make_new(body):
    concrete = body.world.concrete()
    if concrete:
        body.new(body.choose.choice(concrete))


def construct(body):
    """Calls an `<init>` on what is on top and not initialized."""
    kind = body.stack[-1] if body.stack else None
    if isinstance(kind, Insn):
        name = body.made[kind]
        body.construct(name, body.choose.choice(body.world.inits(name)))
    elif kind == THIS:
        body.construct_this()


def receiver(body, name):
    """The class that an instruction names for a member of a class: that one, or one below it."""
    below = [it for it in body.world.names() if it == name or body.world.is_below(it, name)]
    return body.choose.choice([name, body.choose.choice(below)])


def read_field(body):
    fields = body.world.fields(is_static=False)
    if fields:
        owner, field = body.choose.choice(fields)
        name = receiver(body, owner)
        body.make(name)
        body.put(GETFIELD, u2(body.pool.member(9, name, field.name, descriptor_of(field.kind))), 1, [field.kind])


def write_field(body):
    fields = body.world.fields(is_static=False)
    if body.flag and body.choose.random() < 0.8:
        fields = [it for it in fields if it[0] == body.owner.name]
    if fields:
        owner, field = body.choose.choice(fields)
        if body.flag and THIS in body.locals and owner == body.owner.name:
            name = owner
            body.load(body.locals.index(THIS))
        else:
            name = receiver(body, owner)
            body.make(name)
        body.make(field.kind)
        body.put(PUTFIELD, u2(body.pool.member(9, name, field.name, descriptor_of(field.kind))), 2)


def read_constant(body):
    fields = body.world.fields(is_static=True)
    if fields:
        owner, field = body.choose.choice(fields)
        body.put(GETSTATIC, u2(body.pool.member(9, owner, field.name, descriptor_of(field.kind))), 0, [field.kind])


def call(body):
    methods = body.world.methods(body.owner)
    if not methods or len(body.stack) > DEEPEST - 4:
        return
    owner, method = body.choose.choice(methods)
    name, opcode, tag, operand = owner, INVOKESTATIC, 10, b""
    if not method.is_static:
        is_interface, is_special = body.world.is_interface(owner), method.is_private or body.world.is_super_call(body.owner, owner, method)
        opcode = INVOKESPECIAL if is_special else INVOKEINTERFACE if is_interface else INVOKEVIRTUAL
        if is_interface:
            tag, operand = 11, u1(len(method.parameters) + 1) + b"\x00"
        name = owner if is_special or is_interface else receiver(body, owner)
        body.make(body.owner.name if is_special else name)
    body.make_all(method.parameters, 1)
    index = body.pool.member(tag, name, method.name, method.descriptor())
    takes = len(method.parameters) + (not method.is_static)
    body.put(opcode, u2(index) + operand, takes, [] if method.result is None else [method.result])


def cast(body):
    if body.stack and is_reference(body.stack[-1]) and body.world.fits(body.stack[-1], OBJECT):
        kind = body.choose.choice([*body.world.names(), ARRAY])
        index = u2(body.pool.class_entry(kind))
        body.put(*((CHECKCAST, index, 1, [kind]) if body.choose.random() < 0.6 else (INSTANCEOF, index, 1, [INT])))


def throw(body):
    if body.choose.random() < 0.2:
        body.make(THROWABLE)
        body.put(ATHROW, b"", 1)
        body.reached = False


CHOICES = [
    *[constant] * 3, *[load] * 6, *[store] * 4, increment, *[rearrange] * 3, *[compute] * 3, *[use_array] * 2, *[make_new] * 2,
    *[construct] * 3, *[read_field] * 2, *[write_field] * 2, read_constant, *[call] * 4, *[cast] * 2, throw,
    *[lambda body: body.branch()] * 4, lambda body: body.switch(),
]


def step(body):
    if not body.reached:
        return
    if len(body.stack) > DEEPEST - 2:
        return body.put(POP, b"", 1)
    body.choose.choice(CHOICES)(body)
