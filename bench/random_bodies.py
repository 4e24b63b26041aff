"""Random methods that type check, over the whole profile: each instruction is chosen by the frame before it."""

from class_writer import ARRAY, INT, NULL, THIS, TOP, Code, Insn, Label, descriptor_of
from random_methods import u1, u2

OBJECT, THROWABLE = "java/lang/Object", "java/lang/Throwable"
ACONST_NULL, ILOAD, ALOAD, IALOAD, ISTORE, ASTORE, IASTORE = 1, 21, 25, 46, 54, 58, 79
POP, POP2, DUP, DUP_X1, DUP_X2, DUP2, DUP2_X1, DUP2_X2, SWAP = range(87, 96)
IINC, GOTO, TABLESWITCH, LOOKUPSWITCH, IRETURN, ARETURN, RETURN = 132, 167, 170, 171, 172, 176, 177
GETSTATIC, GETFIELD, PUTFIELD, INVOKEVIRTUAL, INVOKESPECIAL, INVOKESTATIC, INVOKEINTERFACE = 178, 180, 181, 182, 183, 184, 185
NEW, NEWARRAY, ARRAYLENGTH, ATHROW, CHECKCAST, INSTANCEOF, WIDE, GOTO_W = 187, 188, 190, 191, 192, 193, 196, 200
# What a branch takes from the stack: how many words, and whether they are ints; else they are references.
BRANCHES = [(range(153, 159), 1, True), (range(159, 165), 2, True), (range(165, 167), 2, False), (range(198, 200), 1, False)]
# How each instruction rearranges the words on top, the topmost last: how many it takes, and which of them it puts.
WORDS = {
    POP: (1, ""), POP2: (2, ""), DUP: (1, "00"), DUP_X1: (2, "101"), DUP_X2: (3, "2012"), DUP2: (2, "0101"),
    DUP2_X1: (3, "12012"), DUP2_X2: (4, "230123"), SWAP: (2, "10"),
}
DEEPEST, LONGEST = 10, 70


def is_reference(kind):
    """Whether the standard counts it among the references: objects that are not initialized are."""
    return kind not in (TOP, INT)


class Body:
    """The instructions of a method, with the frame before the next one."""

    def __init__(self, choose, world, owner, method, pool):
        self.choose, self.world, self.owner, self.method, self.pool = choose, world, owner, method, pool
        receiver = [] if method.is_static else [THIS if method.is_init else owner.name]
        self.arguments = receiver + method.parameters
        self.locals = self.arguments + [TOP] * choose.randint(0, 4)
        self.opening = list(self.locals)
        self.stack, self.max_stack = [], 0
        # Whether the receiver of an `<init>` is not initialized, and whether an instruction comes here from the one before.
        self.flag, self.reached = method.is_init, True
        self.items, self.placed, self.pending = [], [], []
        # The class of what each `new` made.
        self.made = {}

    # ---- instructions

    def put(self, opcode, operand=b"", takes=0, gives=()):
        insn = Insn(opcode, operand)
        self.act(insn, takes, gives)
        return insn

    def act(self, insn, takes=0, gives=()):
        self.items.append(insn)
        del self.stack[len(self.stack) - takes:]
        self.stack += gives
        self.max_stack = max(self.max_stack, len(self.stack))

    def local(self, opcode, short, place):
        """An instruction on a local variable, in one of its spellings."""
        ways = [(opcode, u1(place)), (WIDE, u1(opcode) + u2(place))] + [(short + place, b"")] * (2 * (place < 4))
        return self.choose.choice(ways)

    def load(self, place):
        kind = self.locals[place]
        opcode, short = (ILOAD, 26) if kind == INT else (ALOAD, 42)
        self.put(*self.local(opcode, short, place), 0, [kind])

    def push_int(self):
        draw = self.choose.random()
        if draw < 0.6:
            self.put(self.choose.randint(2, 8), b"", 0, [INT])
        elif draw < 0.8:
            self.put(16, u1(self.choose.randrange(256)), 0, [INT])
        else:
            index = self.pool.integer(self.choose.randrange(2**31))
            self.put(18, u1(index), 0, [INT]) if index < 256 else self.put(19, u2(index), 0, [INT])

    # ---- values of a type

    def make(self, kind, depth=0):
        """Puts a value on top that fits the type."""
        held = [place for place, given in enumerate(self.locals) if given != TOP and self.world.fits(given, kind)]
        draw = self.choose.random()
        if held and draw < 0.6:
            self.load(self.choose.choice(held))
        elif kind == INT:
            self.push_int()
        elif kind == ARRAY and draw < 0.85:
            self.push_int()
            self.put(NEWARRAY, u1(10), 1, [ARRAY])
        elif kind != ARRAY and draw < 0.9 and depth < 2 and len(self.stack) < DEEPEST - 4:
            self.make_object(kind, depth)
        else:
            self.put(ACONST_NULL, b"", 0, [NULL])

    def make_object(self, kind, depth):
        fitting = [it for it in self.world.concrete() if self.world.fits(it, kind)]
        if not fitting:
            return self.put(ACONST_NULL, b"", 0, [NULL])
        name = self.choose.choice(fitting)
        self.new(name)
        self.put(DUP, b"", 0, [self.stack[-1]])
        self.construct(name, self.choose.choice(self.world.inits(name)), depth + 1)

    def new(self, name):
        insn = Insn(NEW, u2(self.pool.class_entry(name)))
        self.made[insn] = name
        self.act(insn, 0, [insn])

    def make_all(self, kinds, depth=0):
        for kind in kinds:
            self.make(kind, depth)

    def construct(self, name, parameters, depth=0):
        """Calls an `<init>` on the object on top, which is initialized then in every copy."""
        made = self.stack[-1]
        self.make_all(parameters, depth)
        descriptor = "(" + "".join(map(descriptor_of, parameters)) + ")V"
        self.put(INVOKESPECIAL, u2(self.pool.member(10, name, "<init>", descriptor)), len(parameters) + 1)
        after = self.owner.name if made == THIS else name
        self.locals = [after if it == made else it for it in self.locals]
        self.stack = [after if it == made else it for it in self.stack]
        self.flag = self.flag and made != THIS

    # ---- branches

    def frame(self):
        return list(self.locals), list(self.stack)

    def flows_to(self, label):
        """Whether the frame here is assignable to that of the label."""
        asked_locals, asked_stack = label.frame
        pairs = [*zip(self.locals, asked_locals), *zip(self.stack, asked_stack)]
        fits = len(self.stack) == len(asked_stack) and all(self.world.fits(*pair) for pair in pairs)
        return fits and (not self.flag or THIS in asked_locals)

    def wider(self, kind, may_be_top):
        draw = self.choose.random()
        if may_be_top and draw < 0.15 and kind != THIS:
            return TOP
        wider = [it for it in self.world.names() if self.world.fits(kind, it)] if kind != TOP and draw < 0.35 else []
        return self.choose.choice(wider) if wider else kind

    def target(self):
        """A label that may be gone to from here, which may be a new one: none, if the receiver that is not initialized stands on the stack alone."""
        ready = [it for it in self.placed + self.pending if self.flows_to(it)]
        if ready and self.choose.random() < 0.6:
            return self.choose.choice(ready)
        if self.flag and THIS not in self.locals:
            return None
        label = Label(([self.wider(it, True) for it in self.locals], [self.wider(it, False) for it in self.stack]))
        self.pending.append(label)
        return label

    def branch(self):
        opcodes, takes, of_ints = self.choose.choice(BRANCHES)
        words = self.stack[len(self.stack) - takes:]
        if len(words) < takes or not all(it == INT if of_ints else is_reference(it) for it in words):
            return
        if self.flag and THIS not in self.locals:
            return
        insn = Insn(self.choose.choice(opcodes))
        self.act(insn, takes)
        insn.targets = [self.target()]

    def switch(self):
        if not self.stack or self.stack[-1] != INT or self.flag and THIS not in self.locals:
            return
        low, count = self.choose.randint(-3, 3), self.choose.randint(1, 3)
        opcode = self.choose.choice([TABLESWITCH, LOOKUPSWITCH])
        keys = range(low, low + count) if opcode == TABLESWITCH else sorted(self.choose.sample(range(-9, 99), count))
        insn = Insn(opcode, b"", (), keys)
        self.act(insn, 1)
        insn.targets = [self.target() for _ in range(count + 1)]
        self.reached = False

    def place(self, label):
        """The label stands here: its frame is what is known then."""
        self.items.append(label)
        self.placed.append(label)
        self.locals, self.stack = map(list, label.frame)
        self.max_stack = max(self.max_stack, len(self.stack))
        self.flag, self.reached = THIS in self.locals, True

    # ---- ends

    def leave(self, may_branch):
        """Ends what is reached: by a branch, a return, or by throwing."""
        if may_branch and self.choose.random() < 0.4 and not (self.flag and THIS not in self.locals):
            insn = Insn(self.choose.choice([GOTO, GOTO, GOTO_W]), b"", [self.target()])
            self.act(insn)
        elif self.choose.random() < 0.1 or self.flag and THIS not in self.locals:
            self.make(THROWABLE)
            self.put(ATHROW, b"", 1)
        else:
            self.return_value()
        self.reached = False

    def return_value(self):
        if self.flag:
            self.load(self.locals.index(THIS))
            self.construct_this()
        result = self.method.result
        if result is None:
            return self.put(RETURN)
        self.make(result)
        self.put(IRETURN if result == INT else ARETURN, b"", 1)

    def construct_this(self):
        name = self.choose.choice([self.owner.name, self.owner.superclass, self.owner.superclass])
        self.construct(name, self.choose.choice(self.world.inits(name)), 1)

    # ---- the whole

    def meet(self):
        """Puts a label here if nothing comes from the instruction before, or now and then; at most one at an index."""
        if self.items and isinstance(self.items[-1], Label):
            return
        ready = self.pending if not self.reached else [it for it in self.pending if self.flows_to(it)]
        if ready and (not self.reached or self.choose.random() < 0.25):
            label = self.choose.choice(ready)
            self.pending.remove(label)
            self.place(label)
        elif not self.reached:
            self.place(Label((list(self.opening), [])))
        elif self.choose.random() < 0.05 and (not self.flag or THIS in self.locals):
            self.place(Label(self.frame()))

    def fill(self, step):
        """Chooses instructions, each by a call of the step."""
        least = self.choose.randint(2, 40)
        while len(self.items) < LONGEST:
            self.meet()
            if len(self.items) >= least:
                break
            step(self)
            if self.reached and self.choose.random() < 0.06:
                self.leave(True)
        while self.reached or self.pending:
            if self.reached:
                self.leave(False)
            else:
                self.meet()
        return Code(self.items, self.max_stack, len(self.locals), self.arguments)
