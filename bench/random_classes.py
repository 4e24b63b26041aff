"""Writes random class sets over the whole profile, for comparison with another verifier.

Each has some interfaces and classes, with fields, constructors and methods that type check; half of the sets are
damaged in one class. Words: the folder to write to, how many, and a seed. Prints the folder and the classes of each.
"""

import os
import random
import sys

from class_writer import ARRAY, INT, NULL, Pool, class_bytes, descriptor_of
from damage import damage
from random_bodies import OBJECT, THROWABLE, Body
from random_methods import attribute, u2
from random_steps import step

PUBLIC, PRIVATE, STATIC, FINAL, SUPER, INTERFACE, ABSTRACT = 1, 2, 8, 0x10, 0x20, 0x200, 0x400
ABOVE = {OBJECT: None, THROWABLE: OBJECT, "java/lang/Exception": THROWABLE, "java/lang/RuntimeException": "java/lang/Exception"}


class Field:
    def __init__(self, name, kind, is_static):
        self.name, self.kind, self.is_static = name, kind, is_static


class Method:
    def __init__(self, name, parameters, result, flags):
        self.name, self.parameters, self.result, self.flags = name, parameters, result, flags
        self.is_init, self.is_static, self.is_private = name == "<init>", bool(flags & STATIC), bool(flags & PRIVATE)

    def descriptor(self):
        return "(" + "".join(map(descriptor_of, self.parameters)) + ")" + ("V" if self.result is None else descriptor_of(self.result))


class Shape:
    """A class or an interface: what it stands below, and its members."""

    def __init__(self, name, flags, superclass, interfaces):
        self.name, self.flags, self.superclass, self.interfaces = name, flags, superclass, interfaces
        self.fields, self.methods = [], []


class World:
    """The classes of a set, and those of java/lang that stand above them."""

    def __init__(self, choose):
        self.choose, self.shapes = choose, {}
        for place in range(choose.randint(0, 2)):
            above = [it for it in self.shapes if choose.random() < 0.4]
            self.add(f"I{place}", PUBLIC | INTERFACE | ABSTRACT, OBJECT, above)
        interfaces = list(self.shapes)
        for place in range(choose.randint(1, 3)):
            above = [*[it for it in self.shapes if it not in interfaces], OBJECT, OBJECT, choose.choice(list(ABOVE))]
            flags = PUBLIC | SUPER | (ABSTRACT if choose.random() < 0.15 else 0)
            self.add(f"C{place}", flags, choose.choice(above), [it for it in interfaces if choose.random() < 0.4])
        for shape in self.shapes.values():
            self.add_members(shape)

    def add(self, name, flags, superclass, interfaces):
        self.shapes[name] = Shape(name, flags, superclass, interfaces)

    # ---- members

    def kind(self):
        return self.choose.choice([INT, INT, INT, ARRAY, self.choose.choice(self.names()), self.choose.choice(self.names())])

    def kinds(self, most):
        return [self.kind() for _ in range(self.choose.randint(0, most))]

    def add_members(self, shape):
        draw, is_interface = self.choose.random, shape.flags & INTERFACE
        # Their names are those of no other class, so that none overrides or hides another.
        for place in range(self.choose.randint(0, 2)):
            is_static = bool(is_interface) or draw() < 0.3
            shape.fields.append(Field(f"f{place}{shape.name}", INT if is_static else self.kind(), is_static))
        if not is_interface:
            shape.methods.append(Method("<init>", [], None, PUBLIC))
            if draw() < 0.4:
                shape.methods.append(Method("<init>", [INT, *self.kinds(2)], None, PUBLIC))
        for place in range(self.choose.randint(0, 2 if is_interface else 3)):
            flags = PUBLIC | ABSTRACT if is_interface else self.choose.choice([PUBLIC, PUBLIC, PUBLIC | STATIC, PRIVATE])
            shape.methods.append(Method(f"m{place}{shape.name}", self.kinds(3), self.choose.choice([None, self.kind()]), flags))

    def fields(self, is_static):
        return [(shape.name, it) for shape in self.shapes.values() for it in shape.fields if it.is_static == is_static]

    def methods(self, caller):
        """The methods that code of a class may call, but for `<init>`."""
        return [
            (shape.name, it) for shape in self.shapes.values() for it in shape.methods
            if not it.is_init and (not it.is_private or shape is caller)
        ]

    def inits(self, name):
        if name in ABOVE:
            return [[]]
        return [it.parameters for it in self.shapes[name].methods if it.is_init]

    # ---- the order of types

    def names(self):
        return [*self.shapes, *ABOVE]

    def concrete(self):
        """The classes of which there are objects."""
        return [*[it.name for it in self.shapes.values() if not it.flags & ABSTRACT], *ABOVE]

    def is_interface(self, name):
        return name in self.shapes and bool(self.shapes[name].flags & INTERFACE)

    def is_below(self, name, above):
        """Whether a class has another one among its superclasses, or an interface above it or them."""
        if name in ABOVE:
            return ABOVE[name] is not None and (ABOVE[name] == above or self.is_below(ABOVE[name], above))
        shape = self.shapes[name]
        return any(it == above or self.is_below(it, above) for it in [shape.superclass, *shape.interfaces])

    def fits(self, given, asked):
        """Whether a type is assignable to another one (JVMS 4.10.1.2)."""
        if asked == "top" or given == asked:
            return True
        if asked == ARRAY or asked in self.shapes or asked in ABOVE:
            is_class = isinstance(given, str) and (given in self.shapes or given in ABOVE)
            if given == NULL or given == ARRAY:
                return given == NULL or asked == OBJECT
            return is_class and asked != ARRAY and (self.is_interface(asked) or self.is_below(given, asked))
        return False

    def is_super_call(self, caller, owner, method):
        """Whether a call of a method of a superclass is one by `super`, as the draw goes."""
        return owner not in ABOVE and not self.is_interface(owner) and self.is_own(caller, owner) and self.choose.random() < 0.3

    def is_own(self, caller, owner):
        return caller.name == owner or self.is_below(caller.name, owner)


def spell(choose, world, shape, is_damaged):
    """The bytes of a class; damaged in one of its methods, and now and then by another superclass than its methods know."""
    pool = Pool()
    fields = [(field_flags(it), it.name, descriptor_of(it.kind), constant(pool, it)) for it in shape.fields]
    bodies = {}
    for method in shape.methods:
        if not method.flags & ABSTRACT:
            bodies[method] = Body(choose, world, shape, method, pool).fill(step)
    if is_damaged and bodies:
        damage(choose, world, pool, choose.choice(list(bodies.values())))
    methods = [(it.flags, it.name, it.descriptor(), bodies[it].spell(choose, pool) if it in bodies else b"") for it in shape.methods]
    superclass = OBJECT if is_damaged and choose.random() < 0.1 else shape.superclass
    return class_bytes(pool, shape.flags, shape.name, superclass, shape.interfaces, fields, methods)


def field_flags(field):
    return PUBLIC | (STATIC | FINAL if field.is_static else 0)


def constant(pool, field):
    return attribute(pool.text("ConstantValue"), u2(pool.integer(7))) if field.is_static else b""


def main(target, count, seed):
    choose = random.Random(seed)
    for number in range(count):
        world = World(choose)
        folder = os.path.join(target, str(number))
        os.makedirs(folder)
        with_code = [it for it in world.shapes if not world.is_interface(it)]
        damaged = choose.choice(with_code) if choose.random() < 0.5 else None
        for shape in world.shapes.values():
            with open(os.path.join(folder, shape.name + ".class"), "wb") as file:
                file.write(spell(choose, world, shape, shape.name == damaged))
        print(folder, *world.shapes)


if __name__ == "__main__":
    main(sys.argv[1], int(sys.argv[2]), int(sys.argv[3]))
