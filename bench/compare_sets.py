"""Compares class sets in rmispace and in the JDK's verifier, and prints each difference and a count.

Of what rmispace accepts the JDK refuses no class, and a class that rmispace refuses by a rule of type checking (50 to
68) the JDK refuses. What rmispace refuses by another rule is not compared: its profile is smaller than the JVM's, and
the JVM resolves no name before code runs. Where the two differ in one of the ways of KNOWN, that is counted apart:
docs/DECISIONS.md says why. The status is 1 if there is any other difference.

Words: the built program, the folder of the driver's classes, and a file with a line for each set: its folder, and the
names of the classes that the JDK links.
"""

import collections
import os
import re
import subprocess
import sys

from altered_classes import Layout

REFUSED = re.compile(r"refused ([^.]+)\.(\S+) at (\d+): (5[0-4]|6[0-8]) ")
NEW, RETURN, PUTFIELD, ALOAD, WIDE = 0xBB, 0xB1, 0xB5, 0x19, 0xC4
LOADS = {ALOAD, 0x2A, 0x2B, 0x2C, 0x2D}
KNOWN = {
    "kind": "taken by the JDK: a frame names a type out of the profile or the set",
    "new": "taken by the JDK: a new with its older object on the stack",
    "local": "taken by the JDK: an aload of the older object of a new, or a frame that asks for it",
    "return": "taken by the JDK: a return with an uninitialized receiver, in no <init>",
    "put": "taken by the JDK: a putfield of an uninitialized receiver, in no <init>",
    "own": "refused by the JDK: a putfield of an uninitialized receiver, whose field has the name of a subclass",
}
REFUSAL = re.compile(r"(?=java\.lang\.\w+Error: )")
OWN_FIELD = re.compile(r".*putfield\n.*Type uninitializedThis \(current frame, stack\[\d+\]\) is not assignable to '", re.DOTALL)


def answer_of(program, folder):
    """What rmispace says of a class set: that it is accepted, or why it is refused. Whatever else it does ends the comparison."""
    ended = subprocess.run([program, "check", folder], stdin=subprocess.DEVNULL, capture_output=True, text=True)
    said = (ended.stdout + ended.stderr).strip().replace(folder + "/", "")
    if (ended.returncode, said.split(" ")[0]) not in ((0, "accepted"), (2, "refused")):
        sys.exit(f"{folder} is neither accepted nor refused: status {ended.returncode}, {said}")
    return said


def opcode_at(folder, name, method, offset):
    """The opcode of the instruction at an offset, of a wide one that which it widens."""
    with open(os.path.join(folder, name + ".class"), "rb") as file:
        content = file.read()
    at = Layout(content).code_of[method.encode()][0] + offset
    return content[at + 1] if content[at] == WIDE else content[at]


def local_frames(table):
    """The frames of a table, each by its offset and the items of its local variables that were appended or listed: a tag, and the index or offset after it."""
    at, offset, items = 2, -1, []

    def number(length):
        nonlocal at
        at += length
        return int.from_bytes(table[at - length : at], "big")

    def item():
        tag = number(1)
        return tag, number(2) if tag in (7, 8) else 0

    for _ in range(int.from_bytes(table[:2], "big")):
        tag = number(1)
        delta = tag % 64 if tag < 128 else number(2)
        offset += delta + 1
        if 248 <= tag <= 250:
            items = items[: tag - 251]
        elif tag > 251:
            items = [item() for _ in range(number(2))] if tag == 255 else items + [item() for _ in range(tag - 251)]
        for _ in range(number(2) if tag == 255 else 64 <= tag < 128 or tag == 247):
            item()
        yield offset, items


def declares_older(folder, name, method):
    """Whether a frame of the method has a local variable with what a new that comes after it makes: its older object, once that new is made."""
    with open(os.path.join(folder, name + ".class"), "rb") as file:
        content = file.read()
    start, length = Layout(content).frames_of.get(method.encode(), (0, 0))
    return bool(length) and any(tag == 8 and new >= offset for offset, items in local_frames(content[start : start + length]) for tag, new in items)


def known(folder, name, method, offset, number):
    """The way in which the JDK is known to take what rmispace refuses, or none."""
    if number == 54:
        return "kind"
    if number == 65:
        return "local" if declares_older(folder, name, method) else None
    if number not in (63, 67):
        return None
    opcode = opcode_at(folder, name, method, offset)
    if number == 67:
        return "local" if opcode in LOADS else None
    if opcode == NEW:
        return "new"
    return None if method.startswith("<init>") else {RETURN: "return", PUTFIELD: "put"}.get(opcode)


def is_of_own_field(driver, line):
    """Whether the JDK refuses each class of a line that it refuses for such a putfield."""
    why = subprocess.run(["java", "-cp", driver, "Verification", "--why"], input=line + "\n", capture_output=True, text=True, check=True)
    refusals = [it for it in REFUSAL.split(why.stdout) if it.strip()]
    return bool(refusals) and all(OWN_FIELD.match(it) for it in refusals)


def verdict(folder, ours, refused):
    """How the two stand to each other: 'accepted', 'typed', 'others', a word of KNOWN, or 'differ'."""
    if ours.startswith("accepted"):
        return "differ" if refused else "accepted"
    found = REFUSED.match(ours)
    if not found:
        return "others"
    name, method = found[1], found[2]
    if name.replace("/", ".") in refused:
        return "typed"
    return known(folder, name, method, int(found[3]), int(found[4])) or "differ"


def main(program, driver, asked):
    with open(asked) as file:
        lines = file.read().splitlines()
    with open(asked) as file:
        theirs = subprocess.run(["java", "-cp", driver, "Verification"], stdin=file, capture_output=True, text=True, check=True)
    counts = collections.Counter()
    for line, refused in zip(lines, theirs.stdout.splitlines(), strict=True):
        folder = line.split(" ")[0]
        ours = answer_of(program, folder)
        told = verdict(folder, ours, refused.split())
        if told == "differ" and ours.startswith("accepted") and is_of_own_field(driver, line):
            told = "own"
        counts[told] += 1
        if told == "differ":
            print(f"{ours}, refused by the JDK: {refused or 'none'}, {line}")
    for word, says in KNOWN.items():
        if counts[word]:
            print(f"{counts[word]} {says}")
    print(
        f"{len(lines)} class sets, {counts['accepted']} accepted, {counts['typed']} refused by type checking, "
        f"{counts['others']} by other rules, {counts['differ']} differences"
    )
    return 1 if counts["differ"] else 0


if __name__ == "__main__":
    sys.exit(main(*sys.argv[1:4]))
