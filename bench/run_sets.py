"""Compares how methods of class sets end in rmispace and in the JDK's interpreter, and prints each difference and a count.

Of the sets that rmispace accepts, each static method over ints and int arrays is called. Both return the same value, or throw an
object of the same class. What does not end within its fuel is not compared, nor what has to do with a task's own
budgets: StackOverflowError, OutOfMemoryError, and MarshalException for a long array. The status is 1 if there is a difference.

Words: the built program, the folder of the driver's classes, and a file with a line for each set: its folder, and the
names of its classes.
"""

import collections
import subprocess
import sys

from compare_sets import answer_of

FUEL = 20000
OWN = {"spent", "threw java/lang/StackOverflowError", "threw java/lang/OutOfMemoryError", "threw java/rmi/MarshalException"}


def said(words):
    ended = subprocess.run(words, stdin=subprocess.DEVNULL, capture_output=True, text=True)
    return (ended.stdout + ended.stderr).strip()


def driven(driver, word, lines):
    """What the driver prints for these lines."""
    text = "".join(line + "\n" for line in lines)
    words = ["java", "-Xint", "-cp", driver, "Running", word]
    return subprocess.run(words, input=text, capture_output=True, text=True, check=True).stdout.splitlines()


def main(program, driver, asked):
    with open(asked) as file:
        accepted = [line for line in file.read().splitlines() if answer_of(program, line.split(" ")[0]).startswith("accepted")]
    ours, compared = [], []
    for call in driven(driver, "calls", accepted):
        folder, of_class, method, *values = call.split(" ")
        ending = said([program, "run", folder, of_class, method, "--fuel", str(FUEL), "--", *values])
        if ending not in OWN:
            ours.append(ending)
            compared.append(call)
    counts, differ = collections.Counter(), 0
    for call, mine, theirs in zip(compared, ours, driven(driver, "run", compared), strict=True):
        counts[mine.split(" ")[0]] += 1
        if mine != theirs:
            differ += 1
            print(f"rmispace: {mine}, the JDK: {theirs}, {call}")
    print(f"{len(accepted)} class sets accepted, {len(compared)} calls compared, {counts['returned']} returned, {counts['threw']} threw, {differ} differences")
    return 1 if differ else 0


if __name__ == "__main__":
    sys.exit(main(*sys.argv[1:4]))
