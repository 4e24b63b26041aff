#!/usr/bin/env python3
"""What the proof of each crate costs, in seconds of processor.

usage: .ci/spent.py LOG            prints the dearest crates, the longest chain and the sum of a gate that wrote this log
       .ci/spent.py LOG --record   writes the costs of all crates into .ci/costs too
       .ci/spent.py --check        fails where a recorded crate, or the chain, costs more than it may
       .ci/spent.py --time         says how long a whole proof of the program takes here

.ci/rt writes a line into the file that RMISPACE_SPENT names for each check of the prover that ends: what it was for, the crate, and the seconds of
processor that it took, its children's too. A crate that an earlier run on this machine proved has no line: its recorded cost stands for it.
"""
import json
import os
import sys

HERE = os.path.dirname(os.path.abspath(__file__))
sys.path.insert(0, HERE)
sys.dont_write_bytecode = True

RECORD = f"{HERE}/costs"
# What a crate, and the longest chain of crates, may cost. Crates that cost more when this was written have a bound of their own, which may only fall.
MOST_OF_A_CRATE, MOST_OF_THE_CHAIN = 300, 4000
MOST_OF = {"sp_space": 500, "sp_living": 320, "sp_main": 320, "sp_state": 400, "sp_core": 630}
DEAREST = 10
# Runs a command, and adds to a log what it was and what it took. It ends as the command does.
TIMED = """
import json, os, resource, signal, sys
log, words = sys.argv[1], sys.argv[2:]
child = os.fork()
if not child:
    os.execvp(words[0], words)
signal.signal(signal.SIGINT, signal.SIG_IGN)
_, status, spent = os.wait4(child, 0)
name = next((words[at + 1] for at, it in enumerate(words[:-1]) if it == "--crate-name"), "")
kind = "edits" if "rt-edit-" in os.getcwd() else "proof"
with open(log, "a") as it:
    it.write(json.dumps([kind, name, spent.ru_utime + spent.ru_stime]) + "\\n")
if os.WIFSIGNALED(status):
    os.kill(os.getpid(), os.WTERMSIG(status))
sys.exit(os.waitstatus_to_exitcode(status))
"""


def write_down():
    """Has each command of the prover written into the log that the environment names, if it names one."""
    log = os.environ.get("RMISPACE_SPENT")
    if log:
        import kit

        guarded = kit.rt.rtlib.guarded
        kit.rt.rtlib.guarded = lambda: [*guarded(), sys.executable, "-IS", "-c", TIMED, os.path.abspath(log)]


def read_log(log):
    """Returns the seconds of each crate's proof, and those of all edits."""
    proofs, edits = {}, 0
    with open(log, encoding="utf-8") as it:
        for kind, name, seconds in map(json.loads, it):
            if kind == "edits":
                edits += seconds
            else:
                proofs[name] = proofs.get(name, 0) + seconds
    return proofs, edits


def recorded():
    with open(RECORD, encoding="utf-8") as it:
        return {name: float(seconds) for name, seconds in map(str.split, it)}


def longest_chain(costs, crates):
    """Returns the seconds of the dearest chain of crates, each of which stands on the one before, and their names."""
    chains = {}
    for crate in crates:
        below = max((chains[it.name] for it in crate.deps), default=(0, ()))
        chains[crate.name] = below[0] + costs.get(crate.name, 0), (*below[1], crate.name)
    return max(chains.values())


def all_crates():
    import kit

    kit.sum_once()
    return kit.crates(os.path.dirname(HERE))


def report(log, is_recorded):
    crates, (proofs, edits) = all_crates(), read_log(log)
    names = [it.name for it in crates]
    old = recorded() if os.path.exists(RECORD) else {}
    costs = {it: proofs.get(it, old.get(it, 0)) for it in names}
    if is_recorded:
        with open(RECORD, "w", encoding="utf-8") as it:
            it.writelines(f"{name} {costs[name]:.0f}\n" for name in sorted(costs))
    seconds, chain = longest_chain(costs, crates)
    print(f"proofs: {sum(costs.values()):.0f} s of processor; {sum(it in proofs for it in names)} of {len(names)} crates are proved in this run, the others count as recorded")
    print("each: " + ", ".join(f"{name} {costs[name]:.0f}" for name in sorted(costs)))
    print("dearest: " + ", ".join(f"{name} {costs[name]:.0f}" for name in sorted(costs, key=costs.get, reverse=True)[:DEAREST]))
    print(f"longest chain: {seconds:.0f} s: " + ", ".join(f"{name} {costs[name]:.0f}" for name in chain))
    print(f"edits of must-fail/ in the gate: {edits:.0f} s of processor")


def check():
    costs, crates = recorded(), all_crates()
    most = {it: MOST_OF.get(it, MOST_OF_A_CRATE) for it in costs}
    dear = [f"{name} costs {costs[name]:.0f} s of processor to prove, and {most[name]} are the most" for name in sorted(costs) if costs[name] > most[name]]
    seconds, chain = longest_chain(costs, crates)
    if seconds > MOST_OF_THE_CHAIN:
        dear.append(f"the longest chain of proofs takes {seconds:.0f} s, and {MOST_OF_THE_CHAIN} are the most: {' '.join(chain)}")
    print("".join(f"{it}\n" for it in dear), end="", file=sys.stderr)
    return 1 if dear else 0


def time_here():
    """Says how long a proof of the program takes: as long as its longest chain at least, and as all of it on the processors that there are."""
    crates = {it.name: it for it in all_crates()}
    whole = crates["rmispace"]
    costs = recorded()
    below = [it for it in crates.values() if it in [*whole.below(), whole]]
    seconds = max(longest_chain(costs, below)[0], sum(costs.get(it.name, 0) for it in below) / len(os.sched_getaffinity(0)))
    print(f"about {max(round(seconds / 60), 1)} minutes here")


def main(words):
    if words == ["--check"]:
        return check()
    if words == ["--time"]:
        return time_here()
    if len(words) not in (1, 2) or words[1:] not in ([], ["--record"]):
        sys.exit(__doc__)
    return report(words[0], words[1:] == ["--record"])


if __name__ == "__main__":
    sys.exit(main(sys.argv[1:]))
