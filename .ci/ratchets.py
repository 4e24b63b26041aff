#!/usr/bin/env python3
"""Counts what may only fall, without a proof: a count above its bound in .ci/ratchets fails, with what is counted that was not there when
the bounds were last set; one below it asks for a lower bound.

usage: .ci/ratchets.py

    clauses    clauses of contracts, in crates/*/src, with a line of more than 100 columns
    types      names of public types that stand in two crates of the product: those of crates.txt above its last heading
    stale      lines of documents, but of docs/ROADMAP.md, that say that something has not come
"""
import re
import subprocess
import sys
from pathlib import Path

HERE = Path(__file__).resolve().parent
sys.path.insert(0, str(HERE))
sys.dont_write_bytecode = True

from law_list import ROOT, TESTS, layers

BOUNDS = HERE / "ratchets"
COLUMNS = 100
CLAUSE = re.compile(r"\s*(requires|ensures)\b")
TYPE = re.compile(r"^ *pub (?:struct|enum|trait|union|type) (\w+)", re.M)
STALE = re.compile(r"\bha(?:ve|s) not come\b", re.I)


def wide_clauses():
    """Yields the file and the text of each clause that is too wide, by its first line."""
    for file in sorted(ROOT.glob("crates/*/src/**/*.rt")):
        first, depth, is_wide = None, 0, False
        for line in file.read_text().splitlines():
            if first is None and CLAUSE.match(line):
                first, depth, is_wide = line.strip(), 0, False
            if first is not None:
                depth += line.count("{") - line.count("}")
                is_wide = is_wide or len(line) > COLUMNS
                if depth <= 0:
                    if is_wide:
                        yield f"{file.relative_to(ROOT)}: {first}"
                    first = None


def shared_types():
    """Yields each name of a public type that stands in two crates of the product, with these."""
    places = {}
    for crate in (name for heading, rows in layers().items() if heading != TESTS for name in rows):
        for file in (ROOT / "crates" / crate / "src").rglob("*.rt"):
            for name in TYPE.findall(file.read_text()):
                places.setdefault(name, set()).add(crate)
    yield from (f"{name}: {', '.join(sorted(it))}" for name, it in sorted(places.items()) if len(it) > 1)


def stale_lines():
    """Yields each line of a document that says that something has not come."""
    for file in (ROOT / "README.md", ROOT / "CHANGELOG.md", *sorted(ROOT.glob("docs/*.md")), *sorted(ROOT.glob("bench/*.md"))):
        if file.name != "ROADMAP.md":
            yield from (f"{file.relative_to(ROOT)}: {line}" for line in file.read_text().splitlines() if STALE.search(line))


COUNTS = {"clauses": wide_clauses, "types": shared_types, "stale": stale_lines}


def added_since(found):
    """Returns those of the lines that say what was added since the bounds were last set, or all where that cannot be told."""
    try:
        commit = subprocess.run(["git", "log", "-1", "--format=%H", "--", BOUNDS], cwd=ROOT, check=True, capture_output=True, text=True).stdout.strip()
        diff = subprocess.run(["git", "diff", "-U0", commit, "--", "crates/*/src", "*.md"], cwd=ROOT, check=True, capture_output=True, text=True).stdout
    except subprocess.CalledProcessError:
        return found
    added = {line[1:].strip() for line in diff.splitlines() if line.startswith("+")}
    return [it for it in found if it.partition(": ")[2] in added] or found


def main():
    bounds = dict(line.split() for line in BOUNDS.read_text().splitlines() if line and not line.startswith("#"))
    failed = 0
    for name, count in COUNTS.items():
        found, bound = [*count()], int(bounds[name])
        if len(found) > bound:
            failed = 1
            news = found if name == "types" else added_since(found)
            lines = "".join(f"    {it[:160]}\n" for it in news[:100])
            print(f"{name}: {len(found)}, and {bound} are the most; the new ones are among these:\n{lines}", end="", file=sys.stderr)
        elif len(found) < bound:
            print(f"{name}: {len(found)}, fewer than the bound: write {len(found)} for {bound} into .ci/ratchets", file=sys.stderr)
    return failed


if __name__ == "__main__":
    sys.exit(main())
