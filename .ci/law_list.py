"""The laws of the crates, and the crates in their layers, as the sources say them, for .ci/docs and .ci/laws.

A law is a public function that takes nothing and answers nothing: its contract is all that it says."""
import re
from pathlib import Path

ROOT = Path(__file__).resolve().parent.parent
LAW = re.compile(r"((?:^///.*\n)*)(?:^#\[.*\]\n)*^pub fn (\w+)(?:<[^>]*>)?\(\)\n((?:    .*\n)*)", re.M)
CLAUSE = re.compile(r"^    ensures (?:\w+ )?\{(.*?)\}\n(?=    ensures|\Z)", re.M | re.S)
USED = re.compile(r"^ghost use Rattle\.(\w+)\.specs\.([\w.]+?)\.\{(.*?)\}", re.M)
# The last heading of crates.txt: what stands below it is no part of the product.
TESTS = "rows and benches"


class Law:
    """A law of a crate: its name, the sentences of its comment, what each clause says, and the files that state these."""

    def __init__(self, crate, file, found, used):
        self.crate, self.name = crate, found.group(2)
        self.comment = " ".join(line[3:].strip() for line in found.group(1).splitlines())
        self.clauses = [" ".join(it.split()) for it in CLAUSE.findall(found.group(3))]
        # A clause that is no name of a definition is the statement itself.
        self.files = list(dict.fromkeys(used.get(it, file.relative_to(ROOT)) for it in self.clauses))


def used_in(text):
    """Returns the files of specs of the definitions that a source uses, by their names."""
    found = {}
    for crate, module, names in USED.findall(text):
        file = Path("crates") / crate / "specs" / (module.replace(".", "/") + ".antt")
        if (ROOT / file).exists():
            found.update((name, file) for name in re.findall(r"\w+", names))
    return found


def laws_of(place):
    """Yields the laws of a crate, or of a module of it that is named as crate::module, in the order in which they stand."""
    crate, _, module = place.partition("::")
    for file in sorted((ROOT / "crates" / crate / "src").rglob("*.rt")):
        text = file.read_text()
        if module in ("", file.stem) and LAW.search(text):
            used = used_in(text)
            yield from (Law(crate, file, it, used) for it in LAW.finditer(text))


def layers():
    """Returns the crates under each heading of crates.txt, each with the libraries on its line. A comment that ends with a full stop is no heading."""
    found, heading = {}, None
    for line in (ROOT / "crates.txt").read_text().splitlines():
        if line.startswith("# ") and not line.endswith("."):
            heading = line[2:]
            found[heading] = {}
        elif line and not line.startswith("#"):
            name, _, below = line.partition(":")
            found.setdefault(heading, {})[name.split()[0]] = below.split()
    return found


def crates():
    """Returns the libraries on the line of each crate, in the order of the layers."""
    return {name: below for rows in layers().values() for name, below in rows.items()}
