"""What a full trial of a crate's edits rests on, as one stamp a crate, and the files that keep a line for each crate."""

import contextlib
import fcntl
import hashlib
import os
import re

import kit
from edit_text import FOLDERS, public_text
from kit import rt

OWN = ("src", "specs", "proofs", *FOLDERS)
TOOLS = ("edits", "edit_text.py", "kit.py", "only.py", "stamps.py")
CITED = re.compile(r"\bRattle\.(\w+)\.proofs\.([\w.+]+)")


def files_below(folder):
    """Returns the files below a folder, in the order of their paths."""
    found = [f"{at}/{name}" for at, _, names in os.walk(folder) for name in names]
    return sorted(found)


def cited_proofs(crate):
    """Returns the files of proofs of the libraries below that the crate's own texts cite, and those that these cite in turn."""
    folders = {it.name: it.folder for it in [crate, *crate.below()]}
    found, waiting = set(), [file for part in OWN[:3] for file in files_below(f"{crate.folder}/{part}")]
    while waiting:
        for name, path in CITED.findall(rt.rtlib.text_of(waiting.pop()) or ""):
            file = proof_file(folders.get(name), path)
            if file and file not in found and name != crate.name:
                found.add(file)
                waiting.append(file)
    return sorted(found)


def proof_file(folder, path):
    """Returns the file of proofs that a path of modules leads to, or None if it is one that the prover makes."""
    steps = path.strip(".").split(".")
    for count in range(len(steps), 0, -1):
        file = f"{folder}/proofs/{'/'.join(steps[:count])}.antt"
        if folder and os.path.isfile(file):
            return file
    return None


def code_of(file):
    """Returns the text of a file without its lines of comment: what a comment says decides no trial."""
    mark = {".rt": "//", ".antt": "--"}.get(os.path.splitext(file)[1])
    text = rt.rtlib.text_of(file)
    return text if not mark or text is None else [row for row in text.split("\n") if not row.lstrip().startswith(mark)]


def line_of(crate, root):
    """Returns the crate's line of crates.txt."""
    lines = (rt.rtlib.text_of(f"{root}/crates.txt") or "").splitlines()
    return next((it for it in lines if re.match(rf"{crate.name}\b", it)), "")


def stamp(crate, root):
    """Returns a sum of all that a trial of the crate's edits reads: these tools, its own files and edits, its line of crates.txt, of the libraries
    below the public text, the definitions and the proofs that it cites, and the kit's logic; all without lines of comment."""
    sum = hashlib.sha256(repr((kit.logic(), line_of(crate, root))).encode())
    read = [f"{os.path.dirname(os.path.abspath(__file__))}/{it}" for it in TOOLS]
    read += [file for part in OWN for file in files_below(f"{crate.folder}/{part}")]
    read += [file for below in crate.below() for file in files_below(f"{below.folder}/specs")]
    for file in [*read, *cited_proofs(crate)]:
        sum.update(repr((os.path.relpath(file, root), code_of(file))).encode())
    for below in crate.below():
        for file in files_below(f"{below.folder}/src"):
            sum.update(repr((os.path.relpath(file, root), public_text(rt.rtlib.text_of(file)))).encode())
    return sum.hexdigest()[:32]


class Lines:
    """A file of lines, a crate's name and a word each: .ci/tried with the stamp of the last full trial in which all its edits were refused."""

    def __init__(self, file):
        self.file = file

    def read(self):
        return dict(it.split() for it in (rt.rtlib.text_of(self.file) or "").splitlines())

    def write(self, name, word):
        """Puts a crate's word in place of its last one, or takes that one away if there is none. The lines of others stay, also if another run writes at the same time."""
        os.makedirs(os.path.dirname(self.file), exist_ok=True)
        with self.held():
            lines = {**self.read(), name: word}
            with open(f"{self.file}.new", "w", encoding="utf-8") as it:
                it.writelines(f"{name} {lines[name]}\n" for name in sorted(lines) if lines[name])
            os.replace(f"{self.file}.new", self.file)

    @contextlib.contextmanager
    def held(self):
        lock = os.open(os.path.dirname(self.file), os.O_RDONLY)
        try:
            fcntl.flock(lock, fcntl.LOCK_EX)
            yield
        finally:
            os.close(lock)
