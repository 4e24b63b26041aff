"""Rows of the built program: the files that their lines make, the runs over these, and what each run owes.

| A line | What it does |
|---|---|
| an empty one, or `# TEXT` | nothing |
| `folder` | begins a new, empty folder |
| `with FILE` | plays the lines of this file, which stands beside the rows |
| `file PATH sum`, `file PATH empty`, `file PATH zeros N` | adds a file: the class T of examples/sum, no bytes, or N zeros |
| `file PATH absent`, `file PATH pipe` | adds a file that is listed and cannot be opened, a link to nothing; a pipe, of which nothing comes |
| `torn` | the device of the last file fails after its bytes |
| `class PATH NAME` | adds a class file. The lines below it are what its bytes say, for the reader |
| `flags`, `extends`, `implements`, `field`, `abstract`, `method`, `code`, `\\| LINE` | the flags of that class, its superclass, its superinterfaces and members, and the code of a method, as `javap` shows it |
| `bytes HEX` | adds bytes to that file |
| `script PATH`, then `\\| LINE` | adds a script, and lines to it |
| `times N LINE` | adds this line to the script N times, each with its number, from 1, in place of its first `#` |
| `byte OFFSET VALUE` | sets a byte of the last file, to two hex digits |
| `cut N`, `append HEX` | keeps the first N bytes of the last file, or adds bytes to it |
| `again FROM TO` | appends the last file's own bytes from FROM up to TO |
| `made SHAPE N` | adds the folder `made` of N classes, as bench/many_classes.py writes them |
| `> WORDS` | runs the program with these words in the folder |
| `! N WORDS` | runs it so, with a standard output that fails after N bytes |
| `@ WORDS` | runs it in crates/rmispace/data |
| `out TEXT`, `err TEXT`, `status N` | what the run above owes: a line of its standard output, of its standard error, its status |
| `unended TEXT` | the last line of its standard output, which does not end |
| `wrote PATH`, then `= LINE` | the run above owes a file in the folder, which has these lines; of a file without lines only that it is there |

A class is public and below java/lang/Object if its lines say no other. A `field` has flags, name, descriptor and the value of its
ConstantValue, if it has one. A method has flags, name and descriptor; then `method` has the limits of operands and of local
variables, the bytes of its code, and those of its StackMapTable, if it has one; `code` has the same without the code, whose lines
follow. Flags and bytes are in hex, other numbers decimal. Single spaces part words. In the PATH of a `file`, `%ff` stands for a byte.
"""
import dataclasses
import os
import pathlib
import subprocess
import sys
import urllib.parse

TOP = pathlib.Path(__file__).resolve().parent.parent
SUM = TOP / "examples" / "sum" / "T.class"
# What a file of a folder can be in place of its bytes.
ABSENT, PIPE = "absent", "pipe"
OF_A_CLASS = {"flags", "extends", "implements", "field", "abstract", "method", "code", "|"}


def are_within(content, begin, end):
    """Raises ValueError if these are not the offsets of a part of a content."""
    if not 0 <= begin <= end <= len(content):
        raise ValueError(f"no bytes from {begin} to {end}")


@dataclasses.dataclass
class Run:
    """A run of the program: where it stands, its words, the files of its folder, if it has one, and what it owes."""

    where: str
    words: list
    files: dict | None = None
    made: list | None = None
    room: int | None = None
    torn: str | None = None
    owed: dict = dataclasses.field(default_factory=lambda: {"out": "", "err": "", "status": ""})
    written: dict = dataclasses.field(default_factory=dict)

    def answer(self):
        """What it owes: standard output, standard error, status, and files."""
        return self.owed["out"], self.owed["err"], self.owed["status"], self.written

    def read_written(self, folder):
        """Returns the files that it owes as they are in a folder: None for one that is not there."""
        found = {}
        for path, owed in self.written.items():
            at = folder / path
            found[path] = None if not at.is_file() else at.read_text() if owed else owed
        return found

    def write_folder(self, folder):
        """Writes the files of its folder."""
        for path, content in self.files.items():
            at = folder / path
            at.parent.mkdir(parents=True, exist_ok=True)
            if content == PIPE:
                os.mkfifo(at)
            elif isinstance(content, str):
                at.symlink_to("nothing")
            else:
                at.write_bytes(content)
        if self.made:
            subprocess.run([sys.executable, TOP / "bench" / "many_classes.py", folder / "made", *self.made], check=True)


class Rows:
    """The rows of a file, and what their lines have made so far."""

    def __init__(self, path):
        self.path, self.runs = path, []
        self.begin_folder()

    def begin_folder(self):
        """Begins an empty folder."""
        self.files, self.made, self.last, self.is_script, self.torn = {}, None, None, False, None

    def read(self):
        """Returns the runs of all rows. Ends the process at a line that is no row."""
        self.read_file(self.path)
        return self.runs

    def read_file(self, path):
        for number, line in enumerate(path.read_text().split("\n"), 1):
            where = f"{path.name}:{number}"
            kind, _, rest = line.partition(" ")
            try:
                if line and not line.startswith("#"):
                    self.take(where, kind, rest)
            except (KeyError, IndexError, ValueError, TypeError, AttributeError, OSError):
                sys.exit(f"{where}: no row: {line}")

    def take(self, where, kind, rest):
        """Does what a line says."""
        if kind in (">", "!", "@"):
            self.add_run(where, kind, rest)
        elif kind in ("out", "err"):
            self.runs[-1].owed[kind] += rest + "\n"
        elif kind == "unended":
            self.runs[-1].owed["out"] += rest
        elif kind == "status":
            self.runs[-1].owed["status"] = rest
        elif kind == "wrote":
            self.runs[-1].written[rest] = ""
        elif kind == "=":
            self.runs[-1].written[next(reversed(self.runs[-1].written))] += rest + "\n"
        elif kind == "folder":
            self.begin_folder()
        elif kind == "with":
            self.read_file(self.path.parent / rest)
        elif kind == "made":
            self.made = rest.split(" ")
        elif kind == "file":
            self.begin_file(*rest.split(" "))
        elif kind == "class":
            path, _name = rest.split(" ")
            self.begin(path, b"")
        elif kind == "script":
            self.begin(rest, b"", is_script=True)
        elif kind == "|":
            self.add_line(rest)
        elif kind == "torn":
            self.torn = self.last
        elif kind not in OF_A_CLASS:
            self.files[self.last] = self.changed(self.files[self.last], kind, rest.split(" "), rest)

    def add_run(self, where, kind, rest):
        room = None
        if kind == "!":
            room, _, rest = rest.partition(" ")
            room = int(room)
        files = None if kind == "@" else dict(self.files)
        self.runs.append(Run(where, rest.split(" "), files, self.made, room, self.torn))

    def begin(self, path, content, is_script=False):
        self.files[path] = content
        self.last, self.is_script = path, is_script

    def begin_file(self, path, kind, *count):
        contents = {"empty": lambda: b"", "zeros": lambda: bytes(int(count[0])), "sum": SUM.read_bytes, ABSENT: lambda: ABSENT, PIPE: lambda: PIPE}
        self.begin(os.fsdecode(urllib.parse.unquote_to_bytes(path)), contents[kind]())

    def add_line(self, text):
        """Adds a line to a script. A line of code stands for the reader alone."""
        if self.is_script:
            self.files[self.last] += text.encode() + b"\n"

    def changed(self, content, kind, words, text):
        """The content of the last file after a line has changed it."""
        if kind in ("bytes", "append"):
            return content + bytes.fromhex(words[0])
        if kind == "byte":
            at, value = int(words[0]), bytes.fromhex(words[1])
            are_within(content, at, at + 1)
            return content[:at] + value + content[at + 1:]
        if kind == "cut":
            are_within(content, 0, int(words[0]))
            return content[:int(words[0])]
        if kind == "again":
            are_within(content, int(words[0]), int(words[1]))
            return content + content[int(words[0]):int(words[1])]
        if kind == "times":
            count, _, line = text.partition(" ")
            return content + b"".join(line.replace("#", str(index), 1).encode() + b"\n" for index in range(1, int(count) + 1))
        raise ValueError(kind)
