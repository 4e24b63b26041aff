"""What an edit changes: the functions of a source, and the function whose body holds an edited text."""

import os
import re

from kit import rt

FOLDERS = ("must-fail", "wrong")
FUNCTION = re.compile(r"^(\s*)(?:pub(?:\([^)]*\))? )?(?:const )?(?:unsafe )?fn (\w+)")
PUBLIC = re.compile(r"\s*pub (const )?(unsafe )?fn ")
BLOCK = re.compile(r"\s*(unsafe )?(pub(\([^)]*\))? )?(impl|trait)\b")


class Owner:
    """A function that holds an edited text: its file, its name, and the type and trait of its block, if it stands in one."""

    def __init__(self, path, name, block):
        self.path, self.name, self.block = path, name, block

    def key(self):
        """What tells it from other functions in the lines of a check, which name a method by its type and not by its file."""
        return self.block or self.path, self.name

    def is_at(self, path):
        """Returns whether a check's path of a function, without the crate, is this one's."""
        if path[-1] != self.name:
            return False
        if self.block:
            kind, trait = self.block
            return len(path) > 1 and (path[-2].startswith(kind + trait) if trait else path[-2] == kind)
        module = re.sub(r"(/mod)?\.rt$", "", self.path.removeprefix("src/")).split("/")
        return list(path[:-1]) == ([] if module in (["lib"], ["main"]) else module)


def bodies(text):
    """Yields each function whose body stands on lines of its own: its first line, the lines of its braces, counted from 1, and its name.
    A contract stands above the first brace, and belongs to the callers as well."""
    rows = text.split("\n")
    for at, row in enumerate(rows):
        head = FUNCTION.match(row)
        opening = body_line(rows, at, head[1]) if head else None
        if opening is not None:
            closing = next((it for it in range(opening, len(rows)) if rows[it] == head[1] + "}"), opening)
            yield at + 1, opening + 1, closing + 1, head[2]


def body_line(rows, at, indent):
    """Returns the index of the line that ends in the brace of the body of the function that begins at this index, or None if it has no body.
    The lines of a signature and of a contract stand deeper than the function."""
    line = at
    while not (rows[line].endswith("{") and (line == at or rows[line].startswith((indent + ")", indent + "{")))):
        line += 1
        is_deeper = line < len(rows) and (not rows[line] or rows[line].startswith((indent + " ", indent + ")", indent + "{")))
        if not is_deeper:
            return None
    return line


def block_of(rows, at):
    """Returns the type and the trait, or "", of the impl or the trait whose method stands at that index, or None for a free function."""
    indent = len(rows[at]) - len(rows[at].lstrip())
    for row in range(at, -1, -1):
        is_above = len(rows[row]) - len(rows[row].lstrip()) < indent
        if indent and is_above and BLOCK.match(rows[row]):
            return named_in("\n".join(rows[row:at]).partition("{")[0].partition("where")[0])
    return None


def named_in(head):
    """Returns the type and the trait, or "", that the head of an impl or of a trait names."""
    while re.search(r"<[^<>]*>", head.replace("->", "  ")):
        head = re.sub(r"<[^<>]*>", " ", head.replace("->", "  "))
    words = BLOCK.sub("", head, count=1)
    if "trait" in head.split()[:2]:
        words = words.split(":")[0]
    trait, _, kind = words.rpartition(" for ")
    return last_word(kind), last_word(trait)


def last_word(text):
    return (re.findall(r"\w+", text) or [""])[-1]


def owner(path, text, old, new):
    """Returns the function strictly between whose braces the text stands, or None. What a new text adds behind the brace stands there too."""
    line = text.count("\n", 0, text.find(old)) + 1
    adds = old.endswith("{") and new.startswith(old)
    holding = [it for it in bodies(text) if it[1] < line + adds < it[2] + adds]
    if not holding or not path.startswith("src/"):
        return None
    first, _, _, name = max(holding)
    return Owner(path, name, block_of(text.split("\n"), first - 1))


def public_text(text):
    """Returns what other crates may see of a source: its lines without comments, without the bodies of functions, and without the functions that are
    not public. (The interface that a check writes beside a library has empty clauses, so it tells of no contract.)"""
    rows, hidden = text.split("\n"), set()
    for first, opening, closing, _ in bodies(text):
        is_public = PUBLIC.match(rows[first - 1]) or (block_of(rows, first - 1) or ("", ""))[1]
        hidden.update(range(opening if is_public else first - 1, closing))
    return [row for at, row in enumerate(rows) if at not in hidden and row.strip() and not row.lstrip().startswith("//")]


class Edit:
    """An edit of a crate: the texts that it puts in place of others, and the functions whose bodies hold them, or why it cannot be applied."""

    def __init__(self, file, crate):
        self.file, self.crate = file, crate
        self.name = f"{crate.name}/{os.path.basename(file).removesuffix('.edit')}"
        self.changed, self.why = rt.read_edit(file, crate.folder)
        self.pairs, self.owners = [], []
        if not self.why:
            self.read()

    def read(self):
        path, old, texts = "", "", {}
        for line in rt.rtlib.text_of(self.file).split("\n"):
            if line.startswith("file: "):
                path = line.removeprefix("file: ").strip()
            elif line.startswith("old: "):
                old = line.removeprefix("old: ")
            elif line.startswith("new:"):
                self.add(path, old, line.removeprefix("new:").removeprefix(" "), texts)

    def add(self, path, old, new, texts):
        """Adds a pair, which applies to what the pairs above it made of the texts. One that changes white space alone, so that another text stands
        once, has no owner."""
        text = texts.get(path) or rt.rtlib.text_of(f"{self.crate.folder}/{path}")
        if "".join(old.split()) != "".join(new.split()):
            self.owners.append(owner(path, text, old, new))
        texts[path] = text.replace(old, new)
        self.pairs.append((path, old, new))

    def is_of_functions(self):
        """Returns whether each of its texts stands in the body of a function, so that it can be judged beside edits of others."""
        return not self.why and None not in self.owners

    def put_in(self, texts):
        """Returns the texts with this edit too, or None if it cannot stand beside the others."""
        texts = dict(texts)
        for path, old, new in self.pairs:
            text = texts.get(path) or rt.rtlib.text_of(f"{self.crate.folder}/{path}")
            if text.count(old) != 1:
                return None
            texts[path] = text.replace(old, new)
        return texts


def edits_of(crate, folders=FOLDERS):
    """Returns the edits that stand right in these folders of a crate, by name."""
    found = [f"{crate.folder}/{it}" for it in folders if os.path.isdir(f"{crate.folder}/{it}")]
    files = [f"{at}/{name}" for at in found for name in sorted(os.listdir(at)) if name.endswith(".edit")]
    return [Edit(it, crate) for it in files]
