"""Checks of the functions that edits change, in place of whole crates.

An edit of a function's body is refused exactly if that function is not proved: the functions that call it rest on its contract alone. So a check
of these functions and of what they call (`rattle check --only`) judges it as one of the whole crate does.

`rt ci` tries a crate's edits of must-fail/ over a proof of the whole crate that it makes for them alone, a second one of each such crate and a sixth
of the gate. `in_must_fail` has it check the functions that these edits change.
"""
import re

from edit_text import edits_of
from kit import rt

# The last line of such a check, and of one of a whole crate that is not proved.
LAST, NOT_PROVED = re.compile(r"only=(\d+) proved=(\d+)$"), "logic=not-proved"
checked = rt.checked


def path_of(owner):
    """Returns a function's path as `--only` takes it: the type that it is a method of, or its module, and its name."""
    if owner.block:
        return "".join(owner.block) + "::" + owner.name
    module = re.sub(r"(/mod)?\.rt$", "", owner.path.removeprefix("src/")).split("/")
    return "::".join([*([] if module in (["lib"], ["main"]) else module), owner.name])


def words_for(edits):
    """Returns the words that have a check look at the functions alone that these edits change, or none if one changes more."""
    if not all(it.is_of_functions() for it in edits):
        return []
    paths = {path_of(own) for it in edits for own in it.owners}
    return [word for path in sorted(paths) for word in ("--only", path)]


def check(crate, texts, flags, kept):
    """Checks a copy of the crate as `rt.checked` does, with these texts in place of its own. Where the flags name functions and not all of them are
    proved, the last line is that of a crate that is not proved. Where a path fits no function, or several, the whole crate is checked."""
    ran = checked(crate, texts, flags, kept)
    if "--only" not in flags:
        return ran
    if ran.returncode == 2:
        return checked(crate, texts, flags[: flags.index("--only")], kept)
    last = LAST.match(ran.stdout.rstrip().split("\n")[-1])
    if ran.returncode == 1 and last and int(last[2]) < int(last[1]):
        ran.stdout += f"{NOT_PROVED} of {last[1]} functions\n"
    return ran


def in_checks():
    """Has checks of edits understand flags that name functions, which stand last."""
    rt.checked = check


def in_must_fail():
    """Has `rt ci` check the functions alone that the edits of must-fail/ change."""
    rt.checked = lambda crate, texts, flags, kept: check(crate, texts, [*flags, *words_for(edits_of(crate, ("must-fail",)))], kept)
