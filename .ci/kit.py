"""The kit's own `rt` as a module, so that the tools of this folder read crates, edits and checks as `rt ci` does, and
what its releases say in different ways."""

import importlib.machinery
import importlib.util
import os
import shutil
import sys

sys.dont_write_bytecode = True


def load():
    """Returns the module that the command `rt` is, set up for crates of this repository."""
    path = os.path.realpath(shutil.which("rt") or sys.exit("there is no command rt: the kit is not on the path"))
    loader = importlib.machinery.SourceFileLoader("rt_of_kit", path)
    made = importlib.util.module_from_spec(importlib.util.spec_from_loader("rt_of_kit", loader))
    sys.modules["rt_of_kit"] = made
    loader.exec_module(made)
    made.rtlib.Crate = made.Crate
    return made


rt = load()

# What a crate is to rt's commands but `rt ci`, and what a crate of `rt ci` stands on.
Base = rt.Crate.__mro__[1]


def once_a_crate(method):
    """Returns the method of a crate, made once for each."""
    kept = {}

    def call(crate):
        if crate.folder not in kept:
            kept[crate.folder] = method(crate)
        return kept[crate.folder]

    return call


def sum_once():
    """Has rt sum up the sources of a crate, and list the libraries below it, once: it does so anew for each path through the graph
    of crates, which for 80 crates is half a million times. No source may change while this process runs."""
    Base.below, Base.stamp = once_a_crate(Base.below), once_a_crate(Base.stamp)


def crates(root):
    """Returns the crates that crates.txt at the root lists, each after those that it stands on."""
    return sorted(rt.rtlib.crates_below(root), key=lambda it: len(it.below()))


def logic():
    """Returns the name of the kit's logic: releases of one logic prove and refuse alike."""
    return (rt.rtlib.text_of(f"{rt.KIT}/KIT-ID") or "").partition("logic ")[2].strip()


def share_work(builds):
    """Lets a library that another checkout on this machine has built of the same text be taken from there, if this release of the kit can."""
    if hasattr(rt, "share_work"):
        rt.share_work(builds)


# The verdicts of a release that has a name for each, and our words for them.
NAMED = {"REFUSED": "refused", "AT_LIMIT": "AT A LIMIT", "BAD": "BAD EDIT", "UNSURE": "NOT TRIED", "MISSED": "NOT REFUSED"}


def word_of(verdict, text):
    """Returns the word for what `rt.must_fail` answered of an edit. A check that gave no verdict refuses nothing."""
    if isinstance(verdict, bool):
        word = "refused" if verdict else "BAD EDIT" if "BAD EDIT" in text else "NOT REFUSED"
    else:
        word = {getattr(rt, name): it for name, it in NAMED.items()}[verdict]
    return "NOT TELLING" if word == "refused" and "only because a proof file names" in text else word
