#!/usr/bin/env python3
"""How much memory `rt` reckons with for a check of one of our crates. It decides how many checks run side by side, and no verdict.

usage: .ci/memory.py TOOL WORD..

As a command it runs a tool of this folder so. The edits' own tools do not import this file, since every stamp of .ci/tried rests on their text.
"""
import os
import runpy
import sys

sys.path.insert(0, os.path.dirname(os.path.abspath(__file__)))
sys.dont_write_bytecode = True

from kit import rt

# In bytes. Measured, `sp_scripts` takes 5.5 GB, `sp_main` 4.9, and each other 4.1 at most, so that four fit in 24 GB.
MOST_MEMORY = 4_500_000_000


def reckon_memory():
    """Has rt reckon with no more memory for a check than nearly all of ours take. Its own figure grows with all lines below a crate, up to 7 GB for ours, so
    that it ran three of them on four processors."""
    reckoned = rt.need
    rt.need = lambda crate: min(reckoned(crate), MOST_MEMORY)


if __name__ == "__main__":
    reckon_memory()
    sys.argv = sys.argv[1:]
    runpy.run_path(sys.argv[0], run_name="__main__")
