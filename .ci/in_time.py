#!/usr/bin/env python3
"""Runs .ci/edits so that no crate's trial begins after a moment: CI ends a run after three hours, and one that is cut off tells nothing.

usage: .ci/in_time.py MOMENT TOOL WORD..      MOMENT: in seconds, as `date +%s` counts them

What has not begun by then is named as not tried. It counts neither as passed nor as failed, and its stamp stays stale, so a later run tries it: the commit
chooses the order, for each run another one. Edits of must-fail/ are not concerned, since the gate tries all of them.

The edits' own tools do not import this file, since every stamp of .ci/tried rests on their text.
"""
import hashlib
import os
import runpy
import subprocess
import sys
import time

sys.path.insert(0, os.path.dirname(os.path.abspath(__file__)))
sys.dont_write_bytecode = True

from kit import rt


def bounded(task, name, moment, place):
    """Returns a trial as rt's lanes take it, at a place in their order, that is left out after the moment."""
    waits, _, memory, call = task

    def call_in_time(given, jobs):
        if time.time() < moment:
            return call(given, jobs)
        print(f"{name}: NOT TRIED in this run, whose time for trials is over", flush=True)
        return 0, 0

    return waits, place, memory, call_in_time


def place_of(name, commit):
    """Returns a crate's place in the order of trials, which the commit chooses."""
    return int(hashlib.sha256(f"{commit} {name}".encode()).hexdigest()[:8], 16)


def bound_trials(moment):
    """Has rt's lanes begin no trial after the moment."""
    in_lanes = rt.in_lanes
    commit = subprocess.run(["git", "rev-parse", "HEAD"], capture_output=True, text=True, check=False).stdout.strip()
    rt.in_lanes = lambda tasks: in_lanes({key: bounded(it, key[0], moment, place_of(key[0], commit)) if key[1] == "trial" else it for key, it in tasks.items()})


if __name__ == "__main__":
    bound_trials(float(sys.argv[1]))
    sys.argv = sys.argv[2:]
    runpy.run_path(sys.argv[0], run_name="__main__")
