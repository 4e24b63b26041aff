"""Programs whose allocations, devices or threads fail: a library that stands before the C library (failing.c), compiled by the kit's own compiler."""
import os
import pathlib
import subprocess

from kit import rt

HERE = pathlib.Path(__file__).resolve().parent
TOOLS = f"{rt.KIT}/toolchain"


def library(room):
    """Compiles the library into a folder, and returns its path."""
    made, path = f"{room}/failing.o", f"{room}/failing.so"
    subprocess.run([f"{TOOLS}/bin/clang", "--no-default-config", "-fPIC", "-fno-builtin", "-O1", "-c", HERE / "failing.c", "-o", made], check=True)
    subprocess.run([f"{TOOLS}/bin/ld.lld", "-shared", "-o", path, made, f"{TOOLS}/lib/libc.so.6"], check=True)
    return path


def environment(path, **calls):
    """Returns the environment of a process whose calls fail so: FAIL_ALLOC=N refuses its N-th allocation, TORN=PATH has that file's device fail after
    its bytes, UNSTARTED=N has its N-th thread not start."""
    return {**os.environ, "LD_PRELOAD": path, **calls}
