"""Runs a command some times, without its outputs, and prints the least time in milliseconds and the peak of its memory in
kilobytes. Words: how many runs, and the command. The command may end with 0, 1 or 2."""

import os
import sys
import time


def run(command):
    begin = time.perf_counter()
    process = os.posix_spawn(command[0], command, os.environ, file_actions=[(os.POSIX_SPAWN_OPEN, output, os.devnull, os.O_WRONLY, 0) for output in (1, 2)])
    _, status, usage = os.wait4(process, 0)
    if os.waitstatus_to_exitcode(status) not in (0, 1, 2):
        sys.exit(f"{' '.join(command)}: {os.waitstatus_to_exitcode(status)}")
    return time.perf_counter() - begin, usage.ru_maxrss


measured = [run(sys.argv[2:]) for _ in range(int(sys.argv[1]))]
print(f"{min(time for time, _ in measured) * 1e3:.1f} {max(peak for _, peak in measured)}")
