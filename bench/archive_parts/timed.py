"""Runs a command, and writes its status, seconds, seconds of processor and peak of memory in KiB into a file.

It runs as a small process of its own, since the system's peak for a child is never below its parent's memory.

    timed.py FILE COMMAND WORD..
"""

from __future__ import annotations

import os
import sys
import time


def main(told: str, command: list[str]) -> None:
    began = time.perf_counter()
    child = os.posix_spawnp(command[0], command, os.environ)
    _, status, used = os.wait4(child, 0)
    seconds, worked = time.perf_counter() - began, used.ru_utime + used.ru_stime
    with open(told, "w", encoding="ascii") as f:
        f.write(f"{os.waitstatus_to_exitcode(status)} {seconds} {worked} {used.ru_maxrss}")


if __name__ == "__main__":
    main(sys.argv[1], sys.argv[2:])
