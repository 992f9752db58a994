#!/usr/bin/env python3
"""took.py RUNS COMMAND..: the least processor time of so many runs of a command, in milliseconds with two decimals, as the system counts it.

What the command writes is thrown away, and so is how it ends. The command is spawned, and not forked from this program: what a
fork of Python does before it becomes the command, some two milliseconds, would count as the command's.
"""
import os
import sys


def took(command):
    silent = [(os.POSIX_SPAWN_OPEN, stream, os.devnull, os.O_RDWR, 0) for stream in range(3)]
    child = os.posix_spawnp(command[0], command, os.environ, file_actions=silent)
    _, _, usage = os.wait4(child, 0)
    return usage.ru_utime + usage.ru_stime


if __name__ == "__main__":
    print(f"{1000 * min(took(sys.argv[2:]) for _ in range(int(sys.argv[1]))):.2f}")
