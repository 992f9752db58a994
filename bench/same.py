#!/usr/bin/env python3
"""Says whether two networks of plain nodes compute the same, and who says so: lwequal, or ABC's cec where lwequal is undecided.

  same.py ONE OTHER [SECONDS]

ONE and OTHER are files of BLIF whose names end in .blif. Each of the two programs may take so many seconds of the processor (60). The
line is 'equal by lwequal', 'different by cec' or so, or 'undecided'; the status is 0, 1 or 2.
"""
import sys

from lib import equality, script

STATUSES = {"equal": 0, "different": 1, "undecided": 2}


def main(words):
    if len(words) not in (2, 3):
        sys.exit(__doc__)
    answer = equality.answered(*words[:2], float(words[2]) if words[2:] else 60)
    print(answer)
    sys.exit(STATUSES[answer.split()[0]])


if __name__ == "__main__":
    script.run("same", main)
