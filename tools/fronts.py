#!/usr/bin/env python3
"""Prints front ends and mappers of ABC, for the scripts of the shell.

  fronts.py                the names of all front ends, then those of all mappers, a line each
  fronts.py NAME           the commands of a front end
  fronts.py -m NAME        the commands of a mapper

A name that is not known ends in status 1.
"""
import sys

from lib.fronts import FRONTS, MAPPERS


def main(words):
    table = MAPPERS if words[:1] == ["-m"] else FRONTS
    if not words:
        print(" ".join(FRONTS) + "\n" + " ".join(MAPPERS))
    elif words[-1] in table and len(words) == 1 + (table is MAPPERS):
        print(table[words[-1]])
    else:
        sys.exit(1)


if __name__ == "__main__":
    main(sys.argv[1:])
