#!/usr/bin/env python3
"""Registers of BLIF: cut, and put back.

  registers.py cut NETWORK                 the BLIF without its latches: their outputs become inputs, what they read outputs
  registers.py restore NETWORK CUT         the nodes of CUT between the ports and latches of NETWORK

ABC forgets the clocks of latches, so a front end works on the network without them.
"""
import sys

from lib import blif, script


def main(words):
    if len(words) == 2 and words[0] == "cut":
        sys.stdout.write(blif.cut(words[1]))
    elif len(words) == 3 and words[0] == "restore":
        sys.stdout.write(blif.restore(words[1], words[2]))
    else:
        sys.exit(__doc__)


if __name__ == "__main__":
    script.run("registers", main, ValueError)
