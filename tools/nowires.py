#!/usr/bin/env python3
"""A mapped netlist without wires, for ABC, whose read_blif ends in a crash where a file has both .gate lines and wires.

  nowires.py LIB MAPPED >OUT

lwmap writes `.names NET OUTPUT` and `1 1` where an output is also another output, an input or what a latch gives. Here such
an output gets a gate of its own: where a gate drives its net, another one of the same cell on the same nets, so that no
arrival changes; else the buffer of LIB that is fastest, or two of its inverters, which is said on standard error with
what it adds to the delay. What a latch reads is treated in the same way, also where it reads an input by its name.
Example:

  python3 tools/nowires.py bench/libs/mcnc.genlib mapped.blif >plain.blif
  python3 bench/timing.py -f bench/libs/mcnc.genlib >flat.genlib
  berkeley-abc -q "read_genlib flat.genlib; read_blif plain.blif; print_stats; cec circuit.blif"

ABC needs the library with one entry for each cell, as `timing.py -f` writes it; it forgets the clocks of latches, and
comments are gone from OUT. Where a file cannot be read, or LIB has neither a buffer nor an inverter and one is needed, one
line on standard error says why, and the status is 1.
"""
import sys

from lib import genlib, nowires, script


def main(words):
    if len(words) != 2:
        sys.exit("nowires: usage: python3 tools/nowires.py LIB MAPPED >OUT")
    text, added = nowires.plain(genlib.read_genlib(words[0]), words[1])
    sys.stdout.reconfigure(encoding="latin-1")
    sys.stdout.write(text)
    if added:
        print(f"nowires: what is read as it comes in has gates before it now, of delay {genlib.show(added)}", file=sys.stderr)


if __name__ == "__main__":
    script.run("nowires", main)
