#!/usr/bin/env python3
"""Measures how 'map' grows with the size of a network: on multipliers of several widths by ABC's 'gen -N BITS -m', as AIGs.

  multipliers.py [BITS..]

For each library and width it prints the processor time of the whole program a node (the least of RUNS, 3), its ratio to that of the first
width, and the most memory, with its ratio to that of ABC's 'map'. What is wanted of the greatest ratios stands in the last line of a table. BITS are
32 48 64 96 128 144 160 where none is given. LIBS names the libraries (tiny, mcnc, rich), LIMIT the processor seconds that a run may
take (60). The program is the one that release/program.sh finds. ABC is Debian's package berkeley-abc.
"""
import os
import tempfile

from lib import program, script
from maps import SCRIPTS
from measure import ABC, Library, Room, head, row, said

HERE = os.path.dirname(os.path.realpath(__file__))
WIDTHS = [32, 48, 64, 96, 128, 144, 160]
# The greatest ratio of times a node to that of the first width, and of memory to that of ABC's map.
TIMES, MEMORY = 1.25, {"tiny": 0.15, "mcnc": 0.2, "rich": 0.7}


def measured(room, library, bits):
    """The nodes of a multiplier, microseconds a node, and megabytes of both programs; none where a run did not end."""
    network, nodes = room.generated(f"gen -N {bits} -m")
    theirs, _ = room.mapped_by_abc(library, network, SCRIPTS["map"])
    ours, size = room.mapped(library, network, "map")
    if not size:
        return nodes, None, ours.memory, theirs.memory
    seconds = room.timed([room.program, "map", library.path, network])[0]
    return nodes, 1e6 * seconds / nodes, ours.memory, theirs.memory


def table(room, library, widths):
    head(f"{library.name}, bits", "AND nodes", "microseconds a node", "to the first", "MB", "MB of ABC `map`", "ratio")
    times, memory, first = [], [], None
    for bits in widths:
        nodes, each, ours, theirs = measured(room, library, bits)
        first = first or each
        times.append(each / first if each else None)
        memory.append(ours / theirs if theirs else None)
        row(bits, f"{nodes:,}", said(each, 2), said(times[-1], 2), f"{ours:.1f}", f"{theirs:.1f}", said(memory[-1], 2))
    row("wanted at most", "", "", TIMES, "", "", MEMORY.get(library.name, "-"))
    wrong = [bits for bits, time, part in zip(widths, times, memory)
             if not time or time > TIMES or part is None or part > MEMORY.get(library.name, part)]
    print(f"\nNot met at {', '.join(map(str, wrong))} bits.\n" if wrong else "\nMet at each width.\n", flush=True)


def main(words):
    if not ABC:
        raise script.Fault("there is no berkeley-abc; apt-get install berkeley-abc")
    if not all(word.isdigit() for word in words):
        raise script.Fault("usage: python3 bench/multipliers.py [BITS..]")
    with tempfile.TemporaryDirectory() as folder:
        room = Room(folder, program.path())
        room.limit = int(os.environ.get("LIMIT", "60"))
        for name in os.environ.get("LIBS", "tiny mcnc rich").split():
            table(room, Library(room, name, os.path.join(HERE, "libs", name + ".genlib")), [int(word) for word in words] or WIDTHS)


if __name__ == "__main__":
    script.run("multipliers", main)
