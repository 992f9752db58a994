#!/usr/bin/env python3
"""Records the delay and area of what the program writes, and finds figures that got worse.

  record.py [PART]

bench/record.csv has a line 'circuit,library,words,delay,area' for each run, of tables 'circuit,-,words,depth,tables'; the words
are those of the command line before the files. 'PARTS=record sh bench/all.sh' writes it. PART is 0, 1 or 2 (0): every third line
is run again, from that one on. Each figure that is greater than the recorded one is printed, and each run that fails; the last line
is 'N passed, N failed'. Figures that are smaller are printed too, and the file is then to be written anew.
"""
import csv
import os
import sys
import tempfile

from lib import program, script
from measure import Library, Room, table_size

HERE = os.path.dirname(os.path.realpath(__file__))
RECORD = os.path.join(HERE, "record.csv")
SETS = ("circuits", "further")
# What is recorded besides 'map', with this library; runs that take more seconds are left out.
WAYS, WITH, SECONDS = ["map -w 3", "trade none"], "mcnc", 0.5


def network_of(circuit):
    for name in SETS:
        path = os.path.join(HERE, name, circuit + ".blif")
        if os.path.exists(path):
            return path
    raise script.Fault(f"there is no circuit {circuit}")


def figures(room, circuit, library, words):
    """Delay and area, or depth and tables, and the run; nothing where it failed."""
    run = room.lwmap(words.split() + ([library.path] if library else []) + [network_of(circuit)], "mapped")
    if not run.ok():
        return None, run
    return (library.size(run.out) if library else table_size(run.out)), run


def record(room, libraries, sets):
    """Writes the file."""
    lines = []
    for circuit in [circuit for circuits in sets.values() for circuit in circuits]:
        for library in libraries:
            found, _ = figures(room, circuit, library, "map")
            more = WAYS + [f"trade {found[0] * 1.1:.3f}"] if library.name == WITH and found else []
            lines += lines_of(room, circuit, library, ["map"] + more)
        lines += lines_of(room, circuit, None, ["lut 4", "lut 6"])
    with open(RECORD, "w", encoding="ascii", newline="") as file:
        csv.writer(file, lineterminator="\n").writerows(lines)
    print(f"{len(lines)} lines of bench/record.csv written")


def lines_of(room, circuit, library, ways):
    for words in ways:
        found, run = figures(room, circuit, library, words)
        if found and run.seconds < SECONDS:
            yield [circuit, library.name if library else "-", words, *[f"{number:.6f}".rstrip("0").rstrip(".") for number in found]]


def main(words):
    part = int(words[0]) if words else 0
    with open(RECORD, encoding="ascii", newline="") as file:
        lines = list(csv.reader(file))[part::3]
    failed = 0
    with tempfile.TemporaryDirectory() as folder:
        room, libraries = Room(folder, program.path()), {"-": None}
        for circuit, library, command, *recorded in lines:
            if library not in libraries:
                libraries[library] = Library(room, library, os.path.join(HERE, "libs", library + ".genlib"))
            found, run = figures(room, circuit, libraries[library], command)
            worse = not found or any(now > float(then) + 1e-9 for now, then in zip(found, recorded))
            failed += worse
            if worse or any(now < float(then) - 1e-9 for now, then in zip(found, recorded)):
                said = " ".join(f"{number:.6f}".rstrip("0").rstrip(".") for number in found) if found else f"ended with {run.status}"
                print(f"{'worse' if worse else 'better'}: {command} {library} {circuit}: {said}, recorded {' '.join(recorded)}")
    print(f"{len(lines) - failed} passed, {failed} failed")
    sys.exit(failed > 0)


if __name__ == "__main__":
    script.run("record", main)
