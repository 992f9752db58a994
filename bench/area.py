#!/usr/bin/env python3
"""Delay and area of lwarea by effort and deadline, beside ABC's 'map'.

  area.py [-t | -r] [-l LIB] [-e EFFORTS] [-p PART]

For each circuit of bench/circuits and bench/further and each effort (EFFORTS, 123 without the option) it maps without links (-n), with the
deadlines 'each', 'max', '102%' and ABC's delay, by a library of bench/libs (mcnc without the option): the circuit as given beside ABC's
'map', and ABC's netlist after four rounds beside itself. It prints a table of means of ratios to ABC's netlist, with processor time and
memory beside 'lwmap map'. With -p every third circuit is taken, from PART on. 'sh bench/all.sh' prints the same tables.

With -r it writes bench/area.csv, a line 'circuit,deadline,area' for each circuit as given and each deadline but ABC's delay, at effort 2 with
mcnc. With -t it is a test: none of these areas may be above the recorded one, nor above that of 'lwmap map'. Areas that are smaller are
printed too, and the file is then to be written anew. The last line is 'N passed, N failed'. Neither needs ABC.
"""
import csv
import getopt
import glob
import os
import sys
import tempfile

from lib import fronts, program, script
from maps import SCRIPTS
from measure import Library, Room, head, mean, plain, ratio, row, said
from parts import both_mapped

HERE = os.path.dirname(os.path.realpath(__file__))
RECORD = os.path.join(HERE, "area.csv")
SECONDS_EACH = 60
COMMANDS = {"as given": SCRIPTS["map"], "after four rounds": f"{fronts.rounds(4)}; map"}
DEADLINES = {"each": "each", "max": "max", "102%": "102%", "abc": "ABC's delay"}
RECORDED = ("each", "max", "102%")
# The greatest effort takes long, so all libraries but this one go without it.
WHOLE = "mcnc"


def circuits(part):
    """The files of circuits by name, all or every third one."""
    found = glob.glob(os.path.join(HERE, "circuits", "*.blif")) + glob.glob(os.path.join(HERE, "further", "*.blif"))
    named = sorted((os.path.basename(path).removesuffix(".blif"), path) for path in found)
    return dict(named if part is None else named[part::3])


def circuit(room, library, network, commands, efforts, deadlines):
    """Delay, area, processor seconds and megabytes of ABC's netlist, of 'map' and of lwarea by effort and deadline; and what failed. After
    rounds the network of both is ABC's netlist."""
    theirs, ours, run, path = both_mapped(room, library, network, commands)
    if not theirs or not ours:
        return {"failed": ["no netlist of ABC or of map"]}
    f = {"failed": [], "map s": max(run.seconds, 1e-3), "map MB": run.memory}
    (f["abc"], f["abc area"]), (f["map"], f["map area"]) = theirs, ours
    for effort in efforts:
        for deadline in deadlines:
            word, key = f"{f['abc']:.6f}" if deadline == "abc" else deadline, f"{effort} {deadline}"
            run = room.once([program.path("lwarea"), "-n", "-e", effort, "-t", word, library.path, path], "recovered.blif")
            if not run.ok():
                f["failed"].append(f"-e {effort} -t {word}: ended with {run.status}")
                continue
            f[key], f[key + " area"] = library.size(run.out)
            f[key + " s"], f[key + " MB"] = max(run.seconds, 1e-3), run.memory
            if f[key + " area"] > f["map area"] + 1e-9:
                f["failed"].append(f"-e {effort} -t {word}: area {f[key + ' area']}, that of map is {f['map area']}")
    return f


def title(*first):
    columns = [cell for shown in DEADLINES.values() for cell in (f"{shown}: delay", "area")]
    head(*first, "effort", "circuits", *columns, "time to `map`", "greatest", "memory to `map`")


def show(figures, efforts, *first):
    """A row for each effort: delay and area to ABC's netlist, time and memory to those of 'map'."""
    for effort in efforts:
        keys, cells = [f"{effort} {deadline}" for deadline in DEADLINES], []
        for key in keys:
            cells += [ratio(figures, key, "abc")[0], ratio(figures, key + " area", "abc area", 2)[0]]
        times, memories = [[f[f"{key} {unit}"] / f[f"map {unit}"] for f in figures.values() for key in keys if f.get(f"{key} {unit}") and f[f"map {unit}"]]
                           for unit in ("s", "MB")]
        number = sum(all(f.get(key) for key in keys) for f in figures.values())
        row(*first, effort, number, *cells, said(mean(times), 1), said(max(times, default=None), 1), said(mean(memories), 1))


def part(room, kept, libraries, every, efforts):
    """The part of bench/all.sh."""
    room.limit, before, failed = SECONDS_EACH, room.limit, []
    print(f"### Area with `lwarea`\n\nRatios to ABC's netlist after the same commands. A run may take {room.limit} s.\n")
    title("library", "commands")
    for library in libraries:
        tried = [effort for effort in efforts if effort != "3" or library.name == WHOLE]
        for kind, commands in COMMANDS.items():
            figures = {name: kept.of("area", library.name, kind, name, make=lambda: circuit(room, library, path, commands, tried, DEADLINES))
                       for name, path in every.items()}
            show(figures, tried, library.name, kind)
            failed += [f"{library.name}, {name} {kind}: {line}" for name, f in figures.items() for line in f["failed"]]
    room.limit = before
    print("".join(f"\n* {line}" for line in failed) + "\n")


def areas(room, library, network):
    """The area by each deadline of the record, None where there is no netlist; and what is above that of 'map'."""
    found, failed = {}, []
    _, least = room.mapped(library, network, "map")
    for deadline in RECORDED:
        run = room.once([program.path("lwarea"), "-n", "-e", "2", "-t", deadline, library.path, network], "recovered.blif")
        found[deadline] = library.size(run.out)[1] if run.ok() else None
        if run.ok() and least and found[deadline] > least[1] + 1e-9:
            failed.append(f"-t {deadline}: area {found[deadline]}, that of map is {least[1]}")
    return found, failed


def record(room, library, files):
    with open(RECORD, "w", encoding="ascii", newline="") as file:
        lines = csv.writer(file, lineterminator="\n")
        for name, path in files.items():
            lines.writerows([name, deadline, plain(area)] for deadline, area in areas(room, library, path)[0].items() if area is not None)


def test(room, library, files):
    with open(RECORD, encoding="ascii", newline="") as file:
        recorded = {(name, deadline): float(area) for name, deadline, area in csv.reader(file) if name in files}
    passed, failed = 0, []
    for name, path in files.items():
        found, above = areas(room, library, path)
        failed += [f"{name}: {line}" for line in above]
        for deadline, area in found.items():
            then = recorded.get((name, deadline))
            if area is None or then is None or area > then + 1e-9:
                failed.append(f"{name} -t {deadline}: area {area}, recorded {then}")
                continue
            passed += 1
            if area < then - 1e-9:
                print(f"better: {name} -t {deadline}: area {plain(area)}, recorded {plain(then)}")
    print("".join(f"worse: {line}\n" for line in failed) + f"{passed} passed, {len(failed)} failed")
    return 1 if failed or not passed else 0


def main(words):
    options = dict(getopt.getopt(words, "trl:e:p:")[0])
    name, efforts = options.get("-l", WHOLE), options.get("-e", "123")
    files = circuits(int(options["-p"]) if "-p" in options else None)
    with tempfile.TemporaryDirectory() as folder:
        room = Room(folder, program.path())
        room.limit = SECONDS_EACH
        library = Library(room, name, os.path.join(HERE, "libs", name + ".genlib"))
        program.path("lwarea")
        if "-t" in options or "-r" in options:
            sys.exit((test if "-t" in options else record)(room, library, files))
        title("commands")
        for kind, commands in COMMANDS.items():
            figures = {circuit_name: circuit(room, library, path, commands, efforts, DEADLINES) for circuit_name, path in files.items()}
            show(figures, efforts, kind)
            for circuit_name, f in figures.items():
                for line in f["failed"]:
                    print(f"failed: {circuit_name} {kind}: {line}", file=sys.stderr)


if __name__ == "__main__":
    script.run("area", main)
