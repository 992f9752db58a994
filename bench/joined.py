#!/usr/bin/env python3
"""Delay and area of lwarea over the steps of ABC's rounds as further networks, beside ABC's own netlists.

  joined.py [-l LIB] [-e EFFORTS] [-p PART] [-a] [-c] [-f] [-r] [CIRCUIT.blif..]

For each circuit (those of bench/circuits and bench/further if none is named) ABC writes eleven networks: f0 ('strash'), m0 (its netlist),
f1, g1, d, f2, g2, f3, g3, f4, g4, where fk is the network of two-input nodes after k rounds, gk ABC's netlist after them, and d that
after 'dch; map'. lwarea maps the circuit as given with all of these by a library of bench/libs (mcnc without the option), at each effort
(EFFORTS, 12 without the option) and with the deadlines 'max', 'each', '102%' and ABC's delay after four rounds. It prints means of ratios to
ABC's netlist after four rounds, and to its best after any of them by circuit; how often lwarea is earlier, not larger, and both; pairs of
nodes found equal, told apart and left; processor time and memory. With -p every third circuit is taken, from PART on.

-a prints what each further network adds, with 'max' at effort 2: means over the first networks, one more in each row.
-c compares each netlist with its circuit as given, by lwequal and by cec.
-f prints the figures of each circuit.
-r takes the library in Liberty that LIBERTY names (osu035), and delays and areas are those after ABC has buffered and sized a netlist
under loads. Deadlines are 'max' and '102%', and a row has the best of all runs of each circuit.
"""
import getopt
import os
import re
import sys
import tempfile

from area import circuits
from lib import abc, equality, fronts, program, script
from measure import ABC, UNMAP, Library, Room, counted, head, mean, plain, row, said
from parts import Loaded

HERE = os.path.dirname(os.path.realpath(__file__))
SECONDS_EACH = 200
STEPS = ("f0", "m0", "f1", "g1", "d", "f2", "g2", "f3", "g3", "f4", "g4")
DEADLINES = {"max": "max", "each": "each", "102%": "102%", "abc": "ABC's delay"}
UNDER_LOADS = ("max", "102%")
NETLISTS = ("map", "dch; map", "1 round", "2 rounds", "3 rounds", "4 rounds")
THREE, FOUR, BEST = *NETLISTS[-2:], "best"
COUNTS = ("equal", "apart", "left")


def steps_script(library, network, folder):
    """ABC's commands for all networks and its own netlists of them."""
    first, choices = fronts.ROUND.rsplit("; ", 1)

    def mapped(number, name):
        return f"map; write_blif {folder}/abc{number}.blif{UNMAP}; write_blif {folder}/{name}.blif"
    parts = [f"read_genlib {library.peers}; read_blif {network}; strash; write_blif {folder}/f0.blif; backup", mapped(0, "m0"),
             "restore; dch", mapped(1, "d"), "restore"]
    for k in range(1, 5):
        parts += [f"{first}; write_blif {folder}/f{k}.blif; {choices}; backup", mapped(k + 1, f"g{k}"), "restore"]
    return "; ".join(parts)


def made(room, library, network):
    """The files of the networks, and delay and area of ABC's netlists by name."""
    if not room.abc(steps_script(library, network, room.folder), "g4.blif").ok():
        return None, None
    found = {name: library.size(room.path(f"abc{k}.blif")) for k, name in enumerate(NETLISTS)}
    found[BEST] = min(found.values())
    return [room.path(f"{step}.blif") for step in STEPS], found


def compared(room, network, netlist, library):
    """What lwequal and cec say of a netlist and its circuit."""
    other = library.plain(room, netlist)
    sure = equality.by_lwequal(network, other, room.folder, "equal.log", SECONDS_EACH)[0] or "undecided"
    return [f"{sure} by lwequal", f"{abc.cec(network, other, room.folder, 'cec.log', SECONDS_EACH)[0]} by cec"]


class Mapped:
    """lwarea's netlist of a circuit with some networks: delay, area, seconds, megabytes and counts, or what failed."""

    def __init__(self, room, library, effort, word, files):
        run = room.once([program.path("lwarea"), "-s", "-e", effort, "-t", word, library.path, *files], "joined.blif")
        self.failed = None if run.ok() else f"-e {effort} -t {word}: ended with {run.status}"
        with open(room.path("err"), encoding="latin-1") as file:
            text = file.read()
        self.counts = {kind: int(found[1]) for kind in COUNTS if (found := re.search(rf"\b{kind} (\d+)", text))}
        self.out, self.seconds, self.memory = run.out, run.seconds, run.memory
        self.size = library.size(run.out) if run.ok() else None


def circuit(room, library, network, efforts, wanted):
    """All figures of a circuit: by name delay and area, and of each run more."""
    files, found = made(room, library, network)
    if not files:
        return {"failed": ["no networks by ABC"]}
    f = {"failed": [], "abc": found, "runs": {}, "verdicts": [], "adds": []}
    for effort in efforts:
        for kind in UNDER_LOADS if "-r" in wanted else DEADLINES:
            it = Mapped(room, library, effort, f"{found[FOUR][0]:.6f}" if kind == "abc" else kind, [network, *files])
            if it.failed:
                f["failed"].append(it.failed)
                continue
            f["runs"][effort, kind] = it
            f["verdicts"] += compared(room, network, it.out, library) if "-c" in wanted else []
    if "-r" in wanted and f["runs"]:
        f["best"] = min(it.size for it in f["runs"].values())
    if "-a" in wanted:
        f["adds"] = [Mapped(room, library, "2", "max", [network, *files[:count]]).size for count in range(len(files) + 1)]
    return f


def ratios(figures, effort, kind, other):
    """Delays and areas of runs as ratios to those of ABC's netlists of a name."""
    pairs = [(f["runs"][effort, kind].size, f["abc"][other]) for f in figures.values() if (effort, kind) in f.get("runs", {})]
    return [[one[k] / two[k] for one, two in pairs if two[k]] for k in (0, 1)]


def show(figures, efforts):
    head("effort", "deadline", "circuits", "to four rounds: delay", "area", "to the best: delay", "area", "earlier, not larger, both", "s", "greatest",
         "greatest MB", *(f"pairs {kind}" for kind in COUNTS))
    for effort in efforts:
        for kind, shown in DEADLINES.items():
            runs = [f["runs"][effort, kind] for f in figures.values() if (effort, kind) in f.get("runs", {})]
            if not runs:
                continue
            delays, areas = ratios(figures, effort, kind, FOUR)
            won = [sum(a < 1 for a in delays), sum(a <= 1 for a in areas), sum(a < 1 and b <= 1 for a, b in zip(delays, areas))]
            row(effort, shown, len(runs), said(mean(delays)), said(mean(areas)), *(said(mean(part)) for part in ratios(figures, effort, kind, BEST)),
                ", ".join(map(str, won)), f"{sum(run.seconds for run in runs):.1f}", f"{max(run.seconds for run in runs):.1f}",
                f"{max(run.memory for run in runs):.0f}", *(sum(run.counts.get(kind, 0) for run in runs) for kind in COUNTS))


def show_best(figures):
    """The best of all runs of each circuit, and ABC's."""
    head("best by circuit", "circuits", "to three rounds: delay", "area", "earlier", "to the best: delay", "area", "earlier")
    every = [f for f in figures.values() if f.get("best")]
    for name, mine in (("`lwarea`", [f["best"] for f in every]), ("ABC", [f["abc"][BEST] for f in every])):
        cells = []
        for other in (THREE, BEST):
            pairs = [(one, f["abc"][other]) for one, f in zip(mine, every)]
            cells += [*(said(mean([one[k] / two[k] for one, two in pairs])) for k in (0, 1)), sum(one[0] < two[0] for one, two in pairs)]
        row(name, len(every), *cells)


def adds(figures):
    """Means over the first networks, to ABC's four rounds."""
    head("networks", "circuits", "delay", "area")
    for count in range(len(STEPS) + 1):
        pairs = [(f["adds"][count], f["abc"][FOUR]) for f in figures.values() if f.get("adds") and f["adds"][count]]
        row(f"and {STEPS[count - 1]}" if count else "as given", len(pairs), *(said(mean([one[k] / two[k] for one, two in pairs])) for k in (0, 1)))


def each(figures, efforts):
    """The figures of each circuit."""
    keys = [(effort, kind) for effort in efforts for kind in DEADLINES]
    head("circuit", *NETLISTS, *(f"{effort}, {DEADLINES[kind]}" for effort, kind in keys))
    for name, f in figures.items():
        cells = [f["abc"][one] for one in NETLISTS] + [f["runs"][key].size if key in f["runs"] else None for key in keys] if f.get("abc") else []
        row(name, *(" / ".join(map(plain, cell)) if cell else "-" for cell in cells))


def main(words):
    options, named = getopt.getopt(words, "l:e:p:acfr")
    options = dict(options)
    name, efforts = options.get("-l", "mcnc"), options.get("-e", "12")
    files = {os.path.basename(file).removesuffix(".blif"): os.path.abspath(file) for file in named}
    if not ABC:
        sys.exit("joined: there is no berkeley-abc")
    with tempfile.TemporaryDirectory() as folder:
        room = Room(folder, program.path())
        room.limit = SECONDS_EACH
        library = Loaded(room) if "-r" in options else Library(room, name, os.path.join(HERE, "libs", name + ".genlib"))
        program.path("lwarea")
        figures = {}
        for key, path in (files or circuits(int(options["-p"]) if "-p" in options else None)).items():
            figures[key] = circuit(room, library, path, efforts, options)
            for line in figures[key]["failed"]:
                print(f"failed: {key}: {line}", file=sys.stderr)
        show(figures, efforts)
        for wanted, part in (("-r", lambda: show_best(figures)), ("-a", lambda: adds(figures)), ("-f", lambda: each(figures, efforts))):
            if wanted in options:
                print()
                part()
        verdicts = [one for f in figures.values() for one in f.get("verdicts", [])]
        if verdicts:
            print(f"\nNetlists compared with their circuits: {counted(verdicts)}.")


if __name__ == "__main__":
    script.run("joined", main)
