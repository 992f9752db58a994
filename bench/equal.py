#!/usr/bin/env python3
"""Measures lwequal beside ABC's cec; equal.sh says how it is called and what it prints."""
import os
import random
import tempfile
from glob import glob

from lib import fronts, program, script
from measure import ABC, Library, Room, head, row

HERE = os.path.dirname(os.path.realpath(__file__))
LIBRARY = os.environ.get("LIBRARY", os.path.join(HERE, "libs", "mcnc.genlib"))
RUNS = int(os.environ.get("RUNS", "2"))
LIMIT = int(os.environ.get("SECONDS_EACH", "60"))
FRONTS = {"dch; map": "strash; dch; map", "two rounds": fronts.rounds(2) + "; map", "four rounds": fronts.rounds(4) + "; map"}
SAID = {0: "equal", 1: "differ", 2: "undecided"}


def text_of(path):
    with open(path, encoding="utf-8", errors="replace") as file:
        return file.read()


def least(room, command):
    """The run of least seconds among a few, and what it wrote on both streams."""
    runs = []
    for _ in range(RUNS):
        run = room.once(command)
        runs.append((run.seconds, run, text_of(run.out), text_of(room.path("err"))))
    return min(runs, key=lambda one: one[0])[1:]


def netlists(room, library, circuit):
    """The netlists that a circuit is compared with, by name."""
    made = {}
    for name, commands in FRONTS.items():
        file = room.path(name.replace(" ", "").replace(";", "") + ".blif")
        room.mapped_by_abc(library, circuit, commands)
        if os.path.exists(room.path("abc.blif")):
            os.replace(room.path("abc.blif"), file)
            made[name] = file
    ours = {"lwmap": [program.path(), "map", library.path, circuit]}
    if program.has("lwarea"):
        ours["lwarea"] = [program.path("lwarea"), library.path, circuit]
    for name, command in ours.items():
        if room.once(command, name + ".blif").ok():
            made[name] = room.path(name + ".blif")
    return made


def changed(file, seed):
    """The netlist with one gate exchanged for another cell with the same pins, drawn by the seed; None where there is none."""
    draw = random.Random(seed)
    lines = text_of(file).split("\n")
    pins = {}
    for line in lines:
        words = line.split()
        if words[:1] == [".gate"]:
            pins.setdefault(tuple(word.split("=")[0] for word in words[2:]), set()).add(words[1])
    places = [k for k, line in enumerate(lines) if line.startswith(".gate ") and
              len(pins[tuple(word.split("=")[0] for word in line.split()[2:])]) > 1]
    if not places:
        return None
    at = draw.choice(places)
    words = lines[at].split()
    others = pins[tuple(word.split("=")[0] for word in words[2:])] - {words[1]}
    words[1] = draw.choice(sorted(others))
    lines[at] = " ".join(words)
    result = file.removesuffix(".blif") + ".changed.blif"
    with open(result, "w", encoding="utf-8") as out:
        out.write("\n".join(lines))
    return result


def compared(room, library, circuit, other):
    """lwequal and cec on one pair: what both say, outputs left, conflicts, seconds of both, megabytes of both. ABC's reader gets the
    netlist as plain nodes."""
    ours, out, err = least(room, [program.path("lwequal"), "-l", library.peers, "-s", circuit, other])
    theirs, text, _ = least(room, [ABC, "-s", "-q", f"cec {circuit} {library.plain(room, other)}"])
    said = "differ" if "NOT EQUIVALENT" in text else "equal" if "are equivalent" in text else "undecided"
    counts = err.split()
    conflicts = int(counts[counts.index("conflicts") + 1].rstrip(",")) if "conflicts" in counts else 0
    return [SAID.get(ours.status, f"status {ours.status}"), said, out.count("undecided "), conflicts, ours.seconds, theirs.seconds,
            ours.memory, theirs.memory]


def circuit_rows(room, library, circuit):
    """The rows of a circuit: the other network, and what both came to."""
    before, room.limit = room.limit, LIMIT
    made = netlists(room, library, circuit)
    pairs = list(made.items())
    pairs += [(name + ", one gate changed", changed(file, os.path.basename(circuit) + name)) for name, file in made.items()]
    rows = [[other, *compared(room, library, circuit, file)] for other, file in pairs if file]
    room.limit = before
    return rows


def table(rows):
    """Prints the sums by kind of the other network."""
    head("other network", "pairs", "equal", "differ", "outputs left", "as `cec` says", "conflicts", "s of `lwequal`", "of `cec`", "greatest s", "of `cec`",
         "greatest MB", "of `cec`")
    for kind in dict.fromkeys(one[0] for one in rows):
        of = [one for one in rows if one[0] == kind]
        row(kind, len(of), sum(one[1] == "equal" for one in of), sum(one[1] == "differ" for one in of), sum(one[3] for one in of),
            sum(one[1] == one[2] for one in of), sum(one[4] for one in of), *[f"{sum(one[k] for one in of):.1f}" for k in (5, 6)],
            *[f"{max(one[k] for one in of):.1f}" for k in (5, 6)], *[f"{max(one[k] for one in of):.0f}" for k in (7, 8)])


def part(room, kept, library, every):
    """The part of bench/all.sh."""
    print(f"### `lwequal` and `cec`\n\nEach circuit and netlists of it with {library.name}. A run may take {LIMIT} s.\n")
    table([one for name, path in every.items() for one in kept.of("equal", name, make=lambda: circuit_rows(room, library, path))])
    print()


def main(words):
    files = sorted(glob(os.path.join(HERE, "circuits", "*.blif")) + glob(os.path.join(HERE, "further", "*.blif")), key=os.path.basename)
    rows = []
    with tempfile.TemporaryDirectory() as folder:
        room = Room(folder, program.path())
        library = Library(room, "library", LIBRARY)
        program.path("lwequal")
        print("circuit, other network: lwequal, cec, outputs left, conflicts, seconds of lwequal, of cec, MB of lwequal, of cec")
        for file in files:
            name = os.path.basename(file).removesuffix(".blif")
            for one in circuit_rows(room, library, file) if not words or name in words else []:
                rows.append(one)
                print(f"{name}, {one[0]}: " + ", ".join(f"{value:.2f}" if isinstance(value, float) else str(value) for value in one[1:]), flush=True)
    print()
    table(rows)


if __name__ == "__main__":
    if not ABC:
        print("skipped: berkeley-abc is not on this machine")
    else:
        script.run("equal", main)
