#!/usr/bin/env python3
"""Measures every table of bench/RESULTS.md, for bench/all.sh, which says how it is called."""
import glob
import os
import platform
import re
import shutil
import subprocess
import tempfile
import time

import area
import equal
import maps
import parts
import record
from lib import program, script
from measure import ABC, LIMIT, RUNS, Kept, Library, Room, hash_of, head, mean, row, said

HERE = os.path.dirname(os.path.realpath(__file__))
NAMES = "lwmap", "lwarea", "lwequal"
EFFORTS = os.environ.get("EFFORTS", "123")
LIBRARIES = os.environ.get("LIBS", "tiny mcnc rich").split()
PARTS = "machine maps sizes others loads areas equal trade luts widths idempotence certificates texts goals record"
# The part of the processor time of ABC's map that 'map' is to take, starts included.
GOALS = {"tiny": 0.10, "mcnc": 0.12, "rich": 0.20}


def circuits_of(folder):
    return {os.path.basename(path)[:-5]: path for path in sorted(glob.glob(os.path.join(folder, "*.blif")))}


def first_line(*command):
    try:
        return subprocess.run(command, capture_output=True, text=True, check=False).stdout.strip().split("\n")[0] or "not installed"
    except OSError:
        return "not installed"


def value_of(path, name):
    with open(path, encoding="ascii") as text:
        return next((line.split(":")[1].strip() for line in text if line.startswith(name)), "?")


def machine(room):
    """The rows of the table of the machine."""
    rows = []

    def row(*cells):
        rows.append(cells)
    for name in filter(program.has, NAMES):
        path = program.path(name)
        row(name, f"SHA-256 {hash_of(path)[:16]}, {os.path.getsize(path)} bytes")
    row("date", time.strftime("%Y-%m-%d %H:%M"))
    row("processor", f"{value_of('/proc/cpuinfo', 'model name')}, {os.cpu_count()} processors, one used")
    row("memory", f"{int(value_of('/proc/meminfo', 'MemTotal').split()[0]) / 1048576:.1f} GB")
    row("system", f"{platform.system()} {platform.release()}, {platform.machine()}")
    row("load average at the start", f"{os.getloadavg()[0]:.1f}")
    row("ABC", first_line("dpkg-query", "-W", "-f", "${Version}", "berkeley-abc"))
    row("Yosys", first_line("yosys", "-V").split("(")[0])
    row("start of `lwmap`", f"{1000 * room.start([room.program]):.1f} ms")
    row("start of ABC", f"{1000 * room.start([ABC, '-s', '-q', 'quit']):.1f} ms" if ABC else "-")
    row("runs for a time; limit of a run, of a comparison", f"{RUNS}; {LIMIT} and {max(1, LIMIT // 5)} processor seconds")
    return rows


def goal(said_of, figure, met):
    row(said_of, figure, "yes" if met else "no")


def map_goals(library, figures):
    both = [f for f in figures.values() if f.get("given s") and f.get("map s")]
    if not both:
        return
    ratios = [min(f["given s"]) / min(f["map s"]) for f in both]
    later = sum(f["given"] > f["map"] for f in both)
    goal(f"{library}: processor time at most {GOALS[library]} of ABC's `map`, starts included", said(mean(ratios)),
         mean(ratios) <= GOALS[library])
    goal(f"{library}: no circuit slower to map than with ABC", f"{sum(r > 1 for r in ratios)} slower", max(ratios) <= 1)
    goal(f"{library}: no netlist later than ABC's `map`", f"{later} later", not later)


def verilog_goals(printed):
    """From the tables of bench/verilog.sh: commands with their speed and memory, and texts of one part."""
    rows = [[cell.strip() for cell in line.strip("|").split("|")] for line in printed.split("\n") if line.startswith("| ")]
    for name, _, _, speed, _, times in (row for row in rows if row[0] in ("`verilog`", "`unverilog`")):
        goal(f"{name} of 60 MB at 60 MB a second", speed, float(speed) >= 60)
        goal(f"{name} of 60 MB in at most 6 times the text in memory", times, float(times) <= 6)
    parts_of = [row for row in rows if len(row) == 5 and re.fullmatch("[0-9]+", row[3])]
    if parts_of:
        slowest, largest = max(int(row[3]) for row in parts_of), max(int(row[4]) / float(row[1]) for row in parts_of)
        goal("a text of one part in 2 s", f"{slowest} ms", slowest <= 2000)
        goal("a text of one part in at most 6 times its memory", f"{largest:.1f}", largest <= 6)


def deadline_goal(room):
    """What 'trade 0' takes, and whether it ended."""
    library = os.path.join(HERE, "libs", "rich.genlib")
    run = room.lwmap(["trade", "0", library, os.path.join(HERE, "circuits", "i10_a.blif")])
    return [run.ok(), run.seconds]


def goals(found, room, kept, trades, printed):
    print("### Goals\n")
    head("goal", "measured", "met")
    for (folder, library), figures in found.items():
        if folder == "circuits" and library in GOALS:
            map_goals(library, figures)
    for library, figures in trades.items():
        ratios = [f["trade none s"] / f["map s"] for f in figures.values() if f.get("trade none s")]
        goal(f"{library}: `trade none` in at most twice the time of `map`", said(mean(ratios), 1), ratios and mean(ratios) <= 2)
    if "rich" in LIBRARIES:
        ended, seconds = kept.of("goals", "trade 0", make=lambda: deadline_goal(room))
        goal("`trade 0` of `i10_a` with rich in 3 s", f"{seconds:.1f} s" if ended else f"over {LIMIT} s", ended and seconds <= 3)
    verilog_goals(printed.get("verilog", ""))
    print()


def measure(room, kept, wanted, sets, own):
    """Each part that is wanted, in order; own are those that need the repository's circuits."""
    libraries = [Library(room, name, os.path.join(HERE, "libs", name + ".genlib")) for name in LIBRARIES]
    first = next(iter(sets.values()))
    mcnc = next((library for library in libraries if library.name == "mcnc"), libraries[0])
    every = {circuit: path for circuits in sets.values() for circuit, path in circuits.items()}
    found, trades, printed = {}, {}, {}
    if "machine" in wanted:
        head("what", "value")
        for cells in kept.of("machine", make=lambda: machine(room)):
            row(*cells)
        print()
    if "maps" in wanted:
        found, verdicts = maps.measure(room, kept, libraries, sets)
        maps.report(found, verdicts)
    if "sizes" in wanted and ABC:
        parts.sizes(room, kept, mcnc)
    if "others" in wanted and ABC:
        parts.others(room, kept, every)
    if "loads" in wanted and ABC:
        parts.loads(room, kept, every)
    if "areas" in wanted and ABC and program.has("lwarea"):
        area.part(room, kept, libraries, every, EFFORTS)
    if "equal" in wanted and ABC and program.has("lwequal"):
        equal.part(room, kept, mcnc, every)
    if "trade" in wanted:
        trades = parts.trade(room, kept, libraries, first)
    if "luts" in wanted and ABC:
        parts.luts(room, kept, every)
    if "widths" in wanted:
        parts.options(room, kept, libraries, first, "Widths", "-w 6", [f"-w {width}" for width in range(2, 9)])
    if "idempotence" in wanted:
        parts.options(room, kept, libraries, first, "The option `-i`", "-w 4", ["-w 4", "-w 3 -i", "-w 4 -i"])
    if "certificates" in wanted:
        parts.certificates(room, kept, libraries, first)
    if "texts" in wanted and own:
        printed = parts.texts(kept)
    if "goals" in wanted:
        goals(found, room, kept, trades, printed)
    if "record" in wanted and own:
        record.record(room, libraries, sets)


def main(words):
    for tool in ("/usr/bin/time", "prlimit"):
        if not shutil.which(tool):
            raise script.Fault(f"there is no {tool}")
    folders = words[:1] or [os.path.join(HERE, name) for name in record.SETS]
    sets = {os.path.basename(os.path.abspath(folder)): circuits_of(folder) for folder in folders}
    if not all(sets.values()):
        raise script.Fault(f"there is no .blif in {folders[0]}")
    with tempfile.TemporaryDirectory() as folder:
        kept = Kept([program.path(name) for name in NAMES if program.has(name)])
        measure(Room(folder, program.path()), kept, os.environ.get("PARTS", PARTS).split(), sets, not words)
    print(f"All of this took {kept.seconds() / 60:.0f} processor minutes; load average at the end {os.getloadavg()[0]:.1f}.")


if __name__ == "__main__":
    script.run("all", main)
