#!/usr/bin/env python3
"""Prints the table of quality: what lwflow finds for circuits and libraries, beside ABC's own flows.

  quality.py [-e EFFORTS] [-l LIBS] [-r RAW] [-n] [-t] [FOLDER|CIRCUIT.blif..]

  -e EFFORTS  efforts of lwflow, in one word ('fast normal best')
  -l LIBS     libraries, in one word: names of bench/libs, files of genlib, 'osu035' for Debian's qflow-tech-osu035 by delays of
              cells, 'osu035+loads' for the delays of netlists that ABC has buffered and sized under loads
              ('tiny mcnc rich osu035 osu035+loads')
  -r RAW      the file of raw results, a line of CSV each (quality.csv); what is there for the present program is not measured again
  -n          measures nothing, and prints the tables of what RAW has
  -t          the small circuits first

Without words the circuits are those of bench/circuits and bench/further. The first table is that of bench/RESULTS.md: for each library and effort
the geometric means of delay and area to ABC's 'strash; map', to its 'map' after one round, and by circuit to the best of its flows, over the circuits
that have all of them; and how many delays are lower, equal and higher. Netlists count even if a step was not decided. Then each library has a
table of flows: means to 'strash; map', the processor seconds of all circuits of the flow, and how many these are. Two of its
means can be compared if both have all circuits. One step at a time is run.
"""
import csv
import getopt
import glob
import json
import os
import re
import shutil
import subprocess
import sys
import tempfile

from lib import abc, blif, fronts, genlib, library, program, runs, script, search
from lib.script import Fault
from measure import counts, hash_of, head, mean, said
from measure import row as print_row

OSU = "/usr/share/qflow/tech/osu035/osu035_stdcells.lib"
THEIRS = ["map", "dch; map", *(f"{k} round{'s' * (k > 1)}" for k in range(1, 5))]
BEST = "ABC, best"
NAMES = "lwmap", "lwarea", "lwequal"
LIMIT = 120
FIELDS = "library circuit flow delay area seconds status program".split()


def library_of(name):
    """The file of a library, and whether loads count."""
    if name.startswith("osu035"):
        if not os.path.exists(OSU):
            raise Fault(f"there is no {OSU}; apt-get install qflow-tech-osu035")
        return OSU, name.endswith("+loads")
    own = os.path.join(program.ROOT, "bench", "libs", name + ".genlib")
    return (own if os.path.exists(own) else name), False


class Raw:
    """The file of raw results. What lwflow found with other programs than the present ones does not count."""

    def __init__(self, path):
        self.path, self.rows, self.program = path, {}, " ".join(hash_of(program.path(name))[:16] for name in NAMES if program.has(name))
        if os.path.exists(path):
            with open(path, encoding="utf-8", newline="") as file:
                for row in csv.DictReader(file):
                    if row["flow"].startswith("ABC") or row.get("program") == self.program:
                        self.rows[row["library"], row["circuit"], row["flow"]] = row

    def add(self, *values):
        row = dict(zip(FIELDS, (*values, "" if values[2].startswith("ABC") else self.program)))
        fresh = not os.path.exists(self.path)
        with open(self.path, "a", encoding="utf-8", newline="") as file:
            writer = csv.DictWriter(file, FIELDS)
            if fresh:
                writer.writeheader()
            writer.writerow(row)
        self.rows[row["library"], row["circuit"], row["flow"]] = row


def script_of():
    """ABC's commands for all of its flows, in one process: after each a netlist, and what it took since the last 'time'."""
    first, choices = fronts.ROUND.rsplit("; ", 1)
    commands = ["read_genlib padded.genlib", "read_blif cut.blif", "strash", "time", "backup", "map", "write_blif abc.0.blif", "time",
                "restore", "dch", "map", "write_blif abc.1.blif", "time", "restore"]
    for k in range(1, 5):
        commands += [first, choices, "backup", "time", "map", f"write_blif abc.{k + 1}.blif", "time", "restore"]
    return "; ".join(commands)


def seconds_of(log):
    """What each flow took, from the times of that script: reading counts for each, and a round for all after it."""
    parts = [float(one) for one in re.findall(r"elapse:\s*([0-9.]+)", abc.said(log))]
    found = [sum(parts[:1] + parts[k:k + 1]) for k in (1, 2)]
    for k in range(1, 5):
        found.append(parts[0] + sum(parts[3:2 * k + 2:2]) + sum(parts[2 * k + 2:2 * k + 3]) if len(parts) > 2 * k + 2 else 0)
    return found


def theirs(raw, name, circuit, path):
    """ABC's flows for one circuit."""
    if all((name, circuit, "ABC, " + flow) in raw.rows for flow in THEIRS):
        return
    with tempfile.TemporaryDirectory() as room:
        file, loads = library_of(name)
        shutil.copyfile(path, os.path.join(room, "design.blif"))
        work = search.Work(room, "design.blif", library.Library(file, room, LIMIT), "normal", 1, lambda text: None, LIMIT, loads)
        work.write("cut.blif", blif.cut(path))
        ended = abc.call(script_of(), room, "abc.log", LIMIT)
        for k, (flow, took) in enumerate(zip(THEIRS, seconds_of(work.path("abc.log")))):
            made = f"abc.{k}.blif"
            found = search.theirs(work, (made, search.Network("cut.blif", "given"), flow)) if abc.whole(work.path(made)) else None
            clock = runs.Clock()
            before = clock.spent()
            if found and loads:
                found = library.size(work, found)
            took += clock.spent() - before
            if not found:
                raw.add(name, circuit, "ABC, " + flow, "", "", f"{ended.seconds:.2f}", "no netlist")
                continue
            delay, area = found.rank() if loads else (genlib.show(found.delay), genlib.show(found.area))
            raw.add(name, circuit, "ABC, " + flow, delay, area, f"{took:.2f}", "")


def ours(raw, name, circuit, path, effort):
    """lwflow for one circuit."""
    if (name, circuit, effort) in raw.rows:
        return
    file, loads = library_of(name)
    with tempfile.TemporaryDirectory() as room:
        words = [os.path.join(program.ROOT, "lwflow"), "-q", "--json", "--jobs", "1", "--effort", effort, "-l", file, "-o", room, path]
        done = subprocess.run(words + ([] if loads else ["--no-loads"]), stdout=subprocess.PIPE, stderr=subprocess.PIPE)
    if done.returncode not in (0, 3):
        raw.add(name, circuit, effort, "", "", "", f"status {done.returncode}")
        print(f"quality: {name} {circuit} {effort}: {os.fsdecode(done.stderr).strip()[-200:]}", file=sys.stderr)
        return
    found = json.loads(done.stdout)
    kept = found["kept"]
    figures = (kept["sized_delay"], kept["sized_area"]) if loads else (kept["delay"], kept["area"])
    raw.add(name, circuit, effort, *figures, found["processor_seconds"], "" if found["status"] == 0 else "undecided")


def figures(row):
    """Delay, area and seconds of a raw result, or None."""
    return (float(row["delay"]), float(row["area"]), float(row["seconds"])) if row and row["delay"] and float(row["delay"]) > 0 else None


def flows_of(raw, name, efforts):
    """By flow the figures of each circuit of a library. 'ABC, best' takes by circuit the least of ABC's, and the seconds of all of them."""
    flows = {flow: {} for flow in [*("ABC, " + flow for flow in THEIRS), BEST, *efforts]}
    for (library_name, circuit, flow), found in raw.rows.items():
        if library_name == name and flow in flows and figures(found):
            flows[flow][circuit] = figures(found)
    for circuit in {circuit for flow in THEIRS for circuit in flows["ABC, " + flow]}:
        known = [flows["ABC, " + flow][circuit] for flow in THEIRS if circuit in flows["ABC, " + flow]]
        flows[BEST][circuit] = (*min(one[:2] for one in known), sum(one[2] for one in known))
    return flows


def to(one, other, circuits):
    """The mean ratios of delay and area between two flows, and how many delays are lower, equal, higher."""
    ratios = [said(mean([one[c][k] / other[c][k] for c in circuits if one[c][k] > 0 and other[c][k] > 0]), digits) for k, digits in ((0, 3), (1, 2))]
    return ", ".join(ratios), counts([(one[c][0], other[c][0]) for c in circuits])


def kept(raw, names, efforts):
    """Prints what lwflow keeps, beside ABC's flows."""
    head("library", "effort", "circuits", "to `map`: delay, area", "to one round", "lower/equal/higher", "to ABC's best", "lower/equal/higher",
         "s of all", "longest s", "not decided")
    for name in names:
        flows = flows_of(raw, name, efforts)
        base, once, best = (flows[flow] for flow in ("ABC, map", "ABC, 1 round", BEST))
        for effort in efforts:
            ours, seconds = flows[effort], [found[2] for found in flows[effort].values()]
            both = sorted(set(ours) & set(base) & set(once))
            if both:
                undecided = sum(raw.rows[name, c, effort]["status"] == "undecided" for c in ours)
                print_row(name, f"`{effort}`", len(both), to(ours, base, both)[0], *to(ours, once, both), *to(ours, best, both), f"{sum(seconds):.0f}",
                          f"{max(seconds):.0f}", undecided)
    print()


def table(raw, name, efforts):
    """Prints the flows of a library."""
    flows = flows_of(raw, name, efforts)
    head(name, "delay, area", "s", "circuits")
    for flow, found in flows.items():
        both = sorted(set(found) & set(flows["ABC, map"]))
        if both:
            print_row(flow, to(found, flows["ABC, map"], both)[0], f"{sum(found[c][2] for c in both):.0f}", len(both))
    print()


def circuits_of(words):
    """The files of circuits by name."""
    words = words or [os.path.join(program.ROOT, "bench", name) for name in ("circuits", "further")]
    files = [file for word in words for file in (sorted(glob.glob(os.path.join(word, "*.blif"))) if os.path.isdir(word) else [word])]
    return {os.path.basename(file).removesuffix(".blif"): file for file in files}


def main(words):
    try:
        chosen, rest = getopt.getopt(words, "e:l:r:nt")
    except getopt.GetoptError as fault:
        raise Fault(f"{fault}; the head of bench/quality.py says how it is called") from None
    chosen = dict(chosen)
    efforts = chosen.get("-e", "fast normal best").split()
    names = chosen.get("-l", "tiny mcnc rich osu035 osu035+loads").split()
    raw, circuits = Raw(chosen.get("-r", "quality.csv")), circuits_of(rest)
    order = sorted(circuits, key=lambda one: os.path.getsize(circuits[one])) if "-t" in chosen else list(circuits)
    if "-n" not in chosen:
        runs.need("berkeley-abc")
        for circuit in order:
            for name in names:
                theirs(raw, name, circuit, circuits[circuit])
                for effort in efforts:
                    ours(raw, name, circuit, circuits[circuit], effort)
            print(f"quality: {circuit}", file=sys.stderr, flush=True)
    print(f"Programs of SHA-256 {raw.program}\n")
    kept(raw, names, efforts)
    for name in names:
        table(raw, name, efforts)


if __name__ == "__main__":
    script.run("quality", main)
