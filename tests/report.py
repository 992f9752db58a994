#!/usr/bin/env python3
"""Compares report.json and report.html of lwflow with the netlist that they are about, by its own reading of the files:

  report.py REPORT PAGE MAPPED LIB

The gates by cell, the area, the arrival of each root, the critical path (each gate is there, each pin has its delay, and its arrival is the
sum up to it), who won and by how much. What differs is printed; the status is 1 then.
"""
import json
import re
import sys
from collections import Counter
from fractions import Fraction


def gates_of(path):
    """Net -> cell and nets by pin; and what an output or a latch reads."""
    with open(path, encoding="latin-1") as file:
        text = re.sub(r"#.*", "", file.read()).replace("\\\n", " ")
    gates, roots = {}, []
    for line in text.splitlines():
        words = line.split()
        if words[:1] == [".gate"]:
            pins = dict(word.split("=", 1) for word in words[2:])
            gates[words[2:][-1].split("=", 1)[1]] = (words[1], pins)
        elif words[:1] == [".outputs"]:
            roots += words[1:]
    return gates, roots


def cells_of(path):
    """Name -> area, output pin and delays by pin ('*' being all)."""
    with open(path, encoding="latin-1") as file:
        text = re.sub(r"#.*", "", file.read())
    found = {}
    for name, area, out, rest in re.findall(r"GATE\s+(\S+)\s+(\S+)\s+(\w+)\s*=[^;]*;(.*?)(?=GATE|\Z)", text, re.S):
        pins = {pin: max(Fraction(rise), Fraction(fall)) for pin, rise, fall in re.findall(r"PIN\s+(\S+)\s+\S+\s+\S+\s+\S+\s+(\S+)\s+\S+\s+(\S+)\s+\S+", rest)}
        found.setdefault(name, (Fraction(area), out, pins))
    return found


def main(words):
    with open(words[0], encoding="utf-8") as file:
        report = json.load(file)
    with open(words[1], encoding="utf-8") as file:
        page = file.read()
    (gates, _), cells, wrong = gates_of(words[2]), cells_of(words[3]), []

    def same(what, given, wanted):
        if given != wanted:
            wrong.append(f"{what}: {given}, wanted {wanted}")

    def arrive(net):
        if net not in gates:
            return Fraction(0)
        cell, pins = gates[net]
        _, out, delays = cells[cell]
        return max((arrive(one) + delays.get(pin, delays.get("*")) for pin, one in pins.items() if pin != out), default=Fraction(0))

    counts = Counter(cell for cell, _ in gates.values())
    same("cells", {one["cell"]: (one["count"], Fraction(str(one["area"]))) for one in report["cells"]}, {name: (count, count * cells[name][0]) for name, count in counts.items()})
    same("area", Fraction(str(report["kept"]["area"])), sum(cells[cell][0] for cell, _ in gates.values()))
    for one in report["arrivals"]:
        same(f"arrival of {one['net']}", Fraction(str(one["arrival"])), arrive(one["net"]))
    same("delay", report["kept"]["delay"], max(one["arrival"] for one in report["arrivals"]))
    at = Fraction(0)
    for step in report["path"]:
        cell, pins = gates[step["net"]]
        at += cells[cell][2].get(step["pin"], cells[cell][2].get("*"))
        same(f"step {step['net']}", (step["cell"], pins[step["pin"]], Fraction(str(step["arrival"]))), (cell, step["from"], at))
    same("the path's end", at, Fraction(str(report["kept"]["delay"])))
    best = min(report["netlists"], key=lambda one: (one["delay"], one["area"]))
    same("the kept one", (report["kept"]["delay"], report["kept"]["area"]), (best["delay"], best["area"]))
    text = re.sub(r"<[^>]+>", "", page)
    for said in [f"Kept: {report['kept']['by']}, {report['kept']['front']}.", f"Delay {report['kept']['delay']:g}, area {report['kept']['area']:g}, {len(gates)} gates",
                 f"all {len(report['steps'])} steps"] + [one["net"] for one in report["path"]]:
        if said not in text:
            wrong.append(f"the page does not say: {said}")
    print("\n".join(wrong))
    return bool(wrong)


if __name__ == "__main__":
    sys.exit(main(sys.argv[1:]))
