"""The report of a run of lwflow: as data, and as the text of the summary."""
from . import details, genlib, options
from .search import GIVEN, Netlist

OF_VERDICTS = {"equal": "shown", "undecided": "NOT DECIDED", "different": "DIFFERENT"}


def row(netlist, by_loads):
    """A netlist as data."""
    found = {"by": netlist.by, "front": netlist.where, "delay": float(genlib.show(netlist.delay)), "area": float(genlib.show(netlist.area)),
             "gates": netlist.gates}
    if by_loads:
        found.update(sized_delay=netlist.sized[0], sized_area=netlist.sized[1])
    return found


def least(netlists):
    return min(netlists, key=Netlist.rank, default=None)


def data(flow):
    """All that a run found."""
    work, loads = flow.work, flow.loads
    chosen = flow.options
    picked = {"kept": flow.best, "lwmap": least([one for one in work.netlists if one.ours()]),
              "abc": least([one for one in work.netlists if not one.ours()]),
              "abc_as_given": least([one for one in work.netlists if not one.ours() and one.where == GIVEN])}
    return {
        "version": options.version(),
        "design": {"files": chosen.files, "top": flow.design.top, "kind": flow.design.kind, "registers": len(flow.design.registers),
                   "nodes": work.size},
        "library": {"file": chosen.library, "cells": len(flow.library.cells), "loads": loads},
        "effort": chosen.effort, "area": chosen.area[0], "status": flow.status, "folder": chosen.output,
        "seconds": round(flow.clock.wall(), 2), "processor_seconds": round(flow.clock.spent(), 2),
        **{name: row(one, loads) if one else None for name, one in picked.items()},
        "netlists": [row(one, loads) for one in sorted(work.netlists, key=Netlist.rank)],
        "steps": [{"what": step.what, "verdict": step.verdict, "why": step.why} for step in flow.steps],
        "notes": flow.library.notes + flow.design.notes, "left_out": list(dict.fromkeys(work.lost)),
        **details.data(flow),
    }


def figure(value):
    return f"{value:.6f}".rstrip("0").rstrip(".")


def line(name, one, loads):
    cells = [figure(one["delay"]), figure(one["area"]), str(one["gates"])]
    if loads:
        cells += [figure(one["sized_delay"]), figure(one["sized_area"])]
    return f"  {name:<14}" + "".join(f"{cell:>13}" for cell in cells) + f"   {one['by']}, {one['front']}\n"


def text(found):
    """The summary."""
    loads, design = found["library"]["loads"], found["design"]
    heads = ["delay", "area", "gates"] + (["sized delay", "sized area"] if loads else [])
    parts = [f"{design['top']}: {design['kind']}, {design['nodes']} nodes, {design['registers']} registers; {found['library']['file']}, "
             f"{found['library']['cells']} cells; effort {found['effort']}, {len(found['netlists'])} netlists\n\n",
             " " * 16 + "".join(f"{head:>13}" for head in heads) + "\n"]
    for name, key in (("kept", "kept"), ("least, ours", "lwmap"), ("least, ABC", "abc"), ("ABC, as given", "abc_as_given")):
        if found[key]:
            parts.append(line(name, found[key], loads))
    parts.append("\n" + won(found, loads))
    parts += [f"{OF_VERDICTS[step['verdict']]}: {step['what']}" + (f" ({step['why']})" if step["why"] else "") + "\n" for step in found["steps"]]
    parts += [f"note: {note}\n" for note in found["notes"]] + [f"left out: {one}\n" for one in found["left_out"]]
    if any("came to no end" in step["why"] for step in found["steps"]) or any(": over " in one for one in found["left_out"]):
        parts.append("note: --limit SECONDS gives a step more time, and --effort fast takes less; --sure keeps what was shown\n")
    verdict = {0: "every step was shown", 3: "NOT EVERY STEP WAS DECIDED, see above", 4: "DIFFERENT, see above; no netlist was written"}
    parts.append(f"{found['folder']}: {verdict[found['status']]}; {found['processor_seconds']:.1f} s of processor time, "
                 f"{found['seconds']:.1f} s in all; report.html has more\n")
    return "".join(parts)


def won(found, loads):
    """Who won, and by how much."""
    kind = "sized_delay" if loads else "delay"
    ours, theirs, name = found["lwmap"], found["abc"], (found["lwmap"] or {"by": ""})["by"].split(" ")[0]
    if not ours or not theirs:
        return ""
    if ours[kind] == theirs[kind]:
        return f"{name} and ABC are as early; the area of {name}'s is {ratio(ours, theirs, loads)} of ABC's\n"
    first, second, names = (ours, theirs, (name, "ABC")) if ours[kind] < theirs[kind] else (theirs, ours, ("ABC", name))
    percent = 100 * (second[kind] - first[kind]) / second[kind] if second[kind] else 0
    return f"{names[0]} is {percent:.1f}% earlier than {names[1]}, at {ratio(first, second, loads)} of its area\n"


def ratio(one, other, loads):
    kind = "sized_area" if loads else "area"
    return f"{one[kind] / other[kind]:.2f}" if other[kind] else "any multiple"
