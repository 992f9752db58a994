"""What the report says of the kept netlist beyond its figures: a critical path, the arrivals, the cells, and the netlist itself
where it is small enough to be drawn. Delays are those of the cells without loads."""
from collections import Counter

from . import blif, genlib, liberty, library, rtlil

DRAWN = 64  # gates of a netlist that is drawn


def number(value):
    """Millionths as a number of JSON."""
    return float(genlib.show(value))


def path(timing):
    """The gates of a critical path in their order: each with its pin on the path, the delay from there, and the net before."""
    steps = []
    for net, cell, pin, at in timing.path():
        fan = timing.gates[net][1]
        steps.append({"net": net, "cell": cell.name, "pin": None if pin is None else cell.pins[pin], "from": None if pin is None else timing.root(fan[pin]),
                      "delay": number(0 if pin is None else cell.delays[pin]), "arrival": number(at)})
    return steps


class Ends:
    """What reads each root of a netlist, and which of its sources registers give: latches of the netlist, and what stands around it
    where registers stay beside the mapper."""

    def __init__(self, mapped, around):
        self.reading, self.given = around
        self.outputs = set(mapped.outputs)
        self.latches = {}
        for latch in mapped.latches:
            self.given.add(latch[2])
            for net, pin in zip(blif.roots_of(latch), ("", ", clock")):
                self.latches.setdefault(net, []).append((latch[2] + pin, True))

    def readers(self, net):
        """The names of what reads a net, and whether a register is among them."""
        found = self.reading.get(net) or ([(net, False)] if net in self.outputs else [])
        found = found + self.latches.get(net, [])
        return [name for name, _ in found], any(register for _, register in found)


def arrivals(timing, ends):
    """The arrival of each output and of each net that a register reads, latest first."""
    found = []
    for net in timing.outputs:
        readers, register = ends.readers(net)
        found.append({"net": net, "read_by": readers, "register": register, "arrival": number(timing.at[net])})
    return sorted(found, key=lambda one: -one["arrival"])


def cells(timing):
    """The cells by their area, greatest first."""
    counts = Counter(cell.name for cell, _ in timing.gates.values())
    areas = {cell.name: cell.area for cell, _ in timing.gates.values()}
    return by_area([{"cell": name, "count": count, "area": number(areas[name] * count)} for name, count in counts.items()])


def sized_cells(path, given):
    """The same of a netlist that ABC sized, by the areas of the library of Liberty at a path."""
    counts = Counter(words[1] for words in blif.lines(path) if words[0] == ".gate")
    areas = liberty.areas(library.read(given))
    return by_area([{"cell": name, "count": count, "area": round(areas.get(name, 0) * count, 6)} for name, count in counts.items()])


def by_area(found):
    return sorted(found, key=lambda one: (-one["area"], one["cell"]))


def netlist(timing, ends):
    """Ports, registers and gates, or None where there are too many."""
    if len(timing.gates) > DRAWN:
        return None
    gates = [{"net": net, "cell": cell.name, "nets": [timing.root(one) for one in fan], "arrival": number(timing.at[net])}
             for net, (cell, fan) in timing.gates.items()]
    sources = [{"net": net, "register": net in ends.given, "arrival": number(at)} for net, at in timing.at.items()
               if net not in timing.gates and net not in timing.wires]
    roots = [{"name": net, "net": timing.root(net), "read_by": ends.readers(net)[0], "register": ends.readers(net)[1]} for net in timing.outputs]
    return {"sources": sources, "gates": gates, "roots": roots}


def data(flow):
    """All of it, for report.json."""
    found, kept, design = flow.timing, flow.best, flow.design
    apart = design.kind == "Verilog" and design.apart
    ends = Ends(blif.ports_of(flow.path(kept.file)), rtlil.around(flow.path("bits.il"), design.top) if apart else ({}, set()))
    of_cells = sized_cells(flow.path("sized.blif"), flow.options.library) if kept.sized else cells(found)
    return {"path": path(found), "arrivals": arrivals(found, ends), "cells": of_cells, "netlist": netlist(found, ends)}
