"""Times a mapped netlist under a library: one arrival for each net, by block delays.

An input arrives at the time of its line .input_arrival, else of .default_input_arrival, else at 0. What a latch gives
arrives at 0, and its input and its control count as outputs.
"""
from collections import namedtuple

from . import blif, expressions, genlib
from .genlib import Cell, show
from .script import Fault

Mapped = namedtuple("Mapped", "inputs outputs latches starts gates wires")


def read_mapped(path, lib):
    """Inputs, outputs, latches as lists of words, the arrivals of inputs, gates as net -> (cell, nets by pin), wires as
    net -> net. `.names` without fan-in, which ABC may write for constants, is a gate of no delay and no area. So is ABC's
    .barbuf a wire."""
    try:
        return parse_mapped(blif.lines(path), lib)
    except Fault as fault:
        raise Fault(f"{path}: {fault}") from None
    except (IndexError, StopIteration):
        raise Fault(f"{path}: a line is too short") from None


def gate_of(words, lib):
    """The net and the gate of a line."""
    if words[1] not in lib:
        raise Fault(f"the library has no cell {words[1]}; was it mapped with another one?")
    cell = lib[words[1]]
    nets = dict(word.split("=", 1) for word in words[2:] if "=" in word)
    for pin in cell.pins + [cell.out]:
        if pin not in nets:
            raise Fault(f"a gate of cell {cell.name} has no net at {pin}")
    return nets[cell.out], (cell, [nets[pin] for pin in cell.pins])


def constant(value):
    """The gate of a constant without a cell."""
    return Cell("one of .names" if value else "zero of .names", 0, "O", [], [], [f"CONST{value}"], []), []


def parse_mapped(it, lib):
    inputs, outputs, latches, gates, wires, own, default, last = [], [], [], {}, {}, {}, 0, None
    for w in it:
        if w[0] == ".inputs":
            inputs += w[1:]
        elif w[0] == ".outputs":
            outputs += [x for x in w[1:] if x not in outputs]
        elif w[0] == ".latch":
            latches.append(w)
        elif w[0] == ".input_arrival":
            own[w[1]] = max(genlib.micro(w[2]), genlib.micro(w[3]))
        elif w[0] == ".default_input_arrival":
            default = max(genlib.micro(w[1]), genlib.micro(w[2]))
        elif w[0] == ".gate":
            net, gate = gate_of(w, lib)
            gates[net] = gate
        elif w[0] == ".names":
            if len(w) == 3:
                row = next(it)
                if row != ["1", "1"]:
                    raise Fault(f".names {w[2]} is no wire; is the netlist mapped?")
                wires[w[2]] = w[1]
            elif len(w) == 2:
                last = w[1]
                gates[last] = constant(0)
            else:
                raise Fault(f".names {w[-1]} has logic; is the netlist mapped?")
        elif w[0] == ".barbuf":
            wires[w[2]] = w[1]
        elif w[0] in (".end", ".exdc"):
            break
        elif w[0].startswith("."):
            pass
        elif w == ["1"] and last:
            gates[last] = constant(1)
        elif w != ["0"]:
            raise Fault("a row stands outside of a node; is this a mapped netlist?")
    return Mapped(inputs, outputs, latches, {i: own.get(i, default) for i in inputs}, gates, wires)


def roots(mapped):
    """The outputs, then what each latch reads: its input, and its control where it names one."""
    nets = list(mapped.outputs)
    for latch in mapped.latches:
        nets += blif.roots_of(latch)
    return list(dict.fromkeys(nets))


def unmap(lib, path):
    """A mapped netlist as plain .names, each gate by a sum of prime cubes of which none can be left out. ABC (2022) crashes
    on files that hold both .gate lines and wires, and what is mapped again needs nodes without minterms."""
    m = read_mapped(path, lib)
    rows = {}
    out = [".model unmapped", ".inputs " + " ".join(m.inputs), ".outputs " + " ".join(m.outputs)]
    out += [" ".join(words) for words in m.latches]
    for net, (cell, fan) in m.gates.items():
        if cell.name not in rows:
            rows[cell.name] = rows_of(genlib.truth(cell.funs[0], cell.pins, cell.name), len(cell.pins))
        out.append(".names " + " ".join(fan + [net]))
        out += rows[cell.name]
    for net, source in m.wires.items():
        out += [f".names {source} {net}", "1 1"]
    return "\n".join(out + [".end"]) + "\n"


def rows_of(truth, count):
    """The rows of a node with a truth table."""
    if not count:
        return ["1"] if truth else []
    signs = [["-01"[1 + (value >> i & 1)] if mask >> i & 1 else "-" for i in range(count)]
             for mask, value in expressions.irredundant(truth, count)]
    return ["".join(row) + " 1" for row in signs]


class Timing:
    """The arrivals of a netlist at a path (at), the greatest of an output or of what a latch reads (max), and the area of
    all gates (area), in millionths."""

    def __init__(self, lib, path):
        m = read_mapped(path, lib)
        self.gates, self.wires = m.gates, m.wires
        self.outputs = roots(m)
        self.at = {**m.starts, **{w[2]: 0 for w in m.latches}}
        for o in self.outputs:
            self.arrive(o)
        self.max = max((self.at[o] for o in self.outputs), default=0)
        self.area = sum(cell.area for cell, _ in self.gates.values())

    def arrive(self, net):
        at, stack = self.at, [net]
        while stack:
            n = stack[-1]
            if n in at:
                stack.pop()
                continue
            if n in self.wires:
                fan, delays = [self.wires[n]], [0]
            elif n in self.gates:
                fan, delays = self.gates[n][1], self.gates[n][0].delays
            else:
                raise Fault(f"net {n} is not driven")
            todo = [f for f in fan if f not in at]
            if todo:
                if len(stack) > len(self.gates) + len(self.wires) + 1:
                    raise Fault(f"net {n} is on a cycle")
                stack.append(todo[0])
                continue
            at[n] = max((at[f] + d for f, d in zip(fan, delays)), default=0)
            stack.pop()

    def tree_area(self):
        """The sum over the outputs of the areas of their covers, in which each use of a shared part counts. (Gates stand in
        'at' after what they read.)"""
        areas = {}
        for net in self.at:
            if net in self.gates:
                cell, fan = self.gates[net]
                areas[net] = cell.area + sum(areas[f] for f in fan)
            else:
                areas[net] = areas[self.wires[net]] if net in self.wires else 0
        return sum(areas[o] for o in self.outputs)

    def root(self, net):
        """What drives a net, before its wires."""
        while net in self.wires:
            net = self.wires[net]
        return net

    def path(self):
        """A critical path from its first gate on, as net, cell, pin (None at a gate without pins) and arrival. It ends at the first
        output with the greatest arrival, and goes back through the first pin that gives the gate's arrival."""
        steps = []
        net = next((self.root(o) for o in self.outputs if self.at[o] == self.max), None)
        while net in self.gates:
            c, fan = self.gates[net]
            k = next((k for k in range(len(fan)) if self.at[fan[k]] + c.delays[k] == self.at[net]), None)
            steps.append((net, c, k, self.at[net]))
            net = None if k is None else self.root(fan[k])
        return steps[::-1]

    def report(self):
        """The arrival of each output, the greatest, the area, and a critical path."""
        t = [f"arrival {o} {show(self.at[o])}" for o in self.outputs]
        t += [f"max {show(self.max)}", f"area {show(self.area)}"]
        t += [f"step {net} {c.name} {'-' if k is None else c.pins[k]} {show(at)}" for net, c, k, at in self.path()]
        return "\n".join(t) + "\n"
