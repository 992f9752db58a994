"""A mapped netlist without wires, for ABC, whose read_blif ends in a crash where a file has both .gate lines and wires."""
from . import blif, genlib, timing
from .script import Fault


def fastest(lib, truth):
    cells = [c for c in lib.values() if len(c.pins) == 1 and genlib.truth(c.funs[0], c.pins) == truth]
    return min(cells, key=lambda c: (c.delays[0], c.area), default=None)


class Writer:
    def __init__(self, lib, mapped):
        self.lib, self.mapped, self.added = lib, mapped, 0
        self.taken = {*mapped.inputs, *mapped.gates, *mapped.wires, *(w[2] for w in mapped.latches)}
        self.lines = []

    def gate(self, cell, nets, out):
        pairs = [f"{pin}={net}" for pin, net in zip(cell.pins, nets)]
        self.lines.append(" ".join([".gate", cell.name] + pairs + [f"{cell.out}={out}"]))

    def fresh(self):
        number = 1
        while f"w{number}" in self.taken:
            number += 1
        self.taken.add(f"w{number}")
        return f"w{number}"

    def buffer(self, net, out):
        buffer, inverter = fastest(self.lib, 2), fastest(self.lib, 1)
        if inverter and (not buffer or 2 * inverter.delays[0] < buffer.delays[0]):
            between = self.fresh()
            self.gate(inverter, [net], between)
            self.gate(inverter, [between], out)
            delay = 2 * inverter.delays[0]
        elif buffer:
            self.gate(buffer, [net], out)
            delay = buffer.delays[0]
        else:
            raise Fault(f"{out} is the input {net}, and the library has neither a buffer nor an inverter")
        self.added = max(self.added, delay)

    def wire(self, out):
        net = self.mapped.wires[out]
        for _ in self.mapped.wires:
            net = self.mapped.wires.get(net, net)
        if net in self.mapped.wires:
            raise Fault(f"wire {out} is on a cycle")
        if net in self.mapped.gates:
            cell, nets = self.mapped.gates[net]
            self.gate(cell, [self.source(one) for one in nets], out)
        else:
            self.buffer(net, out)

    def source(self, net):
        """The net before the wires that a gate reads; it need not read the copy."""
        for _ in self.mapped.wires:
            net = self.mapped.wires.get(net, net)
        return net

    def latch(self, words):
        """A latch whose input is an input, or what a latch gives, reads it after gates: there too ABC ends in a crash."""
        net = words[1]
        if net in self.mapped.gates or net in self.mapped.wires:
            return words
        own = self.fresh()
        self.buffer(net, own)
        return [words[0], own] + words[2:]

    def text(self, model):
        m = self.mapped
        for net, (cell, nets) in m.gates.items():
            self.gate(cell, [self.source(one) for one in nets], net)
        for out in m.wires:
            self.wire(out)
        head = [model, ".inputs " + " ".join(m.inputs), ".outputs " + " ".join(m.outputs)]
        head += [f".input_arrival {one} {genlib.show(at)} {genlib.show(at)}" for one, at in m.starts.items() if at]
        head += [" ".join(self.latch(words)) for words in m.latches]
        return "\n".join(head + self.lines + [".end"]) + "\n"


def plain(lib, path):
    """The text of the netlist at a path without wires, and what the gates before inputs that are read as they come in add to
    the delay."""
    mapped = timing.read_mapped(path, lib)
    constant = next((c.name for c, _ in mapped.gates.values() if c.name not in lib), None)
    if constant:
        raise Fault(f"{path}: a {constant} is no cell of the library")
    known = {*mapped.inputs, *mapped.gates, *mapped.wires, *(w[2] for w in mapped.latches)}
    lost = next((one for _, nets in mapped.gates.values() for one in nets if one not in known), None)
    if lost:
        raise Fault(f"{path}: net {lost} is not driven")
    writer = Writer(lib, mapped)
    return writer.text(" ".join(blif.need_model(path))), writer.added
