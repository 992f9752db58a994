#!/usr/bin/env python3
"""The commands 'verilog' and 'unverilog' of the second program, made from their formats alone.

  reference_verilog.py verilog LIB MAPPED
  reference_verilog.py unverilog LIB VER

It writes and ends as lwmap does. The language is structural Verilog: one module of ports, wires, instances of cells and
assignments of one net to another.
"""
import reference
from reference import Gate, Model, Refused, is_name

KEYWORDS = {b"module", b"endmodule", b"input", b"output", b"wire", b"assign"}
SEPARATORS = b" \t\r\n\f"
SIGNS = b"(),;.="
FIRST = b"ABCDEFGHIJKLMNOPQRSTUVWXYZabcdefghijklmnopqrstuvwxyz_"
FURTHER = FIRST + b"0123456789$"


# Written

def escaped(name):
    return b"\\" + name + b" "


def is_plain(name):
    return all(33 <= byte <= 126 for byte in name)


def sayable(model):
    """Refuses a netlist that the language cannot say, by the first of five tests."""

    def no(text):
        raise Refused(11, b"no verilog: " + text)

    if model.latches:
        no(b"latches")
    names = [model.model] + model.inputs + model.outputs
    for gate in model.gates:
        names += [gate.cell.name] + gate.cell.pins + [gate.cell.output, gate.out]
    for name in names:
        if not is_plain(name):
            no(b"name %s has a byte outside 33 to 126" % name)
    for name in model.outputs:
        if name in model.inputs:
            no(b"output %s is an input" % name)
    if model.model in [gate.cell.name for gate in model.gates]:
        no(b"model %s is a cell" % model.model)
    for gate in model.gates:
        if gate.cell.output in gate.cell.pins:
            no(b"cell %s has one name for two pins" % gate.cell.name)


def verilog(model):
    sayable(model)
    nets = [gate.out for gate in model.gates]
    taken = {*model.inputs, *model.outputs, *nets}
    ports = b", ".join(map(escaped, model.inputs + model.outputs))
    lines = [b"module " + escaped(model.model) + b"(" + ports + b");"]
    lines += [b"input " + escaped(name) + b";" for name in model.inputs]
    lines += [b"output " + escaped(name) + b";" for name in model.outputs]
    lines += [b"wire " + escaped(net) + b";" for net in nets if net not in model.outputs]
    number = 0
    for gate in model.gates:
        number += 1
        while b"u%d" % number in taken:
            number += 1
        pairs = list(zip(gate.cell.pins, gate.nets)) + [(gate.cell.output, gate.out)]
        tied = b", ".join(b"." + escaped(pin) + b"(" + escaped(net) + b")" for pin, net in pairs)
        lines.append(escaped(gate.cell.name) + b"u%d (" % number + tied + b");")
    for name, net in zip(model.outputs, model.root_nets):
        if net != name:
            lines.append(b"assign " + escaped(name) + b"= " + escaped(net) + b";")
    lines.append(b"endmodule")
    return b"".join(line + b"\n" for line in lines)


# Read

class Tokens:
    """The tokens of a text, one at a time, each with its line: a kind, which is 'name', 'end', a keyword or a sign, and a text."""

    def __init__(self, data, name):
        self.data, self.name = data, name
        self.at, self.line = 0, 1
        parts = data.split(b"\n")
        self.last = max(len(parts) - (parts[-1] == b""), 1)
        self.kind = self.text = None
        self.number = 1
        self.next()

    def fault(self, text, number=None):
        raise Refused(10, b"%s line %d: %s" % (self.name, self.number if number is None else number, text))

    def skip(self):
        """Goes over separators and comments."""
        while self.at < len(self.data):
            two = self.data[self.at:self.at + 2]
            if two[0] in SEPARATORS:
                self.line += two[0] == 10
                self.at += 1
            elif two == b"//":
                end = self.data.find(b"\n", self.at)
                self.at = len(self.data) if end < 0 else end
            elif two in (b"/*", b"(*"):
                close = two[::-1].replace(b"(", b")")
                end = self.data.find(close, self.at + 2)
                if end < 0:
                    self.fault(b"something else expected", self.line)
                self.line += self.data.count(b"\n", self.at, end)
                self.at = end + 2
            else:
                return

    def next(self):
        self.skip()
        self.number = self.line
        if self.at == len(self.data):
            self.kind, self.text, self.number = "end", b"", self.last
            return
        begin, byte = self.at, self.data[self.at]
        if byte in SIGNS:
            self.at += 1
            self.kind = self.text = self.data[begin:self.at]
        elif byte in FIRST:
            while self.at < len(self.data) and self.data[self.at] in FURTHER:
                self.at += 1
            self.text = self.data[begin:self.at]
            self.kind = self.text if self.text in KEYWORDS else "name"
        else:
            self.at += 1
            while self.at < len(self.data) and 33 <= self.data[self.at] <= 126:
                self.at += 1
            # (an escaped name ends before a byte that it cannot have, and that byte is a fault of its own)
            if byte != 92 or self.at == begin + 1:
                self.fault(b"byte not allowed")
            self.kind, self.text = "name", self.data[begin + 1:self.at]

    def take(self, *kinds):
        """The text of a token of one of these kinds, and its line."""
        if self.kind not in kinds:
            self.fault(b"something else expected")
        text, number = self.text, self.number
        # (the end of the module ends the reading; what stands behind it has no faults)
        if self.kind != b"endmodule":
            self.next()
        return text, number


class Reader:
    def __init__(self, data, name, cells):
        self.tokens = Tokens(data, name)
        self.by_name = {cell.name: cell for cell in cells}
        self.model = Model()
        self.declared = set()
        self.wires = []

    def name(self):
        """A name in any place but a cell's or a pin's."""
        tokens = self.tokens
        if tokens.kind == "name" and (not is_name(tokens.text) or b"#" in tokens.text):
            tokens.fault(b"bad name")
        return tokens.take("name")[0]

    def names(self, each):
        """Names with commas between them; each is given over before the next token is read."""
        while True:
            each()
            if self.tokens.kind != b",":
                return
            self.tokens.take(b",")

    def declare(self, ports):
        def one():
            tokens = self.tokens
            if tokens.kind == "name" and is_name(tokens.text) and b"#" not in tokens.text and tokens.text in self.declared:
                tokens.fault(b"port not declared once")
            name = self.name()
            self.declared.add(name)
            ports.append(name)

        if self.tokens.kind == b"wire":
            self.tokens.take(b"wire")
        self.names(one)
        self.tokens.take(b";")

    def instance(self):
        tokens = self.tokens
        if tokens.text not in self.by_name:
            tokens.fault(b"no such cell")
        cell = self.by_name[tokens.take("name")[0]]
        self.name()
        tokens.take(b"(")
        nets = {}

        def connection():
            tokens.take(b".")
            if tokens.kind == "name":
                if tokens.text not in cell.pins and tokens.text != cell.output:
                    tokens.fault(b"no such pin")
                if tokens.text in nets:
                    tokens.fault(b"pin given twice")
            pin, _ = tokens.take("name")
            tokens.take(b"(")
            nets[pin] = self.name()
            tokens.take(b")")

        if tokens.kind != b")":
            self.names(connection)
        tokens.take(b")")
        if tokens.kind == b";" and set(nets) != {*cell.pins, cell.output}:
            tokens.fault(b"pin not given")
        tokens.take(b";")
        self.model.gates.append(Gate(cell, nets))

    def item(self):
        tokens = self.tokens
        if tokens.kind in (b"input", b"output"):
            kind, _ = tokens.take(b"input", b"output")
            self.declare(self.model.inputs if kind == b"input" else self.model.outputs)
        elif tokens.kind == b"wire":
            tokens.take(b"wire")
            self.names(self.name)
            tokens.take(b";")
        elif tokens.kind == b"assign":
            tokens.take(b"assign")
            to = self.name()
            tokens.take(b"=")
            self.wires.append((self.name(), to))
            tokens.take(b";")
        elif tokens.kind == "name":
            self.instance()
        else:
            tokens.fault(b"something else expected")

    def read(self):
        tokens = self.tokens
        tokens.take(b"module")
        self.model.model = self.name()
        ports = []
        if tokens.kind == b"(":
            tokens.take(b"(")
            if tokens.kind != b")":
                self.names(lambda: ports.append(self.name()))
            tokens.take(b")")
        tokens.take(b";")
        while tokens.kind != b"endmodule":
            self.item()
        if sorted(ports) != sorted(self.declared):
            tokens.fault(b"port not declared once")
        reference.close_netlist(self.model, self.wires, tokens.name)
        return self.model


def mapped_text(model):
    """The mapped text of a netlist without latches, arrivals and certificate."""
    gates = [reference.gate_line(gate.cell, gate.nets, gate.out) for gate in model.gates]
    wires = reference.wire_lines(zip(model.root_nets, model.roots()))
    return reference.joined(reference.head_lines(model) + gates + wires + [[b".end"]])


def answer(given):
    words = reference.Words(given)
    command = words.next()
    words.test(command in (b"verilog", b"unverilog"))
    files = words.files(2)
    cells = reference.library_of(files[0])
    text = reference.text_of(files[1])
    if command == b"verilog":
        return verilog(reference.read_mapped(text, files[1], cells))
    return mapped_text(Reader(text, files[1], cells).read())


if __name__ == "__main__":
    reference.main(answer)
