"""Ports of modules in RTLIL, the text form of Yosys, and the part of a module that was mapped."""
import re

from .script import Fault


def ports(given, mapped, name):
    """The module NAME of the file mapped, whose ports have one bit each, with the ports that it has in the file given."""
    declared = declarations(given, name)
    wires = {f"\\{name}[{index}]": (f"\\{name} [{at}]", way) for name, (_, way, indices) in declared.items() if len(indices) > 1
             for at, index in enumerate(indices)}
    lines, joined, found = [], [], set()
    for line in without_part(list(lines_of(mapped, name))):
        port = re.fullmatch(r"  wire (?:offset -?\d+ )?(input|output) \d+ (?:signed )?(\S+)\n", line)
        if line.startswith("module "):
            line = f"module \\{name}\n" + "".join(text for text, _, indices in declared.values() if len(indices) > 1)
        elif port and port[2] in wires and wires[port[2]][1] == port[1]:
            whole, own = wires[port[2]][0], port[2]
            joined.append(f"  connect {own} {whole}\n" if port[1] == "input" else f"  connect {whole} {own}\n")
            line = f"  wire {own}\n"
            found.add(port[2])
        elif port and declared.get(port[2][1:], ("", ""))[1] == port[1]:
            line = declared[port[2][1:]][0]
            found.add(port[2])
        elif port:
            raise Fault(f"{port[2]} is no port of {name}")
        elif line == "end\n":
            line = "".join(joined) + line
        lines.append(line)
    wanted = set(wires) | {f"\\{name}" for name, (_, _, indices) in declared.items() if len(indices) == 1}
    if found != wanted:
        raise Fault(f"{min(wanted - found)} is not a port of the netlist")
    return "".join(lines)


def shell(given, name, part):
    """The module NAME of Verilog, with the ports that it has in the file given, around an instance of PART, a module whose
    ports have one bit each."""
    declared = declarations(given, name)
    lines, ties = [], []
    for own, (line, way, indices) in declared.items():
        sign = "signed " if " signed " in line else ""
        span = f"[{indices[-1]}:{indices[0]}] " if len(indices) > 1 else ""
        lines.append(f"{way} {sign}{span}\\{own} ;\n")
        ties += [f".\\{own}[{index}] (\\{own} [{index}])" for index in indices] if span else [f".\\{own} (\\{own} )"]
    instance = "netlist"
    while instance in declared:
        instance += "_"
    names = ", ".join(f"\\{own} " for own in declared)
    return f"module {name} ({names});\n" + "".join(lines) + f"{part} {instance} ({', '.join(ties)});\nendmodule\n"


PART = "lwmap_logic."
NET = r"\\lwmap_logic\.(\S+)"


def without_part(lines):
    """The lines with the nets and cells of the part that was mapped under their own names, where these are free. A net that
    goes out of the part is one with that outside, and gives it its initial value."""
    joined = re.compile(rf"  connect (?:{NET} \\\1|\\(\S+) \\lwmap_logic\.\2)\n")
    same = {wire[1] or wire[2] for wire in map(joined.fullmatch, lines) if wire}
    taken = {words[-1][1:] for words in map(str.split, lines) if words and words[0] in ("wire", "cell")}
    others, starts, attributes = taken - same, {}, []
    for line in lines:
        wire = re.fullmatch(rf"  wire {NET}\n", line)
        if wire and wire[1] in same:
            starts[wire[1]] = [start for start in attributes if start.startswith("  attribute \\init ")]
        attributes = attributes + [line] if line.startswith("  attribute ") else []
    attributes = []
    for line in lines:
        if line.startswith("  attribute "):
            attributes.append(line)
            continue
        wire = re.fullmatch(rf"  wire {NET}\n", line)
        if joined.fullmatch(line) or wire and wire[1] in same:
            attributes = []
            continue
        if line.startswith("  wire "):
            yield from starts.get(line.split()[-1][1:], [])
        yield from attributes
        attributes = []
        yield re.sub(NET, lambda net: net[0] if net[1] in others else "\\" + net[1], line)


def lines_of(path, module):
    """The lines of one module of RTLIL."""
    inside = False
    for line in open(path, encoding="utf-8"):
        inside = inside or line == f"module \\{module}\n"
        if inside:
            yield line
        inside = inside and line != "end\n"


def declarations(path, module):
    """The ports of a module of RTLIL in their order, by name: the line, the direction, and the indices from the lowest bit on."""
    found = []
    for line in lines_of(path, module):
        wire = re.fullmatch(r"  wire (?:width (\d+) )?(upto )?(?:offset (-?\d+) )?(input|output|inout) (\d+) (?:signed )?\\(\S+)\n", line)
        if wire:
            indices = range(int(wire[3] or 0), int(wire[3] or 0) + int(wire[1] or 1))
            found.append((int(wire[5]), wire[6], (line, wire[4], list(reversed(indices)) if wire[2] else list(indices))))
    return {name: port for _, name, port in sorted(found)}


PINS = {"D": "", "E": ", enable", "R": ", reset", "S": ", set", "C": ", clock", "L": ", load", "AD": ", loaded value"}


def around(path, module):
    """What a module of RTLIL has around its part lwmap_logic: for each port of that what reads it, the module's outputs and registers
    with their pins, and the ports that registers give."""
    ports, pins, registers, kind = {}, {}, [], ""
    for line in lines_of(path, module):
        opened = re.fullmatch(r"  cell (\S+) \S+\n", line)
        joined = re.fullmatch(r"    connect \\(\S+) (.+)\n", line)
        if opened:
            kind, pins = opened[1], {}
        elif joined:
            pins[joined[1]] = joined[2].replace(" ", "")
        elif line == "  end\n" and kind == "\\lwmap_logic":
            ports = pins
        elif line == "  end\n" and "Q" in pins:
            registers.append(pins)
    outputs = {"\\" + name for name, (_, way, _) in declarations(path, module).items() if way == "output"}
    reading = {}
    for name, net in ports.items():
        if net.split("[")[0] in outputs and net not in {pins["Q"] for pins in registers}:
            reading.setdefault(net, []).append((net.lstrip("\\"), False))
    for pins in registers:
        for pin, net in pins.items():
            if pin != "Q":
                reading.setdefault(net, []).append((pins["Q"].lstrip("\\") + PINS.get(pin, f", {pin}"), True))
    given = {pins["Q"] for pins in registers}
    return {name: reading.get(net, []) for name, net in ports.items()}, {name for name, net in ports.items() if net in given}


def sets_before_resets(text):
    """The signals of a text of RTLIL after proc_arst that an asynchronous rule sets, or gives a value that is no constant,
    before another asynchronous rule."""
    found = []
    for process in re.findall(r"^  process .*?^  end$", text, re.M | re.S):
        rules = re.findall(r"^    sync (?:high|low) \S.*\n((?:      .*\n)*)", process, re.M)
        for k, rule in enumerate(rules[:-1]):
            for signal, value in re.findall(r"update (\S+(?: \[[\d:]+\])?) (.*)", rule):
                later = [other for after in rules[k + 1:] for other in re.findall(rf"update {re.escape(signal)} (.*)", after)]
                first = re.fullmatch(r"\d+'([01]+)", value)
                seconds = [re.fullmatch(r"\d+'([01]+)", other) for other in later]
                if later and (not first or any(not one or any(a == "1" and b == "0" for a, b in zip(first[1], one[1])) for one in seconds)):
                    found.append(signal.lstrip("\\"))
    return list(dict.fromkeys(found))
