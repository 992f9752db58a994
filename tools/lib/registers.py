"""Compares two netlists of Yosys, registers included: two networks without registers, for cec.

The two netlists do the same at all times where the two networks compute the same: with equal states the registers read
equal values and clocks, and so have equal states again. Names are those of the nets that a register drives. A register of
the first netlist without a partner has to keep one value for ever (its first one, that of its reset, the constant that it
reads, or, where its first value is not known, one that it reads again and again once it has it), or else may have any value.
"""
import json
import random
import re
from itertools import product

from .rtlil import PART
from .script import Fault


class Differ(Fault):
    """Why two netlists could not be compared; a difference that was found begins with that word."""


# The rows of each cell: its input ports, and in which rows of these the output Y is true.
ROWS = {
    "BUF": ("A", ["1"]), "NOT": ("A", ["0"]),
    "AND": ("AB", ["11"]), "NAND": ("AB", ["0-", "-0"]), "OR": ("AB", ["1-", "-1"]), "NOR": ("AB", ["00"]),
    "XOR": ("AB", ["10", "01"]), "XNOR": ("AB", ["00", "11"]), "ANDNOT": ("AB", ["10"]), "ORNOT": ("AB", ["1-", "-0"]),
    "MUX": ("ABS", ["1-0", "-11"]), "NMUX": ("ABS", ["0-0", "-01"]),
    "AOI3": ("ABC", ["0-0", "-00"]), "OAI3": ("ABC", ["00-", "--0"]),
    "AOI4": ("ABCD", ["0-0-", "0--0", "-00-", "-0-0"]), "OAI4": ("ABCD", ["00--", "--00"]),
}
# The ports of each register whose active level its type names, in that order; a last 0 or 1 is the value of its reset.
LEVELS = {"FF": "", "DFF": "CR", "DFFSR": "CSR", "ALDFF": "CL", "DLATCH": "ER", "DLATCHSR": "ESR", "SR": "SR"}
SAYS = {"C": "clock", "E": "gate", "R": "reset", "S": "set", "L": "load", "D": "data", "AD": "loaded data"}


class Register:
    def __init__(self, cell, module):
        kind, levels, reset = re.fullmatch(r"\$_(FF|DFFSR|DFF|ALDFF|DLATCHSR|DLATCH|SR)_(?:([PN]+)([01]?)_)?", cell["type"]).groups()
        self.kind, self.reset, self.q = kind, reset or "", cell["connections"]["Q"][0]
        self.pins = {port: bits[0] for port, bits in cell["connections"].items() if port != "Q"}
        self.low = {port for port, level in zip(LEVELS[kind], levels or "") if level == "N"}
        self.names = sorted(module.names.get(self.q, []), key=lambda name: (name.count("."), len(name), name))
        self.start = module.starts.get(self.q, "x")

    def name(self):
        return self.names[0] if self.names else f"unnamed.{self.q}"

    def says(self):
        return self.kind + "".join(f" with {SAYS[p]}" for p in self.pins) + (f" to {self.reset}" if self.reset else "")


def bits_of(name, net):
    """The name and the number of each bit of a net or port."""
    bits, first = net["bits"], net.get("offset", 0)
    if len(bits) == 1:
        return [(plain(name), bits[0])]
    last = first + len(bits) - 1
    return [(plain(f"{name}[{last - at if net.get('upto') else first + at}]"), bit) for at, bit in enumerate(bits)]


def plain(name):
    """A name as BLIF can hold it, without the name of the part that was mapped."""
    return re.sub(r"[^!\"$-Z_a-z|~\[\].^{}]", lambda sign: f"%{ord(sign[0]):x}", name.removeprefix(PART))


class Module:
    """One flat module: its ports bit by bit, the names of each net, its registers, and its logic."""

    def __init__(self, path, top):
        with open(path, encoding="utf-8") as file:
            modules = json.load(file)["modules"]
        if top not in modules:
            raise Differ(f"there is no module {top}")
        module = modules[top]
        self.names, self.starts, self.ports = {}, {}, {}
        for name, net in module["netnames"].items():
            start = str(net["attributes"].get("init", ""))
            for at, (one, bit) in enumerate(bits_of(name, net)):
                if not net["hide_name"] and not isinstance(bit, str):
                    self.names.setdefault(bit, []).append(one)
                if at < len(start) and start[-1 - at] in "01":
                    self.starts[bit] = start[-1 - at]
        for name, port in module["ports"].items():
            for one, bit in bits_of(name, port):
                self.ports[one] = (port["direction"], bit)
        self.registers, self.logic = [], []
        for name, cell in sorted(module["cells"].items()):
            gate = cell["type"][2:-1]
            if cell["type"] == "$scopeinfo":
                continue
            if gate in ROWS and cell["type"].startswith("$_"):
                ports, rows = ROWS[gate]
                self.logic.append(([cell["connections"][p][0] for p in ports], cell["connections"]["Y"][0], rows))
            elif re.match(r"\$_(FF|DFF|ALDFF|DLATCH|SR)", cell["type"]):
                self.registers.append(Register(cell, self))
            else:
                raise Differ(f"cell {name} of type {cell['type']} is neither logic nor a register")

    def side(self, direction):
        return [(name, bit) for name, (way, bit) in self.ports.items() if way == direction]


class Logic:
    """The nodes of a BLIF for one module: nets are numbers after a letter. A net that an x of the module may reach has a second
    rail, which says where it is x; what is read there by the first rail is of no meaning."""

    def __init__(self, module, letter, sources):
        self.letter, self.nodes, self.tests = letter, [], []
        driven = {"0", "1"} | {bit for _, bit in sources} | {out for _, out, _ in module.logic}
        readers, unknown = {}, []
        for ins, out, _ in module.logic:
            for bit in ins:
                readers.setdefault(bit, []).append(out)
                if bit not in driven:
                    unknown.append(bit)
        self.unknown = {bit for bit in unknown}
        for net in [bit for register in module.registers for bit in register.pins.values()] + [bit for _, bit in module.side("output")]:
            if net not in driven:
                unknown.append(net)
                self.unknown.add(net)
        self.roots = set(unknown)
        while unknown:
            for out in readers.get(unknown.pop(), []):
                if out not in self.unknown:
                    self.unknown.add(out)
                    unknown.append(out)
        for bit in self.roots:
            self.add([], self.rail(bit), ["1"])
            self.add([], self.net(bit), [])
        self.add([], self.net("1"), ["1"])
        self.add([], self.net("0"), [])
        for name, bit in sources:
            self.add([name], self.net(bit), ["1"])
        for ins, out, rows in module.logic:
            self.node(ins, self.net(out), self.rail(out), rows)

    def net(self, bit):
        return f"{self.letter}{bit}"

    def rail(self, bit):
        return f"{self.letter}x{bit}"

    def add(self, ins, out, rows):
        self.nodes.append(".names " + " ".join(ins + [out]))
        self.nodes += [f"{row} 1" if ins else row for row in rows]

    def node(self, ins, out, rail, rows):
        """A node over bits. Whether its output has a second rail is the answer."""
        if not self.unknown.intersection(ins):
            self.add([self.net(bit) for bit in ins], out, rows)
            return False
        codes = {"0": "00", "1": "10", "x": "-1"}
        nets, high, odd = [], [], []
        for bit in ins:
            nets += [self.net(bit)] + ([self.rail(bit)] if bit in self.unknown else [])
        for values in product(*("01x" if bit in self.unknown else "01" for bit in ins)):
            found = {is_true(row, rows) for row in product(*("01" if value == "x" else value for value in values))}
            row = "".join(codes[v] if bit in self.unknown else v for v, bit in zip(values, ins))
            if len(found) == 2:
                odd.append(row)
            elif found == {True}:
                high.append(row)
        self.add(nets, out, high)
        self.add(nets, rail, odd)
        return True


def is_true(values, rows):
    return any(all(sign in ("-", value) for sign, value in zip(row, values)) for row in rows)


def reads(register):
    """What a register reads, as (what, nets, rows): levels as if all were high, what a set or reset overrides as 0."""
    over = [p for p in ("R", "S") if p in register.pins]
    found = []
    for port, bit in register.pins.items():
        guards = [p for p in over if port in ("D", "L") or (p, port) == ("R", "S")]
        row = "0" if port in register.low else "1"
        row += "".join("1" if p in register.low else "0" for p in guards)
        found.append((port, [bit] + [register.pins[p] for p in guards], [row]))
    return found


def partners(given, made):
    """For each register of the first module that of the second with one of its names, or None."""
    by_name = {name: register for register in made.registers for name in register.names}
    pairs, taken = [], set()
    for register in given.registers:
        found = {id(by_name[name]): by_name[name] for name in register.names if name in by_name}
        if len(found) > 1:
            raise Differ(f"register {register.name()} has several partners")
        partner = next(iter(found.values()), None)
        pairs.append((register, partner))
        taken.add(id(partner))
    for register in made.registers:
        if id(register) not in taken:
            raise Differ(f"register {register.name()} of the netlist has no partner")
    return pairs


def agree(register, partner):
    if (register.kind, sorted(register.pins), register.reset) != (partner.kind, sorted(partner.pins), partner.reset):
        raise Differ(f"difference: register {register.name()} is {register.says()}, in the netlist {partner.says()}")
    if register.start not in ("x", partner.start):
        raise Differ(f"difference: register {register.name()} starts at {register.start}, in the netlist "
                     + ("at no known value" if partner.start == "x" else f"at {partner.start}"))


def tie_of(register):
    """The value that a register without a partner may keep for ever, or x."""
    value = next((v for v in (register.start, register.pins.get("D"), register.reset) if v in ("0", "1")), "x")
    if value != "x" and register.reset not in ("", value) or "S" in register.pins:
        return "x"
    return value


class Values:
    """Random values of the nets of a module, many at a time, under registers that keep a value. Of each net two numbers tell where
    it can be 0 and where it can be 1; both where it is x."""

    ONES = (1 << 1024) - 1

    def __init__(self, module):
        self.drivers = {out: (ins, rows) for ins, out, rows in module.logic}
        self.readers = {}
        for ins, out, _ in module.logic:
            for bit in ins:
                self.readers.setdefault(bit, []).append(out)
        sources = [bit for _, bit in module.side("input")] + [register.q for register in module.registers]
        self.random = random.Random(1)
        self.sources = {bit: self.exactly(self.drawn()) for bit in sources}
        self.known = {}
        self.keep({})

    def drawn(self):
        """A fourth of the values as often 1 as 0, a fourth seldom 1, a fourth more seldom, and a fourth seldom 0: codes with
        one bit that is 1 come then too."""
        bits = lambda: self.random.getrandbits(256)  # noqa: E731
        return bits() | (bits() & bits() & bits()) << 256 | (bits() & bits() & bits() & bits()) << 512 | (bits() | bits() | bits()) << 768

    def exactly(self, value):
        return value ^ self.ONES, value

    def keep(self, kept):
        """From here on some registers' nets are constants."""
        self.sources.update(kept)
        self.known = {"0": self.exactly(0), "1": self.exactly(self.ONES)}

    def behind(self, net):
        """A net and those that read it through logic."""
        seen, stack = {net}, [net]
        while stack:
            for out in self.readers.get(stack.pop(), []):
                if out not in seen:
                    seen.add(out)
                    stack.append(out)
        return seen

    def of(self, net, known, fresh):
        """The values of a net; those of the nets in fresh are taken anew, into known, all others as they are."""
        stack = [net]
        while stack:
            one = stack[-1]
            here = known if one in fresh else self.known
            ins, rows = self.drivers.get(one, ((), ()))
            todo = [bit for bit in ins if bit not in (known if bit in fresh else self.known)]
            if one not in here and todo:
                stack += todo
                continue
            stack.pop()
            if one not in here and one in self.drivers:
                here[one] = self.node([(known if bit in fresh else self.known)[bit] for bit in ins], rows)
            elif one not in here:
                here[one] = self.sources.get(one, (self.ONES, self.ONES))
        return (known if net in fresh else self.known)[net]

    def node(self, values, rows):
        found = [0, 0]
        for signs in product((0, 1), repeat=len(values)):
            part = self.ONES
            for sign, value in zip(signs, values):
                part &= value[sign]
            found[is_true([str(sign) for sign in signs], rows)] |= part
        return tuple(found)


def steady(module, registers, refused=()):
    """Those registers of no known first value that read one value again and again once they have it, or may where they read an
    x, by trial with random values: the value of each. That it is so is for cec to decide; pairs of a name and a
    value that it refused are left out."""
    values = Values(module)
    found, left = {}, [one for one in registers if "S" not in one.pins]
    while left:
        kept = {}
        for register in left:
            fresh = values.behind(register.q)
            for sign in ("0", "1") if register.reset == "" else register.reset:
                known = {register.q: values.exactly(values.ONES if sign == "1" else 0)}
                data = [register.pins[port] for port in ("D", "AD") if port in register.pins]
                if (register.name(), sign) not in refused and all(values.of(net, known, fresh)[int(sign)] == values.ONES for net in data):
                    found[register.q], kept[register.q] = sign, known[register.q]
                    break
        if not kept:
            break
        values.keep(kept)
        left = [one for one in left if one.q not in kept]
    return found


def agree_ports(given, made):
    sides = [{name: way for name, (way, _) in module.ports.items()} for module in (given, made)]
    if sides[0] != sides[1]:
        raise Differ(f"difference: the ports differ at {min(set(sides[0].items()) ^ set(sides[1].items()))[0]}")
    if "inout" in sides[0].values():
        raise Differ("a port is an inout")


def plan(given, made, refused=()):
    """The inputs of both sides by name, each with its bits; and what is compared, a name with nets and rows for each side."""
    agree_ports(given, made)
    ins = {f"in:{name}": ([bit], [made.ports[name][1]]) for name, bit in given.side("input")}
    outs = [(f"out:{name}", ([bit], ["1"]), ([made.ports[name][1]], ["1"])) for name, bit in given.side("output")]
    ties, pairs = [], partners(given, made)
    alone = [register for register, partner in pairs if partner is None]
    settled = steady(given, [register for register in alone if tie_of(register) == "x" and register.start == "x"], refused)
    for register, partner in pairs:
        name = register.name()
        if partner is not None:
            agree(register, partner)
            ins.setdefault(f"register:{partner.name()}", ([], [partner.q]))[0].append(register.q)
            outs += [(f"{port}:{name}", mine, theirs) for (port, *mine), (_, *theirs)
                     in zip(sorted(reads(register)), sorted(reads(partner)))]
            continue
        tie = settled.get(register.q, tie_of(register))
        if tie == "x":
            ins[f"register:{name}"] = ([register.q], [])
            continue
        ties.append((register.q, tie))
        outs += [(f"{port}:{name}", ([register.pins[port]], ["1"]), ([tie], ["1"])) for port in ("D", "AD") if port in register.pins]
    return ins, outs, ties, {register.name(): settled[register.q] for register, _ in pairs if register.q in settled}


def compare(top, given_path, made_path, folder, refused=()):
    """Reads two flat netlists of single-bit cells, as Yosys's write_json writes them, and writes FOLDER/given.blif and
    FOLDER/made.blif. Gives how many registers there are, in how many places the first may have an x, which the second may
    turn into anything, and which registers were taken for a value that they keep, by trial."""
    given, made = Module(given_path, top), Module(made_path, top)
    ins, outs, ties, settled = plan(given, made, refused)
    first = Logic(given, "g", [(name, bit) for name, (bits, _) in ins.items() for bit in bits] + ties_as_nets(ties))
    second = Logic(made, "m", [(name, bit) for name, (_, bits) in ins.items() for bit in bits])
    if second.unknown:
        raise Differ("the netlist has a net without a driver")
    theirs = list(second.nodes)
    for name, mine, other in outs:
        second.node(other[0], name, None, other[1])
    wanted = []
    for name, mine, other in outs:
        if first.unknown.intersection(mine[0]):
            wanted.append((name, other))
            first.node(mine[0], f"value:{name}", f"unknown:{name}", mine[1])
        else:
            first.node(mine[0], name, None, mine[1])
    if wanted:
        first.nodes += theirs
        for name, other in wanted:
            second.add([second.net(bit) for bit in other[0]], f"made:{name}", other[1])
            first.nodes += second.nodes[-1 - len(other[1]):]
            first.add([f"value:{name}", f"unknown:{name}", f"made:{name}"], name, ["10-", "-11"])
    header = [".model compared", ".inputs " + " ".join(ins), ".outputs " + " ".join(name for name, _, _ in outs)]
    for logic, path in ((first, "given.blif"), (second, "made.blif")):
        with open(f"{folder}/{path}", "w", encoding="utf-8") as file:
            file.write("\n".join(header + logic.nodes + [".end", ""]))
    return len(given.registers), len(wanted), settled


def ties_as_nets(ties):
    """Registers that keep a value are read as that constant."""
    return [(f"g{value}", bit) for bit, value in ties]
