"""Networks of AIGER's text format (.aag) as BLIF."""
import itertools

from .script import Fault

KINDS = "iloab"


class Aiger:
    """A file: literals of inputs, latches (with what each reads, and its first value), outputs and gates, and names by their symbols.
    Bad states count as outputs."""

    def __init__(self, path):
        with open(path, encoding="latin-1") as file:
            self.lines = file.read().split("\n")
        self.path, self.place, self.names = path, 0, {}
        head = self.words()
        if head[:1] != ["aag"] or not 6 <= len(head) <= 10 or not all(word.isdecimal() for word in head[1:]):
            raise self.fault("no line 'aag M I L O A' of AIGER's text format")
        most, inputs, latches, outputs, gates, bad, *others = [int(word) for word in head[1:] + ["0"] * (10 - len(head))]
        if any(others):
            raise self.fault("constraints, justice and fairness are properties, and no part of a network")
        self.most = 2 * most + 1
        self.inputs = [self.literals(1)[0] for _ in range(inputs)]
        self.latches = [self.latch() for _ in range(latches)]
        self.outputs = [self.literals(1)[0] for _ in range(outputs + bad)]
        self.kinds = "o" * outputs + "b" * bad
        self.gates = [self.literals(3) for _ in range(gates)]
        self.driven()
        self.symbols()

    def fault(self, text):
        return Fault(f"{self.path}: line {self.place}: {text}")

    def words(self):
        self.place += 1
        return self.lines[self.place - 1].split() if self.place <= len(self.lines) else []

    def literals(self, count, more=0):
        words = self.words()
        if not count <= len(words) <= count + more or not all(word.isdecimal() and int(word) <= self.most for word in words):
            raise self.fault(f"{count} literals of at most {self.most} expected")
        return [int(word) for word in words]

    def latch(self):
        own, reads, *first = self.literals(2, 1)
        if first not in ([], [0], [1], [own]):
            raise self.fault("a latch begins with 0, 1 or its own literal")
        return own, reads, "3" if first == [own] else str((first or [0])[0])

    def driven(self):
        """Each variable that is read has one driver."""
        drivers = self.inputs + [latch[0] for latch in self.latches] + [gate[0] for gate in self.gates]
        read = self.outputs + [latch[1] for latch in self.latches] + [one for gate in self.gates for one in gate[1:]]
        if any(one % 2 or one < 2 for one in drivers) or len(set(drivers)) < len(drivers):
            raise self.fault("an input, a latch or a gate has an odd literal, or one that another has")
        missing = sorted({one // 2 for one in read} - {one // 2 for one in drivers} - {0})
        if missing:
            raise self.fault(f"nothing drives variable {missing[0]}")

    def symbols(self):
        """The names that BLIF can have."""
        while self.place < len(self.lines):
            line = self.lines[self.place]
            self.place += 1
            if line.strip() == "c":
                return
            sign, _, name = line.partition(" ")
            if name and name.isprintable() and not set(name) & set(" #\\=\"") and sign[:1] in KINDS and sign[1:].isdecimal():
                self.names[sign[0], int(sign[1:])] = name


class Nets:
    """The names of a network's nets, each once."""

    def __init__(self, found):
        self.found, self.used = found, {}

    def fresh(self, wanted, literal=None):
        """The wanted name, or with a number after it if another net has it."""
        names = itertools.chain([wanted], (f"{wanted}_{k}" for k in itertools.count(2)))
        name = next(one for one in names if one not in self.used or literal is not None and self.used[one] == literal)
        self.used.setdefault(name, literal)
        return name

    def of(self, kind, place, literal):
        return self.fresh(self.found.names.get((kind, place), f"{kind}{place}"), literal)


def blif_of(path):
    """A file of AIGER's text format as BLIF: a net for each variable, and for each output that is not the net of its name."""
    found = Aiger(path)
    nets = Nets(found)
    net = {one: nets.of("i", place, one) for place, one in enumerate(found.inputs)}
    net.update({latch[0]: nets.of("l", place, latch[0]) for place, latch in enumerate(found.latches)})
    counts = {kind: itertools.count() for kind in KINDS}
    outputs = [(nets.of(kind, next(counts[kind]), one), one) for kind, one in zip(found.kinds, found.outputs)]
    net.update({gate[0]: nets.fresh(f"n{gate[0] // 2}") for gate in found.gates})
    net[0] = nets.fresh("false")
    reads = [(nets.fresh(f"{net[own]}_next"), literal) for own, literal, _ in found.latches]
    lines = [".model aiger", ".inputs " + " ".join(net[one] for one in found.inputs), ".outputs " + " ".join(name for name, _ in outputs)]
    lines += [f".latch {name} {net[own]} {first}" for (name, _), (own, _, first) in zip(reads, found.latches)]
    lines.append(f".names {net[0]}")
    for own, *pair in found.gates:
        lines += [" ".join([".names"] + [net[one - one % 2] for one in pair] + [net[own]]), "".join("10"[one % 2] for one in pair) + " 1"]
    for name, one in outputs + reads:
        if net.get(one) != name:
            lines += [f".names {net[one - one % 2]} {name}", f"{'10'[one % 2]} 1"]
    return "\n".join(lines + [".end"]) + "\n"


def plain(path):
    """The file without names, and with each latch as an input and an output after the others."""
    found = Aiger(path)
    own, reads = [latch[0] for latch in found.latches], [latch[1] for latch in found.latches]
    inputs, outputs = found.inputs + own, found.outputs + reads
    lines = [["aag", found.most // 2, len(inputs), 0, len(outputs), len(found.gates)]]
    lines += [[one] for one in inputs + outputs] + found.gates
    lines += [[f"{kind}{place}", f"{kind}{place}"] for kind, count in (("i", len(inputs)), ("o", len(outputs))) for place in range(count)]
    return "\n".join(" ".join(map(str, line)) for line in lines) + "\n"
