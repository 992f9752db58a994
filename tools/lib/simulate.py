"""Simulation of a design in Verilog beside its netlist, by Icarus Verilog, on random values: Icarus is the one reader of the
Verilog that is not Yosys.

A register with both a set and a reset that do not wait for the clock, or with an asynchronous load, follows levels in a netlist,
and only edges in Verilog; where there is one, the sides are compared after both edges of each clock alone.

Both sides begin with equal registers: known first values as they are, all others at 0, or at what the netlist has made of
them. Inputs change one at a time where an edge may hang on them, so that no order of events is a matter of chance. A bit counts
where both sides know it.
"""
import json
import os
import re

from . import registers, rtlil, runs, yosys
from .proof import Step
from .script import Fault

SLOW = re.compile(r"(?i)(^|_)n?(a|s)?(rst|reset|clr|clear|res|init|por)(_?n|_?i|_?b)?($|_)")
PLAIN = re.compile(r"[A-Za-z_]\w*(\[\d+\])*")
MADE = "lwflow_netlist"


def beside(design, vectors, limit):
    """A step, or None, and a note."""
    folder = design.path("simulation")
    os.makedirs(folder, exist_ok=True)
    try:
        return Bench(design, vectors, folder, limit).run()
    except Fault as fault:
        return None, f"not simulated: {fault}"


class Bench:
    """A test bench around the design and its netlist."""

    def __init__(self, design, vectors, folder, limit):
        self.design, self.vectors, self.folder, self.limit = design, vectors, folder, min(limit, 60)
        self.given = registers.Module(design.path("given.json"), design.top)
        self.made = registers.Module(design.path("made.json"), design.top)
        self.ports = {name: (way, len(indices)) for name, (_, way, indices) in rtlil.declarations(design.path("proc.il"), design.top).items()}
        self.starts = self.first_values()
        self.loose = any("S" in one.pins and "R" in one.pins or "L" in one.pins for one in self.given.registers)
        self.edges, self.levels = self.reaching(("C", "E")), self.reaching(("R", "S", "L"))

    def first_values(self):
        """For each register of the design its names and the value that it begins with, or None."""
        pairs = registers.partners(self.given, self.made)
        settled, found = {}, []
        for files in ("given.json.fine.json", "given.json.made.json"):
            path = self.design.path(f"compare.{files}/settled.json")
            if os.path.exists(path):
                settled.update(json.loads(yosys.read(path)))
        for one, partner in pairs:
            value = partner.start if partner else settled.get(one.name(), registers.tie_of(one))
            value = "0" if value == "x" and partner else value
            found.append((one.names, value))
        return found

    def reaching(self, pins):
        """The input ports that reach some pins of registers through logic."""
        drivers = {out: ins for ins, out, _ in self.made.logic}
        stack = [one.pins[pin] for one in self.made.registers for pin in pins if pin in one.pins]
        seen = set()
        while stack:
            net = stack.pop()
            if net not in seen:
                seen.add(net)
                stack += drivers.get(net, [])
        return {re.sub(r"\[-?\d+\]$", "", name) if name not in self.ports else name for name, bit in self.made.side("input") if bit in seen}

    # Text

    def text(self, deposits):
        ins = [(name, width) for name, (way, width) in self.ports.items() if way == "input"]
        outs = [(name, width) for name, (way, width) in self.ports.items() if way == "output"]
        lines = [f"reg [{width - 1}:0] \\{name} ;" for name, width in ins]
        lines += [f"wire [{width - 1}:0] \\g.{name} , \\m.{name} ;" for name, width in outs]
        lines.append("integer turn, at, same, open, kept;")
        values = ", ".join(f".{name}({value})" for name, value in self.design.options.parameters)
        for module, side in ((self.design.top + (f" #({values})" if values else ""), "g"), (MADE, "m")):
            ties = [f".\\{name} (\\{name} )" for name, _ in ins] + [f".\\{name} (\\{side}.{name} )" for name, _ in outs]
            lines.append(f"{module} {side}_side ({', '.join(ties)});")
        lines += ["task look; begin"] + [line for name, width in outs for line in self.look(name, width)] + ["end endtask"]
        lines += ["initial begin", "same = 0; open = 0;"] + [f"\\{name} = {{{(width + 31) // 32}{{$random}}}}; #1;" for name, width in ins]
        lines += deposits + ["#1 look;", f"for (turn = 0; turn < {self.vectors}; turn = turn + 1) begin"]
        ins.sort(key=lambda pair: pair[0] in self.edges)
        lines += [line for name, width in ins for line in self.change(name, width)]
        lines += ["#1 look;", "end", '$display("SAME %0d OPEN %0d", same, open); $finish; end']
        return "module lwflow_bench;\n" + "\n".join(lines) + "\nendmodule\n"

    def look(self, name, width):
        return [f"if ((|(\\g.{name} ^ \\m.{name} )) === 1'b1) begin "
                f'$display("DIFFER step %0d output {name}: the Verilog %b, the netlist %b", turn, \\g.{name} , \\m.{name} ); $finish; end',
                f"for (at = 0; at < {width}; at = at + 1) if ((\\g.{name} [at] ^ \\m.{name} [at]) === 1'b0) same = same + 1; "
                f"else if ((\\g.{name} [at] ^ \\g.{name} [at]) === 1'b0) open = open + 1;"]

    def change(self, name, width):
        """How an input changes in a step."""
        careful = name in self.edges or name in self.levels
        odds = 1 if name in self.edges else 16 if name in self.levels or width == 1 and SLOW.search(name) else 2
        if self.loose and careful:
            turns = f"\\{name} [at] = ~\\{name} [at]; #1; " * (2 if name in self.edges else 1)
            return [f"for (at = 0; at < {width}; at = at + 1) if ($unsigned($random) % {odds} == 0) begin {turns}end"]
        if careful:
            return [f"for (at = 0; at < {width}; at = at + 1) if ($unsigned($random) % {max(odds, 2)} == 0) begin kept = at; "
                    f"\\{name} [kept] = ~\\{name} [kept]; #1 look; at = kept; end"]
        if not self.made.registers:
            return [f"\\{name} = {{{(width + 31) // 32}{{$random}}}};"]
        return [f"if ($unsigned($random) % {odds} == 0) begin \\{name} = {{{(width + 31) // 32}{{$random}}}}; #1; end"]

    def deposits(self, skipped):
        """The lines that set the registers of both sides; skipped names are no variables."""
        lines, missing = [], 0
        for names, value in self.starts:
            usable = [path for name in names for path in paths(name) if path not in skipped]
            if value == "x" or not usable:
                missing += 1
                continue
            lines.append(f"g_side.{usable[0]} = 1'b{value}; // {usable[0]}")
        for width, name, value in re.findall(r"^\s*reg (?:\[(\d+:\d+)\] )?(\\\S+ |\w+)(?:\s*=\s*(\d+'\w+))?;", self.netlist(), re.M):
            lines.append(f"m_side.{name} = {value or 0};")
            del width
        return lines, missing

    def netlist(self):
        return yosys.read(self.design.path("mapped.v"))

    # Runs

    def run(self):
        made = os.path.join(self.folder, "made.v")
        with open(made, "w", encoding="utf-8") as out:
            out.write(re.sub(rf"^module \\?{self.design.top}\b", f"module {MADE}", self.netlist(), flags=re.M))
        missing = self.compile(made)
        ended = runs.run(["vvp", "-n", os.path.join(self.folder, "bench.vvp")], os.path.join(self.folder, "vvp.log"), limit=self.limit,
                         out=os.path.join(self.folder, "vvp.out"))
        said = yosys.read(os.path.join(self.folder, "vvp.out"))
        what = f"simulation of Verilog and mapped.v by Icarus Verilog, {self.vectors} random steps"
        differ = re.search(r"DIFFER (.*)", said)
        if differ:
            return Step(what, "undecided" if missing else "different", differ[1] + (
                f"; {missing} registers began at x, which an if of Verilog takes for 0" if missing else "")), "simulated"
        counted = re.search(r"SAME (\d+) OPEN (\d+)", said)
        if not counted:
            raise Fault(f"Icarus Verilog took over {self.limit:.0f} s; --vectors N makes it shorter" if ended.late else
                        "Icarus Verilog came to no end: " + runs.tail(ended.log))
        note = f"simulated: {self.vectors} random steps by Icarus Verilog, {counted[1]} bits compared"
        if int(counted[2]):
            note += f", {counted[2]} known in the Verilog alone"
        if missing:
            note += f"; {missing} registers began at x"
        return (Step(what, "equal", "") if int(counted[1]) else None), note

    def compile(self, made):
        """Compiles the bench; where a name turns out to be no variable, another name of the register is tried. Gives the number
        of registers that begin at x."""
        chosen, skipped = self.design.options, set()
        words = [f"-D{define}" for define in chosen.defines] + [f"-I{folder}" for folder in chosen.includes]
        bench, log = os.path.join(self.folder, "bench.v"), os.path.join(self.folder, "iverilog.log")
        for _ in range(20):
            lines, missing = self.deposits(skipped)
            text = self.text(lines)
            with open(bench, "w", encoding="utf-8") as out:
                out.write(text)
            if os.path.exists(log):
                os.remove(log)
            ended = runs.run(["iverilog", "-g2012", "-s", "lwflow_bench", "-o", os.path.join(self.folder, "bench.vvp"), *words, bench, made,
                              self.design.path("cells.v"), *chosen.files], log, limit=self.limit)
            if ended.status == 0:
                return missing
            wrong = {int(number) for number in re.findall(r"bench\.v:(\d+): ", yosys.read(log))}
            names = {line.split("// ")[1] for k, line in enumerate(text.splitlines(), 1) if k in wrong and "// " in line}
            if not names - skipped:
                break
            skipped |= names
        raise Fault("Icarus Verilog does not read the design: " + (yosys.read(log).strip().splitlines() or ["no reason is given"])[0])


def paths(name):
    """How a variable of a name may be called from outside: each dot may be one of the hierarchy or of an escaped name."""
    name = re.sub(r"%([0-9a-f]{2})", lambda sign: chr(int(sign[1], 16)), name)
    parts = re.split(r"\.(?![^\[]*\])", name)
    found = [name] if all(PLAIN.fullmatch(part) for part in parts) else []
    for count in range(len(parts)):
        if all(PLAIN.fullmatch(part) for part in parts[:count]):
            before, last = "".join(part + "." for part in parts[:count]), ".".join(parts[count:])
            found.append(f"{before}\\{last} ")
            index = re.fullmatch(r"(.*)(\[\d+\])", last)
            found += [f"{before}\\{index[1]} {index[2]}"] if index else []
    return found
