"""A design in Verilog or SystemVerilog: Yosys brings it to single bits, its logic becomes a network of BLIF, and the registers
that a latch of BLIF cannot say stay with Yosys. In the end Yosys puts the netlist in the place of the logic."""
import os
import re

from . import blif, genlib, program, registers, rtlil, runs, timing, yosys
from .proof import Step, same
from .script import Fault

STAY = "$_DFFE_* $_DFF_???_ $_DFFSR* $_SDFF* $_ALDFF* $_DLATCH_???_ $_DLATCHSR* $_SR_*".split()
KNOWN = re.compile(r"[$]_(S|AL)?(DFF|DLATCH|SR)")
EMPTY = ".model lwmap_logic\n.inputs\n.outputs\n.end\n"


class Verilog:
    """A design that Yosys read: its top, the network of its logic in the room, what was noticed, and its steps."""

    kind, file = "Verilog", "design.blif"

    def __init__(self, options, room, limit, told):
        self.options, self.room, self.limit = options, room, limit
        self.notes, self.steps, self.apart = [], [], False
        runs.need("yosys", "berkeley-abc")
        told("Yosys reads the design")
        self.read_plainly()
        told(f"{self.top}: Yosys makes logic and registers")
        self.make_logic()
        self.set_apart()
        self.notice()

    def path(self, file):
        return os.path.join(self.room, file)

    def yosys(self, passes, log):
        return yosys.call(passes, self.room, log, self.limit)

    def given(self, passes=""):
        """The design as Yosys reads it, without any of its optimising passes, as given.json."""
        arst = "proc_clean; proc_rmdead; proc_prune; proc_init; proc_arst"
        return self.yosys(f"{yosys.reading(self.options)}; {arst}; write_rtlil {self.path('arst.il')}; proc; "
                          f"write_rtlil {self.path('proc.il')}; flatten; design -save plain; tribuf; "
                          f"tee -q -o {self.path('tristate.txt')} select -list t:$tribuf; design -load plain; {passes} "
                          f"memory -nordff -nomap; opt_clean; memory_map; techmap; {yosys.FINE} {self.path('given.json')}", "given.log")

    def read_plainly(self):
        """Reads the design, and refuses what would be read as something else."""
        try:
            log = self.given()
        except Fault as fault:
            missing = re.search(r"Module `?\\?(\S+?)'? not found", str(fault))
            raise Fault(f"there is no module {missing[1]}; the files have {self.modules()}" if missing and missing[1] == self.options.top
                        else str(fault)) from None
        self.top = yosys.top_of(self.path("proc.il"))
        if not re.fullmatch(r"[A-Za-z_][A-Za-z0-9_]*", self.top):
            raise Fault(f"the top's name {self.top} has other signs than letters, digits and _")
        if "Complex async reset" in log:
            wrong = rtlil.sets_before_resets(yosys.read(self.path("arst.il")))
            if wrong:
                raise Fault(f"register {', '.join(wrong)} has an asynchronous set that comes before its reset, which Yosys reads the other way "
                            "round; write the reset first, if (reset) .. else if (set) .., or make one of them wait for the clock")
        drivers = yosys.read(self.path("tristate.txt")).split()
        ports = rtlil.declarations(self.path("proc.il"), self.top)
        inouts = [name for name, (_, way, _) in ports.items() if way == "inout"]
        if inouts:
            raise Fault(f"port {', '.join(inouts)} is an inout; give the value, its enable and what is read ports of their own")
        if drivers:
            raise Fault(f"{self.top} has {len(drivers)} three-state driver{'s' * (len(drivers) > 1)} (a value z, or bufif and the like), which "
                        "would become a wire; give value and enable ports of their own, and drive the bus outside")
        if not any(way == "output" for _, way, _ in ports.values()):
            raise Fault(f"module {self.top} has no outputs, so there is nothing to map; -t names another one")

    def modules(self):
        names = [name for file in self.options.files for name in re.findall(r"^\s*module\s+(\w+)", yosys.read(file), re.M)]
        return ", ".join(dict.fromkeys(names)) or "no module"

    def make_logic(self):
        """Yosys makes logic and registers of single bits. What nothing drives, and every x, becomes 0. Registers keep their
        names: no state machine is given another code, and no register is drawn into a memory. A reset that waits for the
        clock becomes logic."""
        bits, fine = self.path("bits.il"), self.path("fine.json")
        log = self.yosys(f"{yosys.reading(self.options)}; synth -flatten -nofsm -nordff -noabc; setundef -undriven -zero; opt -full; simplemap; "
                         f"dffunmap -srst-only; opt_clean; check -assert; write_rtlil {self.path('yosys.il')}; opt_clean -purge; "
                         f"splitnets -ports; opt_clean -purge; write_rtlil {bits}; write_blif {self.path(self.file)}; design -reset; "
                         f"read_rtlil {self.path('yosys.il')}; {yosys.FINE} {fine}", "synth.log")
        self.notes += [f"Yosys: {line}" for line in yosys.warnings(log)]
        self.parts = {words[1] for words in blif.lines(self.path(self.file)) if words[0] in (".subckt", ".gate")}
        others = sorted(part for part in self.parts if not KNOWN.match(part))
        if others:
            raise Fault(f"these parts are neither logic nor registers: {' '.join(others)}; give the Verilog of their modules too, or use "
                        "tools/yosys-lwmap in Yosys, which maps the logic around them")

    def set_apart(self):
        """Where registers stay in Yosys, the rest becomes the module lwmap_logic, which is mapped in the place of the top."""
        if not self.parts:
            return
        self.apart = True
        selection = f"{self.top}/t:*" + "".join(f" {self.top}/t:{kind} %d" for kind in STAY)
        bits = self.path("bits.il")
        self.yosys(f"read_rtlil {bits}; splitnets; submod -name lwmap_logic {selection}; write_rtlil {bits}", "submod.log")
        # (submod leaves an unknown initial value at the nets that leave the part, which would hide the known one of a latch in it)
        text = re.sub(r"^ *attribute .init 1'x\n", "", yosys.read(bits), flags=re.M)
        with open(bits, "w", encoding="utf-8") as out:
            out.write(text)
        if re.search(r"^module \\lwmap_logic$", text, re.M):
            self.yosys(f"read_rtlil {bits}; hierarchy -top lwmap_logic; opt_clean -purge; write_blif {self.path(self.file)}", "logic.log")
        else:
            with open(self.path(self.file), "w", encoding="utf-8") as out:
                out.write(EMPTY)

    def notice(self):
        """Says what a user has to know of the registers."""
        found = registers.Module(self.path("fine.json"), self.top).registers
        self.registers = found
        levels = [one.name() for one in found if one.kind.startswith(("DLATCH", "SR"))]
        if levels:
            self.notes.append(f"LEVEL-SENSITIVE LATCHES: {', '.join(levels[:8])}{' ..' * (len(levels) > 8)}; a register that is not "
                              "given a value in each branch becomes one")
        free = [one.name() for one in found if one.start == "x" and not {"R", "S"} & set(one.pins)]
        if free:
            self.notes.append(f"{len(free)} of {len(found)} registers have neither an initial value nor an asynchronous reset "
                              f"({', '.join(free[:3])}{' ..' * (len(free) > 3)}); a simulation of the netlist at x may stay there: begin it with registers at 0")

    # Steps

    def whole(self, log, file, logic):
        """The design in single bits with some BLIF in the place of its logic, as FILE of JSON."""
        passes = f"read_rtlil {self.path('bits.il')}; delete lwmap_logic; read_blif {self.path(logic)}" if self.apart and self.has_logic() else (
            f"read_rtlil {self.path('bits.il')}" if self.apart else f"read_blif {self.path(logic)}")
        self.yosys(f"{passes}; hierarchy -check -top {self.top}; flatten; {yosys.FINE} {self.path(file)}", log)

    def has_logic(self):
        return re.search(r"^module \\lwmap_logic$", yosys.read(self.path("bits.il")), re.M) is not None

    def same(self, what, one, other, limit):
        """A step: whether two files of JSON have the same registers and the same logic."""
        return same(self.room, self.top, what, (one, other), limit)

    def prove_reading(self, limit):
        """The steps from the Verilog to the network."""
        what = "Verilog to logic"
        step = self.same(what, "given.json", "fine.json", limit)
        if step.verdict == "undecided" and "no end" in step.why:
            self.given("alumacc;")
            step = self.same(what + ", sums and products as Yosys's alumacc builds them", "given.json", "fine.json", limit)
        if step.verdict == "different":
            step = self.excuse(step)
        self.whole("bits.log", "bits.json", self.file)
        self.steps = [step, self.same("logic to network", "fine.json", "bits.json", limit)]
        return self.steps

    def excuse(self, step):
        """Where the Verilog leaves something to the tool, what differs may be that: it is not decided then."""
        text = "\n".join(yosys.read(file) for file in self.options.files)
        free = re.search(r"\b(parallel_case|full_case|unique0?\s+(?:case|if)|priority\s+(?:case|if))\b", text)
        if free:
            return Step(step.what, "undecided", f"{step.why}: the Verilog says {free[1]}, so states that it rules out may differ; without that "
                        "word the design can be compared")
        return step

    # The netlist as Verilog

    def write(self, netlist, cells, made, limit):
        """Writes the netlist, a file of .gate lines, as the module of the top, and gives the steps that confirm it. The cells
        are those that it may have; their modules are in cells.v."""
        whole, mapped = self.path("whole.il"), self.path("mapped.il")
        if not self.apart and not blif.ports_of(self.path(netlist)).latches and self.by_lwmap(netlist, cells, made):
            self.notes.append("mapped.v by lwmap")
        else:
            place = f"read_blif {self.path(netlist)}"
            if self.apart:
                place = f"read_rtlil {self.path('bits.il')}" + (f"; delete lwmap_logic; {place}" if self.has_logic() else "")
            self.yosys(f"read_verilog -lib {self.path('cells.v')}; {place}; hierarchy -check -top {self.top}; flatten; opt_clean; write_rtlil {whole}",
                       "whole.log")
            with open(mapped, "w", encoding="utf-8") as out:
                out.write(rtlil.ports(self.path("yosys.il"), whole, self.top))
            # (this Yosys would write the registers of a port that counts its bits the other way round in the wrong order)
            tidy = "" if re.search(r"^ *wire .*upto", yosys.read(self.path("yosys.il")), re.M) else "opt_clean; "
            self.yosys(f"read_verilog -lib {self.path('cells.v')}; read_rtlil {mapped}; hierarchy -check -top {self.top}; {tidy}"
                       f"write_verilog -noattr {self.path(made)}", "netlist.log")
        return [self.confirm(netlist, cells, made, limit)]

    def by_lwmap(self, netlist, cells, made):
        """Whether lwmap wrote the Verilog: one port for each bit, with a module of the design's ports around it."""
        with open(self.path("cells.genlib"), "w", encoding="latin-1") as out:
            out.write(genlib.flat(cells))
        lines = [[".model", f"lwmap_{self.top}"] if words[0] == ".model" else words for words in blif.lines(self.path(netlist))]
        with open(self.path("named.blif"), "w", encoding="latin-1") as out:
            out.write(blif.text([words for words in lines if words != [".end"]]))
        ended = runs.run([program.path(), "verilog", "cells.genlib", "named.blif"], self.path("verilog.log"), cwd=self.room, limit=self.limit,
                         out=self.path(made))
        if ended.status == 0:
            with open(self.path(made), "a", encoding="utf-8") as out:
                out.write(rtlil.shell(self.path("yosys.il"), self.top, f"lwmap_{self.top}"))
        return ended.status == 0

    def confirm(self, netlist, cells, made, limit):
        """The step from the netlist to its Verilog."""
        with open(self.path("plain.netlist.blif"), "w", encoding="latin-1") as out:
            model = " ".join(blif.need_model(self.path(netlist)))
            out.write(timing.unmap(cells, self.path(netlist)).replace(".model unmapped", model, 1))
        self.whole("plain.log", "plain.json", "plain.netlist.blif")
        self.yosys(f"read_verilog {self.path('cells.v')} {self.path(made)}; hierarchy -check -top {self.top}; proc; flatten; "
                   f"{yosys.FINE} {self.path('made.json')}", "made.log")
        return self.same(f"netlist to {made}", "plain.json", "made.json", limit)
