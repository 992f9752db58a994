"""A design that is a network: BLIF as people have it, AIGER, and what ABC reads by its ending."""
import os
import re
import shutil

from . import abc, aiger, blif, genlib, program, runs, search, timing, yosys
from .proof import Step, same
from .script import Fault

BY_ABC = (".aig", ".pla", ".bench", ".eqn", ".baf", ".truth")
IDLE = (".cname", ".attr", ".param", ".area", ".delay", ".wire_load_slope", ".input_drive", ".output_load", ".default_input_drive",
        ".default_output_load", ".default_max_input_load", ".max_input_load", ".input_required", ".output_required",
        ".default_output_required", ".default_input_required", ".clock_event", ".cycle", ".search")
CONSTANTS = {"$true": "1", "$false": "0", "$undef": "0"}


class Network:
    """A network that lwmap reads: its file in the room, what was noticed, and its steps."""

    kind, file = "network", "design.blif"

    def __init__(self, options, room, limit, library, told):
        self.options, self.room, self.limit, self.library = options, room, limit, library
        self.notes, self.steps, self.apart, self.renamed = [], [], False, False
        if len(options.files) != 1:
            raise Fault("a design of BLIF or AIGER is one file")
        self.given = options.files[0]
        if not os.path.getsize(self.given):
            raise Fault(f"{self.given} is empty")
        told("the design is read")
        ending = os.path.splitext(self.given)[1].lower()
        if ending in BY_ABC:
            self.by_abc(ending)
        elif ending == ".aag":
            self.by_aiger()
        else:
            self.by_lwmap()
        self.canonical()

    def path(self, file):
        return os.path.join(self.room, file)

    def refused(self, file):
        """Why lwmap does not read a file, or None."""
        with open(self.path("vectors"), "w", encoding="ascii"):
            pass
        ended = runs.run([program.path(), "sim", file, "vectors"], self.path("read.log"), cwd=self.room, limit=self.limit)
        return runs.tail(ended.log).removeprefix("lwmap: ") if ended.status else None

    # Other readers

    def by_abc(self, ending):
        runs.need("berkeley-abc")
        shutil.copyfile(self.given, self.path("given" + ending))
        abc.call(f"read given{ending}; write_blif read.blif", self.room, "read_abc.log", self.limit)
        if not abc.whole(self.path("read.blif")):
            raise Fault(f"{self.given}: ABC does not read it: {runs.tail(self.path('read_abc.log')) or 'no reason is given'}")
        verdict = abc.cec("given" + ending, "read.blif", self.room, "read_cec.log", self.limit)
        self.steps.append(Step("file to network, as ABC reads it, by cec", *verdict))
        self.notes.append("read by ABC")
        self.renamed = True

    def by_aiger(self):
        """AIGER's text format. Yosys reads it too, with each latch as an input and an output, so that neither reader is trusted alone."""
        for file, text in (("read.blif", aiger.blif_of(self.given)), ("plain.aag", aiger.plain(self.given))):
            with open(self.path(file), "w", encoding="latin-1") as out:
                out.write(text)
        self.renamed = True
        what = "file to network, beside Yosys's reading of it, by cec"
        if not runs.has("yosys"):
            self.steps.append(Step(what, "undecided", "there is no yosys; apt-get install yosys"))
            return
        yosys.call(f"read_aiger {self.path('plain.aag')}; opt_clean; write_blif {self.path('theirs.blif')}", self.room, "read_yosys.log", self.limit)
        with open(self.path("ours.blif"), "w", encoding="latin-1") as out:
            out.write(blif.numbered(self.path("read.blif")))
        self.steps.append(Step(what, *abc.cec("ours.blif", "theirs.blif", self.room, "read_cec.log", self.limit)))

    def by_yosys(self, file):
        """Models in models, by Yosys."""
        runs.need("yosys")
        shutil.copyfile(file, self.path("given.blif"))
        yosys.call(f"read_blif {self.path('given.blif')}; hierarchy -check -auto-top; flatten; simplemap; opt_clean -purge; splitnets -ports; "
                   f"write_blif {self.path('read.blif')}", self.room, "read_yosys.log", self.limit)

    def by_lwmap(self):
        """BLIF as it is if lwmap reads it, else rewritten; models in models go through Yosys."""
        shutil.copyfile(self.given, self.path("read.blif"))
        if not blif.first_word(self.given, (".model", "\xef\xbb\xbf.model", ".inputs", ".outputs", ".names")):
            raise Fault(f"{self.given} is no BLIF: it has no .model, .inputs or .names; Verilog ends in .v or .sv, AIGER in .aig or .aag")
        why = self.refused("read.blif")
        if why is None:
            return
        if why.endswith(f"more than {search.SIGNALS} signals"):
            raise Fault(f"{self.given}: {search.TOO_LARGE}")
        changes = rewrite(self.given, self.path("rewritten.blif"), self.library.cells)
        if blif.first_word(self.path("rewritten.blif"), (".subckt",)):
            self.by_yosys(self.path("rewritten.blif"))
            changes.append("models in models by Yosys")
            verdict = abc.cec("given.blif", "read.blif", self.room, "read_cec.log", self.limit)
            self.steps.append(Step("models in models to network, by Yosys and cec", *verdict))
        else:
            shutil.copyfile(self.path("rewritten.blif"), self.path("read.blif"))
        self.notes.append(f"lwmap does not read it as it stands ({why.replace('read.blif', self.given)}); rewritten: {', '.join(changes) or 'nothing'}")
        why = self.refused("read.blif")
        if why is not None:
            raise Fault(why.replace("read.blif", self.given))

    def canonical(self):
        """The first model alone, up to its don't cares, each node with a row where it has fan-ins; ABC wants that."""
        lines, waits = [], None
        for words in blif.lines(self.path("read.blif")):
            if words[0] in (".end", ".exdc"):
                break
            if words[0].startswith(".") and waits:
                lines.append(["-" * (len(waits) - 2), "0"])
            waits = words if words[0] == ".names" and len(words) > 2 else None
            lines.append(words)
        if waits:
            lines.append(["-" * (len(waits) - 2), "0"])
        stem = re.sub(r"\W", "_", os.path.splitext(os.path.basename(self.given))[0])
        if self.renamed or not any(words[0] == ".model" for words in lines):
            lines = [[".model", stem]] + [words for words in lines if words[0] != ".model"]
        with open(self.path(self.file), "w", encoding="latin-1") as out:
            out.write(blif.text(lines))
        ports = blif.ports_of(self.path(self.file))
        if not ports.outputs and not ports.latches:
            raise Fault(f"{self.given} has no outputs, so there is nothing to map")
        self.top = (ports.model + ["unnamed"])[1]
        self.registers = ports.latches
        free = [latch for latch in ports.latches if latch[-1] not in ("0", "1")]
        if free:
            self.notes.append(f"{len(free)} of {len(ports.latches)} latches have no initial value")

    def prove_reading(self, limit):
        return self.steps

    # The netlist as Verilog

    def write(self, netlist, cells, made, limit):
        """Writes the netlist, a file of .gate lines, as Verilog; gives the steps that confirm it."""
        with open(self.path("cells.genlib"), "w", encoding="latin-1") as out:
            out.write(genlib.flat(cells))
        ended = runs.run([program.path(), "verilog", "cells.genlib", netlist], self.path("verilog.log"), cwd=self.room, limit=limit,
                         out=self.path(made))
        if ended.status == 0:
            self.notes.append(f"{made} by lwmap")
            return [Step(f"netlist to {made}, by the theorem of lwmap verilog", "equal", "")]
        os.remove(self.path(made))
        why = runs.tail(ended.log).removeprefix("lwmap: no verilog: ")
        if not runs.has("yosys"):
            self.notes.append(f"no {made}: {why}; with Yosys (apt-get install yosys) there would be one")
            return []
        if any(len(latch) < 5 or latch[4] == "NIL" for latch in self.registers):
            self.notes.append(f"no {made}: a latch of the design names no clock")
            return []
        bare = self.bare("netlist.bare.blif", blif.lines(self.path(netlist)))
        with open(self.path("unmapped.blif"), "w", encoding="latin-1") as out:
            out.write(timing.unmap(cells, self.path(netlist)).replace(".model unmapped", f".model {self.top}", 1))
        plain = self.bare("netlist.plain.blif", blif.lines(self.path("unmapped.blif")))
        yosys.call(f"read_verilog -lib {self.path('cells.v')}; read_blif {bare}; hierarchy -check -top {self.top}; "
                   f"write_verilog -noattr {self.path(made)}", self.room, "netlist.log", limit)
        self.notes.append(f"{made} by Yosys")
        for reader, json, log in ((f"read_blif {plain}", "plain.json", "plain.log"),
                                  (f"read_verilog {self.path('cells.v')} {self.path(made)}", "made.json", "made.log")):
            yosys.call(f"{reader}; hierarchy -check -top {self.top}; proc; flatten; {yosys.FINE} {self.path(json)}", self.room, log, limit)
        return [same(self.room, self.top, f"netlist to {made}", ("plain.json", "made.json"), limit)]

    def bare(self, file, lines):
        """A netlist without arrivals, which Yosys does not read."""
        with open(self.path(file), "w", encoding="latin-1") as out:
            out.write(blif.text([words for words in lines if words[0] not in (".input_arrival", ".default_input_arrival", ".end")]))
        return self.path(file)


def rewrite(path, made, cells):
    """Writes a file of BLIF without what lwmap does not know; gives what was changed, a phrase each."""
    changes, lines, driven, read = {}, [], set(), set()
    with open(path, "rb") as file:
        if file.read(3) == b"\xef\xbb\xbf":
            changes["the byte order mark left out"] = None
    for words in blif.lines(path):
        words[0] = words[0].removeprefix("\xef\xbb\xbf")
        for one in rewritten(words, cells, changes):
            if one[0] == ".names":
                driven.add(one[-1])
                read.update(one[1:-1])
            elif one[0] == ".inputs":
                driven.update(one[1:])
            elif one[0] == ".latch":
                driven.add(one[2])
                read.add(one[1])
            elif one[0] == ".outputs":
                read.update(one[1:])
            elif one[0] == ".subckt":
                read.update(word.split("=", 1)[-1] for word in one[2:])
            lines.append(one)
    constants = [name for name in CONSTANTS if name in read and name not in driven]
    if constants:
        changes[f"{' '.join(constants)} as constants"] = None
    place = next((k for k, words in enumerate(lines) if words[0] in (".end", ".exdc")), len(lines))
    for name in constants:
        lines[place:place] = [[".names", name]] + ([["1"]] if CONSTANTS[name] == "1" else [])
    with open(made, "w", encoding="latin-1") as out:
        out.write("".join(" ".join(words) + "\n" for words in lines))
    return list(changes)


def rewritten(words, cells, changes):
    """The lines in the place of one."""
    if words[0] in IDLE:
        changes[f"{words[0]} left out"] = None
        return []
    if words[0] == ".clock":
        changes[".clock as .inputs"] = None
        return [[".inputs"] + words[1:]]
    if words[0] in (".conn", ".barbuf"):
        changes[f"{words[0]} as a wire"] = None
        return [[".names", words[1], words[2]], ["1", "1"]]
    if words[0] == ".gate":
        if len(words) > 1 and words[1] not in cells:
            raise Fault(f".gate {words[1]}: the library has no such cell, so its function is not known; map with the library of the netlist")
        net, (cell, fan) = timing.gate_of(words, cells)
        changes[".gate as the function of its cell"] = None
        rows = timing.rows_of(genlib.truth(cell.funs[0], cell.pins, cell.name), len(cell.pins))
        return [[".names"] + fan + [net]] + [row.split() for row in rows]
    return [words]
