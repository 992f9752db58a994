#!/usr/bin/env python3
"""Compares a netlist of cells with the Verilog that it was made from, registers included.

  equal.py [-t TOP] [-D NAME[=V]].. [-I DIR].. [-P PARAM=V].. FOLDER VERILOG..

FOLDER holds mapped.v, the netlist, and cells.v, the modules of its cells, as lwflow leaves them; the netlist may be another tool's.

Yosys reads both and brings them to cells of single bits. Registers are matched by the names of their nets, and have to be
of the same kind, with the same values at reset and at first. Then all that the registers read (data, clocks, resets) and
all outputs have to be the same functions of inputs and registers, which ABC's cec decides. So the two do the same for
ever, from every state and at each edge. Where the Verilog gives an x the netlist may do anything. Where netlist and Verilog alone
come to no end, what Yosys makes of the Verilog stands between them. Where Icarus Verilog is there, both are simulated too.

Each step is a line. The status is 0 where each was shown, 3 where one was not decided, 4 where there is a difference, and 1 where
nothing could be compared. LIMIT holds the processor seconds that one step may take (60).
"""
import argparse
import os
import shutil
import sys
import tempfile

from lib import runs, script, simulate, verilog, yosys
from lib.report import OF_VERDICTS
from lib.script import Fault


def parsed(words):
    it = argparse.ArgumentParser("equal.py", usage=__doc__.split("\n\n")[1].strip(), add_help=False)
    it.add_argument("-t", dest="top")
    it.add_argument("-D", dest="defines", action="append", default=[])
    it.add_argument("-I", dest="includes", action="append", default=[])
    it.add_argument("-P", dest="parameters", action="append", default=[])
    it.add_argument("folder")
    it.add_argument("files", nargs="+")
    options = it.parse_args(words)
    options.parameters = [tuple(word.split("=", 1)) for word in options.parameters]
    for file in options.files + [os.path.join(options.folder, name) for name in ("mapped.v", "cells.v")]:
        if not os.access(file, os.R_OK):
            raise Fault(f"cannot read {file}")
    return options


def steps(options, room, limit):
    """The steps of the comparison."""
    design = verilog.Verilog(options, room, limit, lambda text: None)
    for name in ("mapped.v", "cells.v"):
        shutil.copyfile(os.path.join(options.folder, name), os.path.join(room, name))
    design.yosys(f"read_verilog {room}/cells.v {room}/mapped.v; hierarchy -check -top {design.top}; proc; flatten; {yosys.FINE} {room}/made.json",
                 "made.log")
    found = [design.same("Verilog and netlist", "given.json", "made.json", limit)]
    if found[0].verdict != "equal":
        found = [design.same("what Yosys makes of the Verilog, and netlist", "fine.json", "made.json", limit),
                 design.excuse(design.same("Verilog, and what Yosys makes of it", "given.json", "fine.json", limit))]
    if runs.has("iverilog") and runs.has("vvp"):
        step, note = simulate.beside(design, 1000, limit)
        print(f"note: {note}")
        found += [step] if step else []
    return found


def main(words):
    if words[:1] in (["-h"], ["--help"]):
        print(__doc__.strip())
        return
    options = parsed(words)
    with tempfile.TemporaryDirectory(prefix="equal.") as room:
        found = steps(options, room, float(os.environ.get("LIMIT", "60")))
    for step in found:
        print(f"{OF_VERDICTS[step.verdict]}: {step.what}" + (f" ({step.why})" if step.why else ""))
    verdicts = {step.verdict for step in found}
    sys.exit(4 if "different" in verdicts else 3 if "undecided" in verdicts else 0)


if __name__ == "__main__":
    script.run("equal", main)
