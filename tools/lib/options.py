"""The command line of lwflow."""
import argparse
import os
import re

from . import genlib, program
from .script import Fault

ABOUT = """From a design to the best netlist of a library's cells that was found, with what was shown of it.

DESIGN is Verilog or SystemVerilog (.v, .sv: several files are one design), BLIF (.blif), AIGER (.aig, .aag), or what ABC
reads by its ending (.pla, .bench, .eqn). '-' is standard input: BLIF or Verilog, by its first words. LIB is a library in
genlib, or in Liberty (.lib).

The best netlist has the smallest delay, and among these the smallest area. With a Liberty library, ABC buffers and sizes each
netlist under its loads, and the delay of the sized one counts; with --no-loads the delays of the cells count.
"""
MORE = """
The folder gets mapped.blif (the mapper's netlist, with its certificate if it has one), mapped.v (that netlist, or with
Liberty the sized one, as Verilog with the design's ports), cells.v (its cells), report.html and report.json (every try, what was
shown, the critical path, arrivals and cells) and log.txt. Files are moved into place at the end; if no netlist was found, nothing
changes.

status  0  a netlist, and every step from the design to it was shown
        1  no netlist: standard error says why
        2  the words are not understood
        3  a netlist, but a step was not decided; the summary names it
        4  a difference was found; the folder gets the report and the log alone
       69  there is no program lwmap
      130  interrupted; nothing was written

what --area asks for
  max    among the netlists of the smallest delay the smallest one (the default)
  each   the netlist of lwmap or lwarea of the smallest delay, in which every output is as early as its networks allow
  N%     the smallest netlist within N percent of the smallest delay, N from 100
  T      the smallest netlist within the delay T, in the library's unit

lwarea gets the design as given, with all networks that ABC made as further choices, which nobody has to trust: its netlists rest on a
proof from the design as given. It gets the deadlines max and 102%, and that of --area. With --effort fast it gets single networks.
Where it is not there, 'lwmap trade' does for N% and T, up to 5,000 nodes and if loads do not count.

example: ./lwflow -l bench/libs/mcnc.genlib examples/verilog/processor.v
         processor.lwflow/report.html says then which try won, by how much, and what was shown
"""


def parser():
    it = argparse.ArgumentParser("lwflow", usage="lwflow -l LIB [options] DESIGN..", description=ABOUT, epilog=MORE, allow_abbrev=False,
                                 formatter_class=argparse.RawDescriptionHelpFormatter)
    it.add_argument("files", metavar="DESIGN", nargs="+", help="the design")
    it.add_argument("-l", "--library", metavar="LIB", required=True, help="the library of cells, genlib or Liberty")
    it.add_argument("-t", "--top", metavar="TOP", help="the module to map (the one that no other one has)")
    it.add_argument("-o", "--output", metavar="FOLDER", help="the folder of the results (./NAME.lwflow, NAME being TOP or the first file's)")
    it.add_argument("--effort", choices=("fast", "normal", "best"), default="normal", help="how long to search (normal)")
    it.add_argument("--area", metavar="each|max|N%|T", default="max", help="what area may cost in delay, below (max)")
    it.add_argument("--no-loads", action="store_true", help="with Liberty: judge by delays of cells, and size nothing")
    it.add_argument("-D", metavar="NAME[=V]", dest="defines", action="append", default=[], help="a define of Verilog")
    it.add_argument("-I", metavar="DIR", dest="includes", action="append", default=[], help="a folder of included files")
    it.add_argument("-P", metavar="PARAM=V", dest="parameters", action="append", default=[], help="a parameter of TOP, which -t names")
    it.add_argument("--vectors", metavar="N", type=int, default=1000, help="steps of the simulation beside Icarus Verilog, 0 for none (1000)")
    it.add_argument("--limit", metavar="SECONDS", type=float, help="processor time that one step may take (by size and effort)")
    it.add_argument("--jobs", metavar="N", type=int, default=os.cpu_count() or 1, help="how many steps at a time (the processors)")
    it.add_argument("--sure", action="store_true", help="keeps the best netlist of which every step was shown")
    it.add_argument("--json", action="store_true", help="prints the report as JSON in place of the table")
    it.add_argument("-q", "--quiet", action="store_true", help="no progress on standard error")
    it.add_argument("--version", action="version", version=version())
    return it


def version():
    """The newest version that the list of changes names."""
    try:
        with open(os.path.join(program.ROOT, "CHANGELOG.md"), encoding="utf-8") as file:
            found = re.search(r"^##\s+\[?v?(\d+\.\d+\.\d+)", file.read(), re.M)
    except OSError:
        found = None
    return "lwflow " + (found[1] if found else "of no known version")


def parse(words):
    """The options; argparse ends with status 2 if the words are not understood."""
    it = parser()
    options = it.parse_args(words)
    options.parameters = [tuple(word.split("=", 1)) for word in options.parameters]
    if any(len(pair) != 2 for pair in options.parameters):
        it.error("-P wants PARAM=V")
    if options.parameters and not options.top:
        it.error("-P wants -t TOP beside it, the module whose parameter it is")
    if options.jobs < 1 or options.vectors < 0 or options.limit is not None and options.limit <= 0:
        it.error("--jobs, --vectors and --limit are numbers above 0 (--vectors may be 0)")
    options.area = area_of(it, options.area)
    if options.top and not re.fullmatch(r"[A-Za-z_][A-Za-z0-9_$]*", options.top):
        it.error(f"{options.top} is no name of a module")
    options.name = options.top or os.path.splitext(os.path.basename(options.files[0]))[0]
    if options.name in ("-", ""):
        options.name = "stdin"
    options.output = options.output or options.name + ".lwflow"
    return options


def area_of(it, word):
    """('max', None), ('each', None), ('percent', millionths of 1) or ('time', millionths)."""
    if word in ("max", "each"):
        return word, None
    try:
        value = genlib.micro(word.removesuffix("%"))
    except Fault:
        it.error(f"--area is each, max, a number of percent as 105%, or a time, not {word}")
    if word.endswith("%"):
        if value < 100 * genlib.UNIT:
            it.error("--area: no netlist is earlier than 100% of the least delay")
        return "percent", value // 100
    return "time", value
