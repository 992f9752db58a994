"""The parts of bench/all.sh besides mapping for delay: deadlines, tables, options, certificates, size, other libraries, loads, texts."""
import math
import os
import re
import subprocess
import sys

from lib import program
from lib.liberty import without
from maps import ROUNDS, SCRIPTS
from measure import ABC, LIMIT, UNMAP, Library, common, counted, head, mean, ratio, row, said, table_size

HERE = os.path.dirname(os.path.realpath(__file__))
ROOT = os.path.dirname(HERE)
HALF = max(1, LIMIT // 2)


# Deadlines

TRADES = {"trade at 1": 100, "at 1.1": 110, "at 1.25": 125, "trade none": None}
AREAS = {"ABC: map": "strash; map", "map -a": "strash; map -a", "amap": "strash; amap", "dch; map": "strash; dch; map"}


def deadline(earliest, part):
    """So many hundredths of a time, rounded up to millionths."""
    return f"{math.ceil(round(earliest * part * 10000, 3)) / 1000000:.6f}".rstrip("0").rstrip(".")


def trade_circuit(room, library, network):
    f = {}
    run, size = room.mapped(library, network, "map")
    if not size:
        return f
    f["map"], f["map area"] = size
    f["map s"] = min(room.timed([room.program, "map", library.path, network]))
    for name, part in TRADES.items():
        run, size = room.mapped(library, network, "trade", "none" if part is None else deadline(f["map"], part))
        if size:
            (f[name], f[name + " area"]), f[name + " s"], f[name + " MB"] = size, run.seconds, run.memory
    for name, script in AREAS.items() if ABC else ():
        _, size = room.mapped_by_abc(library, network, script)
        if size:
            f[name], f[name + " area"] = size
    return f


def trade(room, kept, libraries, circuits):
    """Prints the table, and gives for each library the figures of each circuit."""
    print(f"### Area under a deadline\n\nRatios to `map` of `lwmap`. A run may take {HALF} s.\n")
    room.limit, found = HALF, {}
    for library in libraries:
        figures = found[library.name] = {}
        for circuit, network in circuits.items():
            figures[circuit] = kept.of("trade", library.name, circuit, make=lambda: trade_circuit(room, library, network))
    room.limit = LIMIT
    head("library", "way", "circuits that ended", "delay", "area", "in common", "delay", "area", "time", "greatest MB")
    for library, figures in found.items():
        columns = list(TRADES) + list(AREAS if ABC else ())
        among = common(figures, ["map"] + columns)
        for name in columns:
            delay, number, _ = ratio(figures, name, "map")
            row(library, name, number, delay, ratio(figures, name + " area", "map area", 2)[0], len(among),
                ratio(figures, name, "map", 3, among)[0], ratio(figures, name + " area", "map area", 2, among)[0],
                ratio(figures, name + " s", "map s", 1)[0],
                f"{max((f.get(name + ' MB', 0) for f in figures.values()), default=0):.0f}" if name in TRADES else "-")
    print()
    return found


# Lookup tables

LUTS = {"`if -K 4`": "strash; if -K 4", "`if -K 6`": "strash; if -K 6", "`dch; if -K 6`": "strash; dch; if -K 6",
        "rounds, `if -K 6`": f"{ROUNDS}; if -K 6"}
PAIRS = [("`lut 4`", "`if -K 4`"), ("`lut 6`", "`if -K 6`"), ("`lut 6`", "`dch; if -K 6`"), ("rounds, `lut 6`", "rounds, `if -K 6`")]


def mended(path, made):
    """ABC's reader refuses a node that has fan-ins and no rows, which is a table that is false everywhere. This gives it a row."""
    open_node = 0
    with open(path, encoding="latin-1") as text, open(made, "w", encoding="latin-1") as out:
        for line in text:
            words = line.split()
            if line.startswith(".") and open_node:
                out.write("-" * open_node + " 0\n")
            open_node = len(words) - 2 if words and words[0] == ".names" else 0
            out.write(line)


def lut_circuit(room, network):
    """Depth and tables of each column."""
    f = {"verdicts": []}

    def ours(key, fanins, path):
        run = room.lwmap(["lut", fanins, path], "lut.blif")
        if run.ok():
            f[key], f[key + " tables"] = table_size(run.out)
            mended(run.out, room.path("mended.blif"))
            f["verdicts"].append(room.equivalent(network, room.path("mended.blif")))
    ours("`lut 4`", "4", network)
    ours("`lut 6`", "6", network)
    for name, script in LUTS.items():
        if room.abc(f"read_blif {network}; {script}; write_blif {room.path('abc.blif')}", "abc.blif").ok():
            f[name], f[name + " tables"] = table_size(room.path("abc.blif"))
    front = room.path("front.blif")
    if room.abc(f"read_blif {network}; {ROUNDS}; if -g -K 6; strash; write_blif {front}", "front.blif").ok():
        ours("rounds, `lut 6`", "6", front)
    return f


def luts(room, kept, circuits):
    print("### Lookup tables\n\nDepth and number of tables.\n")
    columns = ["`lut 4`", "`if -K 4`", "`lut 6`", "`if -K 6`", "`dch; if -K 6`", "rounds, `if -K 6`", "rounds, `lut 6`"]
    head("circuit", *columns)
    figures = {}
    for circuit, network in circuits.items():
        f = figures[circuit] = kept.of("lut", circuit, make=lambda: lut_circuit(room, network))
        row(circuit, *[f"{f[name]}, {f[name + ' tables']}" if name in f else "-" for name in columns])
    print()
    head("ratio", "circuits", "depth", "lower/equal/higher", "tables")
    for one, other in PAIRS:
        depth, number, order = ratio(figures, one, other, 2)
        row(f"{one} to {other}", number, depth, order, ratio(figures, one + " tables", other + " tables", 2)[0])
    print(f"\nCompared with the circuits: {counted([one for f in figures.values() for one in f['verdicts']])}.\n")


# Options and certificates

def option_circuit(room, library, network, tried):
    f = {}
    for words in tried:
        run, size = room.mapped(library, network, "map", *words.split())
        if size:
            f[words], f[words + " s"] = size[0], run.seconds
    return f


def options(room, kept, libraries, circuits, title, base, tried):
    """Delay and time of `map` with several options, as ratios to one of them."""
    print(f"### {title}\n\nRatios to `{base}`. A run may take {HALF} s.\n")
    head("library", "options", "circuits that ended", "delay", "lower/equal/higher", "in common", "delay", "time", "greatest s")
    room.limit = HALF
    for library in libraries:
        figures = {}
        for circuit, network in circuits.items():
            figures[circuit] = kept.of(title, library.name, circuit, make=lambda: option_circuit(room, library, network, tried))
        among = common(figures, tried)
        for words in tried:
            delay, number, order = ratio(figures, words, base)
            row(library.name, f"`{words}`", number, delay, order, len(among), ratio(figures, words, base, 3, among)[0],
                ratio(figures, words + " s", base + " s", 2)[0],
                said(max((f[words + " s"] for f in figures.values() if f.get(words)), default=None), 2))
    room.limit = LIMIT
    print()


def certificate_circuit(room, library, network):
    run = room.lwmap(["map", "-c", library.path, network], "mapped.blif")
    if not run.ok():
        return {}
    f = {"yes": room.lwmap(["check", library.path, network, run.out], "answer").ok()}
    f["map s"] = min(room.timed([room.program, "map", "-c", library.path, network]))
    f["check s"] = min(room.timed([room.program, "check", library.path, network, run.out]))
    with open(run.out, encoding="latin-1") as text:
        lines = text.readlines()
    marks = sum(len(line) for line in lines if line.startswith("#@"))
    return {**f, "size": marks / max(sum(map(len, lines)) - marks, 1)}


def certificates(room, kept, libraries, circuits):
    print("### Certificates\n")
    head("library", "circuits that got `yes`", "`check` to `map -c`, time", "greatest ratio", "greatest s of `check`",
         "bytes of certificate to netlist")
    for library in libraries:
        found = [kept.of("certificates", library.name, circuit, make=lambda: certificate_circuit(room, library, network))
                 for circuit, network in circuits.items()]
        found = [f for f in found if f]
        ratios = [f["check s"] / f["map s"] for f in found]
        row(library.name, f"{sum(f['yes'] for f in found)} of {len(circuits)}", said(mean(ratios), 2), said(max(ratios, default=None), 2),
            said(max((f["check s"] for f in found), default=None), 2), said(mean([f["size"] for f in found]), 1))
    print()


# Size

SIZES = [("multiplier of 32 bits", "gen -N 32 -m"), ("multiplier of 64 bits", "gen -N 64 -m"), ("multiplier of 128 bits", "gen -N 128 -m"),
         ("adder of 256 bits", "gen -N 256 -a"), ("adder of 4,096 bits", "gen -N 4096 -a"), ("sorter of 64", "gen -N 64 -s"),
         ("sorter of 256", "gen -N 256 -s")]


def size_circuit(room, library, script):
    """The cells of the row of a circuit."""
    network, nodes = room.generated(script)
    theirs, a = room.mapped_by_abc(library, network, SCRIPTS["map"])
    ours, b = room.mapped(library, network, "map")
    return [f"{nodes:,}", said(theirs.seconds, 2) if a else f"over {room.limit}", f"{theirs.memory:.0f}",
            said(ours.seconds, 2) if b else f"over {room.limit}", f"{ours.memory:.0f}",
            said(b[0] / a[0]) if a and b else "-", said(b[1] / a[1], 2) if a and b else "-"]


def sizes(room, kept, library):
    """Circuits that ABC generates, so that they are the same for everybody."""
    room.limit = 6 * LIMIT
    print(f"### Size, with {library.name}\n\nCircuits of ABC's `gen`, as AIGs. One run each, of at most {room.limit} s.\n")
    head("circuit", "AND nodes", "ABC `map`: s", "MB", "`lwmap`: s", "MB", "delay to ABC", "area to ABC")
    for name, script in SIZES:
        row(name, *kept.of("size", name, make=lambda: size_circuit(room, library, script)))
    room.limit = LIMIT
    print()


# Other libraries

OTHERS = {"GateMate": "/usr/share/yosys/gatemate/lut_tree_cells.genlib"}
KINDS = {"as given": "map", "after three rounds": "three rounds"}


def both_mapped(room, library, network, script):
    """Delay and area of ABC's netlist after a script that ends in 'map', and of ours, of the network as given or of ABC's netlist; our run
    and its network."""
    front = room.path("front.blif")
    _, theirs = room.mapped_by_abc(library, network, script, f"{UNMAP}; write_blif {front}")
    path = network if script == SCRIPTS["map"] else front
    run, ours = room.mapped(library, path, "map")
    return theirs, ours, run, path


def other_circuit(room, library, network, script):
    theirs, ours, *_ = both_mapped(room, library, network, script)
    return {**(dict(zip(("abc", "abc area"), theirs)) if theirs else {}), **(dict(zip(("lwmap", "lwmap area"), ours)) if ours else {})}


def others(room, kept, circuits):
    """Libraries of other projects, where they are installed."""
    print(f"### Other libraries\n\n`lwmap` to ABC's `map` after the same commands. A run may take {HALF} s.\n")
    head("library", "commands", f"circuits of {len(circuits)}", "delay", "lower/equal/higher", "area")
    room.limit = HALF
    for name, path in OTHERS.items():
        if not os.path.exists(path):
            row(name, "not installed", "-", "-", "-", "-")
            continue
        library = Library(room, name, path)
        for kind, commands in KINDS.items():
            figures = {circuit: kept.of("others", name, kind, circuit, make=lambda: other_circuit(room, library, network, SCRIPTS[commands]))
                       for circuit, network in circuits.items()}
            delay, number, order = ratio(figures, "lwmap", "abc")
            row(name, kind, number, delay, order, ratio(figures, "lwmap area", "abc area", 2)[0])
    room.limit = LIMIT
    print()


# Loads

LIBERTY = os.environ.get("LIBERTY", "/usr/share/qflow/tech/osu035/osu035_stdcells.lib")
STEPS = ["raw", "buffered", "sized"]
LOADS = "topo; stime; buffer; topo; stime; upsize; dnsize; stime"


def script_to(path, *words):
    with open(path, "w", encoding="latin-1") as out:
        subprocess.run(words, stdout=out, stderr=subprocess.DEVNULL, check=False)


class Loaded(Library):
    """A library in Liberty, whose netlists ABC times with loads and slews. Pads and buffers for clocks are left out."""

    def __init__(self, room):
        self.room, self.liberty = room, room.path("given.lib")
        with open(LIBERTY, encoding="latin-1") as text, open(self.liberty, "w", encoding="latin-1") as out:
            out.write(without([], text.read())[0])
        script_to(room.path("liberty.genlib"), "sh", os.path.join(ROOT, "tools", "liberty.sh"), LIBERTY)
        super().__init__(room, "liberty", room.path("liberty.genlib"))

    def block(self, path):
        """Delay and area by the delays of the cells alone."""
        return super().size(path)

    def steps(self, path):
        """Delay and area as ABC's 'stime' prints them of the netlist, of the buffered and of the sized one."""
        made = self.room.path("nowires")
        script_to(made, sys.executable, os.path.join(ROOT, "tools", "nowires.py"), self.peers, path)
        run = self.room.once([ABC, "-s", "-q", f"read_lib -w {self.liberty}; read_blif {made}; {LOADS}"], "stime.out")
        with open(run.out, encoding="latin-1") as text:
            return [(float(delay), float(area)) for area, delay in re.findall(r"Area = *([0-9.]+).*Delay = *([0-9.]+) ps", text.read())]

    def size(self, path):
        """Delay and area of the buffered and sized netlist."""
        return self.steps(path)[-1]


def loads_circuit(room, library, network, script):
    """The figures of both mappers, as given or after the commands of a script that ends in 'map'."""
    f = {}
    theirs, ours, run, given = both_mapped(room, library, network, script)
    if not theirs or not ours:
        return f
    netlists = [("lwmap", ours, run.out), ("abc", theirs, room.path("abc.blif"))]
    if program.has("lwarea"):
        run = room.once([program.path("lwarea"), "-n", library.path, given], "recovered.blif")
        netlists += [("lwarea", library.block(run.out), run.out)] if run.ok() else []
    for who, size, path in netlists:
        f[who + " own"], f[who + " own area"] = size
        for step, (delay, area) in zip(STEPS, library.steps(path)):
            f[f"{who} {step}"], f[f"{who} {step} area"] = delay, area
    return f


def loads(room, kept, circuits):
    """With a library in Liberty, whose loads and slews ABC's 'stime' counts. Pads and buffers for clocks are left out."""
    print("### Real loads\n")
    if not os.path.exists(LIBERTY):
        print(f"Not measured: there is no {os.path.basename(LIBERTY)}.\n")
        return
    library = Loaded(room)
    ours = ["lwmap"] + ["lwarea"] * program.has("lwarea")
    head(f"{os.path.basename(LIBERTY)}, {len(circuits)} circuits", "figure", "circuits",
         *[cell for who in ours for cell in (f"`{who}` to ABC's `map`", "lower/equal/higher", "area")])
    for kind, name in KINDS.items():
        figures = {}
        for circuit, network in circuits.items():
            figures[circuit] = kept.of("loads", kind, circuit, make=lambda: loads_circuit(room, library, network, SCRIPTS[name]))
        for step in ["own", *STEPS]:
            cells, number = [], ratio(figures, "lwmap " + step, "abc " + step)[1]
            for who in ours:
                delay, _, order = ratio(figures, f"{who} {step}", "abc " + step)
                cells += [delay, order, ratio(figures, f"{who} {step} area", f"abc {step} area", 2)[0]]
            row(kind, {"own": "block delays"}.get(step, f"`stime`, {step}"), number, *cells)
    print()


def printed_by(name, environment):
    """What a script of this folder prints."""
    run = subprocess.run(["sh", os.path.join(HERE, name + ".sh")], capture_output=True, text=True, env={**os.environ, **environment},
                         check=False)
    return run.stdout or f"failed: {run.stderr[:200]}\n"


def texts(kept):
    """What the scripts for texts and limits print; gives it by script."""
    printed = {}
    for name, environment in (("layers", {}), ("blif", {}), ("verilog", {"RUNS": "1"}), ("sim", {})):
        printed[name] = kept.of("texts", name, make=lambda: printed_by(name, environment))
        print(f"### `bench/{name}.sh`\n\n{printed[name]}", flush=True)
    return printed
