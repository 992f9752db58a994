"""The part of bench/all.sh that maps each circuit with each library by both programs: as given, and after front ends of ABC."""
import os
import statistics

from lib import fronts, program
from measure import ABC, UNMAP, common, counted, head, mean, plain, ratio, row, said

ROUNDS = fronts.rounds(3)
SCRIPTS = {"map": "strash; map", "dch; map": "strash; dch; map", "one round": f"{fronts.rounds(1)}; map", "three rounds": f"{ROUNDS}; map"}
MAPPED = ["dch; map", "one round", "three rounds"]
# What networks as given are compared with.
BASELINES = ["map", "dch; map", "three rounds"]
FRONTS = {"strash": "strash", "if -K 4": "strash; if -K 4; sop"}
AFTER = ["after " + name for name in [*FRONTS, *MAPPED]]


class Circuit:
    """The figures of one circuit with one library. A time is a list of processor seconds, in order."""

    def __init__(self, room, library, network):
        self.room, self.library, self.network, self.figures = room, library, network, {"verdicts": []}

    def ours(self, key, path):
        run, size = self.room.mapped(self.library, path, "map")
        if size:
            self.figures[key], self.figures[key + " area"] = size
            self.figures[key + " MB"] = run.memory
            if key.removeprefix("after ") in ("given", *MAPPED) and program.has("lwarea"):
                self.recovered(key, path)
            if os.environ.get("COMPARE") and key in ("given", "after three rounds"):
                self.figures["verdicts"].append(self.room.equivalent(self.network, self.library.plain(self.room, run.out)))

    def recovered(self, key, path):
        """lwarea without links at its default deadline and effort, by which the greatest arrival is that of 'map'."""
        run = self.room.once([program.path("lwarea"), "-n", self.library.path, path], "recovered.blif")
        if run.ok():
            self.figures[key + " recovered"], self.figures[key + " recovered area"] = self.library.size(run.out)

    def theirs(self, key, script, then=""):
        run, size = self.room.mapped_by_abc(self.library, self.network, script, then)
        if size:
            self.figures[key], self.figures[key + " area"] = size
            self.figures[key + " MB"] = run.memory

    def measure(self):
        self.ours("given", self.network)
        if "given" in self.figures:
            self.figures["given start"] = self.room.start([self.room.program])
            self.figures["given s"] = self.room.timed([self.room.program, "map", self.library.path, self.network])
        if ABC:
            self.beside_abc()
        return self.figures

    def beside_abc(self):
        self.theirs("map", SCRIPTS["map"])
        if "map" in self.figures:
            begin = f"read_genlib {self.library.peers}; read_blif {self.network}"
            script = f"{begin}; {SCRIPTS['map']}; write_blif {self.room.path('abc.blif')}"
            self.figures["map start"] = self.room.start([ABC, "-s", "-q", "quit"])
            self.figures["map s"] = self.room.timed([ABC, "-s", "-q", script])
        for name in MAPPED:
            front = self.room.path("front.blif")
            self.theirs(name, SCRIPTS[name], f"{UNMAP}; write_blif {front}")
            if name in self.figures:
                self.ours("after " + name, front)
        for name, script in FRONTS.items():
            front = f"{os.path.basename(self.network)}.{name.replace(' ', '')}"
            if os.path.exists(self.room.path(front)) or \
                    self.room.abc(f"read_blif {self.network}; {script}; write_blif {self.room.path(front)}", front).ok():
                self.ours("after " + name, self.room.path(front))


def measure(room, kept, libraries, sets):
    """For each set and library the figures of each circuit, and what was said of netlists compared with them."""
    found, verdicts = {}, []
    for library in libraries:
        for folder, circuits in sets.items():
            figures = found[folder, library.name] = {}
            for circuit, network in circuits.items():
                figures[circuit] = kept.of("maps", folder, library.name, circuit, make=Circuit(room, library, network).measure)
                verdicts += figures[circuit]["verdicts"]
    return found, verdicts


def summary(found, verdicts):
    print("### Summary\n")
    titles = ["set, library", "circuits"]
    for name in BASELINES:
        titles += [f"to {name}: delay", "lower/equal/higher", "area"]
    head(*titles)
    for (folder, library), figures in found.items():
        cells = [f"{folder}, {library}", f"{sum('given' in f for f in figures.values())} of {len(figures)}"]
        for name in BASELINES:
            delay, _, order = ratio(figures, "given", name)
            cells += [delay, order, ratio(figures, "given area", name + " area", 2)[0]]
        row(*cells)
    after(found)
    if verdicts:
        print(f"Netlists of `lwmap` compared with their circuits: {counted(verdicts)}.\n")


def after(found):
    print("\n### After the same commands of ABC, compared with ABC's own netlist after them\n")
    titles = ["set, library"]
    for name in MAPPED:
        titles += [f"after {name}: circuits", "delay", "lower/equal/higher", "area"]
    head(*titles)
    for (folder, library), figures in found.items():
        cells = [f"{folder}, {library}"]
        for name in MAPPED:
            delay, number, order = ratio(figures, "after " + name, name)
            cells += [number, delay, order, ratio(figures, "after " + name + " area", name + " area", 2)[0]]
        row(*cells)
    print()


def to_map(found, columns):
    """Delay and area of each column, as ratios to ABC's map, over the circuits that all of them have."""
    for (folder, library), figures in found.items():
        among = common(figures, ["map", *columns])
        row(f"{folder}, {library}", len(among), *[ratio(figures, name, "map", 3, among)[0] + ", " +
                                                  ratio(figures, name + " area", "map area", 2, among)[0] for name in columns])
    print()


def front_ends(found):
    print("### Front ends\n")
    columns = ["given", *AFTER, *MAPPED]
    head("set, library", "circuits in common", *columns[:-len(MAPPED)], *["ABC: " + name for name in MAPPED])
    to_map(found, columns)


def recovery(found):
    print("### Front ends with `lwarea`\n")
    columns = ["given recovered", *(f"after {name} recovered" for name in MAPPED)]
    head("set, library", "circuits in common", *(column.removesuffix(" recovered") for column in columns))
    to_map(found, columns)


def times(found):
    print("### Run time and memory of `map` and of ABC's `strash; map`\n")
    head("set, library", "circuits", "time, mean ratio", "starts left out", "slower than ABC", "total s of `lwmap`", "of ABC",
         "greatest MB of `lwmap`", "of ABC")
    for (folder, library), figures in found.items():
        both = [f for f in figures.values() if f.get("given s") and f.get("map s")]
        if not both:
            continue
        pairs = [(min(f["given s"]), min(f["map s"])) for f in both]
        less = [max(a - f["given start"], 1e-4) / max(b - f["map start"], 1e-4) for (a, b), f in zip(pairs, both)]
        row(f"{folder}, {library}", len(both), said(mean([a / b for a, b in pairs])), said(mean(less)), sum(a > b for a, b in pairs),
            said(sum(a for a, _ in pairs), 2), said(sum(b for _, b in pairs), 2),
            f"{max(f['given MB'] for f in both):.0f}", f"{max(f['map MB'] for f in both):.0f}")
    print()


def circuits(found):
    for (folder, library), figures in found.items():
        print(f"### Circuits of {folder} with {library}\n")
        titles = ["circuit"]
        for name in ("`lwmap`", "`map`"):
            titles += [f"{name}: delay", "area", "median ms", "least", "most", "MB"]
        for name in ("`dch; map`", "three rounds", "`lwmap` after them"):
            titles += [f"{name}: delay", "area"]
        head(*titles)
        for circuit, f in figures.items():
            cells = [circuit]
            for name in ("given", "map"):
                cells += [plain(f.get(name)), plain(f.get(name + " area")), *spread(f.get(name + " s")), f"{f.get(name + ' MB', 0):.0f}"]
            for name in (*BASELINES[1:], "after three rounds"):
                cells += [plain(f.get(name)), plain(f.get(name + " area"))]
            row(*cells)
        print()


def spread(seconds):
    """Median, least and most in milliseconds."""
    return [f"{1000 * number:.1f}" for number in (statistics.median(seconds), seconds[0], seconds[-1])] if seconds else ["-"] * 3


def with_all(found):
    """The same, and where there are several sets the figures of all of them together."""
    folders = {folder for folder, _ in found}
    joined = dict(found)
    for _, library in found if len(folders) > 1 else ():
        joined["all", library] = {circuit: f for (_, name), figures in found.items() if name == library for circuit, f in figures.items()}
    return joined


def report(found, verdicts):
    joined = with_all(found)
    summary(joined, verdicts)
    front_ends(joined)
    if any("given recovered" in f for figures in found.values() for f in figures.values()):
        recovery(joined)
    times(joined)
    circuits(found)
