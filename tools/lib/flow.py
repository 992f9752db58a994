"""lwflow: from a design to the best netlist that was found."""
import json
import os
import shutil
import signal
import sys
import tempfile

from . import area, blif, genlib, library, networks, options, page, program, proof, report, runs, search, simulate, timing, verilog
from .script import Fault

SHOWN, FAILED, UNDECIDED, DIFFERENT, NO_PROGRAM, INTERRUPTED = 0, 1, 3, 4, 69, 130
RESULTS = ("mapped.blif", "mapped.v", "cells.v", "report.html", "report.json", "log.txt")


class Flow:
    """One run: its options, its room, who is told, and what was found."""

    def __init__(self, chosen, room):
        self.options, self.room, self.clock = chosen, room, runs.Clock()
        self.log = open(os.path.join(room, "log.txt"), "w", encoding="utf-8")
        self.limit = chosen.limit or 300

    def told(self, text):
        line = f"{self.clock.wall():7.1f} s  {text}"
        print(line, file=self.log, flush=True)
        if not self.options.quiet:
            print("lwflow: " + line, file=sys.stderr, flush=True)

    def path(self, file):
        return os.path.join(self.room, file)

    # The steps

    def run(self):
        """The status; the results are in the room then."""
        chosen = self.options
        self.take_input()
        self.library = library.Library(chosen.library, self.room, self.limit)
        self.loads = self.library.has_loads() and not chosen.no_loads
        self.design = self.read_design()
        if self.design.top in self.library.cells:
            raise Fault(f"{self.design.top} is the name of a cell, too; the design needs another name")
        self.work = search.Work(self.room, self.design.file, self.library, chosen.effort, chosen.jobs, self.told, chosen.limit, self.loads)
        search.search(self.work)
        area.recover(self.work, chosen.area)
        self.prover = proof.Prover(self.work)
        reading = self.design.prove_reading(max(self.work.proof, 30))
        self.choose()
        self.steps = reading + self.steps
        self.write()
        self.simulated = self.simulate()
        self.timed()
        self.status = (DIFFERENT if any(step.verdict == "different" for step in self.steps) else
                       UNDECIDED if any(step.verdict != "equal" for step in self.steps) else SHOWN)
        return self.status

    def take_input(self):
        """Files have to be there; standard input becomes one."""
        chosen = self.options
        chosen.files = [self.standard_input() if file == "-" else file for file in chosen.files]
        for file in [chosen.library] + chosen.files:
            if os.path.isdir(file) or not os.access(file, os.R_OK):
                raise Fault(f"cannot read {file}")
        targets = {os.path.realpath(os.path.join(chosen.output, name)) for name in RESULTS}
        for file in [chosen.library] + chosen.files:
            if os.path.realpath(file) in targets:
                raise Fault(f"{file} would be overwritten by the results; -o names another folder")
        if os.path.exists(chosen.output) and not os.path.isdir(chosen.output):
            raise Fault(f"{chosen.output} is no folder; -o names another one")

    def standard_input(self):
        data = sys.stdin.buffer.read()
        start = data.lstrip(b"\xef\xbb\xbf \t\r\n")
        kind = ".aig" if data.startswith(b"aig ") else ".aag" if data.startswith(b"aag ") else (
            ".blif" if not start or start.startswith((b".", b"#")) else ".v")
        path = self.path("stdin" + kind)
        with open(path, "wb") as out:
            out.write(data)
        return path

    def read_design(self):
        chosen = self.options
        kinds = {os.path.splitext(file)[1].lower() in (".v", ".sv", ".vh", ".svh") for file in chosen.files}
        if kinds == {True}:
            blank = [file for file in chosen.files if not library.read(file).strip()]
            if blank:
                raise Fault(f"{blank[0]} is empty")
            return verilog.Verilog(chosen, self.room, self.limit, self.told)
        if kinds == {True, False}:
            raise Fault("files of Verilog and others cannot be one design")
        if chosen.defines or chosen.includes or chosen.parameters or chosen.top:
            raise Fault("-t, -D, -I and -P are of Verilog alone")
        return networks.Network(chosen, self.room, self.limit, self.library, self.told)

    def choose(self):
        """The best netlist of which nothing was found wrong, and its steps; with --sure every step has to be shown."""
        lost = set()
        for netlist in area.ranked(self.work, self.options.area):
            if lost & ancestors(netlist.network):
                continue
            self.told(f"{netlist.said()}: is it right?")
            self.steps = self.prover.steps(netlist)
            wrong = [step for step in self.steps if step.verdict == "different"]
            open_ = [step for step in self.steps if step.verdict == "undecided"]
            if not wrong and not (open_ and self.options.sure):
                self.best = netlist
                return
            said = f"{netlist.said()} {'is WRONG' if wrong else 'was not decided'}: {(wrong + open_)[0].what}: {(wrong + open_)[0].why}"
            self.told(said)
            self.work.lost.append(said)
            if wrong:
                lost |= {network for network in ancestors(netlist.network) if network.how == "abc" and network.parent is not None}
        raise Fault("no netlist that was found is shown right: " + "; ".join(self.work.lost))

    def write(self):
        """mapped.blif, cells.v and mapped.v in the room, and the steps after the mapper."""
        netlist = self.best
        shutil.copyfile(self.path(getattr(netlist, "certified", None) or netlist.file), self.path("mapped.blif"))
        final, cells = "mapped.blif", self.library.cells
        if netlist.sized:
            final, cells = "sized.blif", self.library.sized_cells()
            self.work.write(final, blif.restore(self.path(self.design.file), self.path(netlist.sized[2])))
            self.steps.append(self.prover.sizing(netlist))
        elif getattr(netlist, "certified", None):
            final = netlist.file
        with open(self.path("cells.v"), "w", encoding="utf-8") as out:
            out.write(genlib.modules(cells))
        self.told("the netlist as Verilog")
        self.steps += self.design.write(final, cells, "mapped.v", max(self.work.proof, 30))

    def simulate(self):
        """A step, or None; the design's notes say why there was none."""
        if self.design.kind != "Verilog" or not self.options.vectors:
            return None
        if not (runs.has("iverilog") and runs.has("vvp")):
            self.design.notes.append("not simulated: there is no iverilog; apt-get install iverilog")
            return None
        self.told("simulation beside Icarus Verilog")
        step, note = simulate.beside(self.design, self.options.vectors, self.limit)
        if step:
            self.steps.append(step)
        self.design.notes.append(note)
        return note

    def timed(self):
        """The figures of the netlist once more, by the timer of the scripts."""
        found = self.timing = timing.Timing(self.library.cells, self.path(self.best.file))
        if (found.max, found.area) != (self.best.delay, self.best.area):
            raise Fault(f"the figures of the netlist differ: {genlib.show(found.max)}, {genlib.show(found.area)} by tools/lib/timing.py, and "
                        f"{genlib.show(self.best.delay)}, {genlib.show(self.best.area)} by lwmap time")

    def place(self, files):
        """Moves results into the folder, each whole, at the end."""
        folder, fresh = self.options.output, []
        os.makedirs(folder, exist_ok=True)
        try:
            for name in files:
                with tempfile.NamedTemporaryFile(dir=folder, prefix=".lwflow.", delete=False) as file:
                    fresh.append((file.name, os.path.join(folder, name)))
                    with open(self.path(name), "rb") as made:
                        shutil.copyfileobj(made, file)
                os.chmod(file.name, 0o644)
            for made, wanted in fresh:
                os.replace(made, wanted)
        except BaseException:
            for made, _ in fresh:
                if os.path.exists(made):
                    os.remove(made)
            raise
        for name in RESULTS:
            if name not in files and os.path.exists(os.path.join(folder, name)):
                os.remove(os.path.join(folder, name))


def ancestors(network):
    """A network and all that it was made from."""
    found = set()
    while network is not None:
        found.add(network)
        network = network.parent
    return found


def perform(chosen, room):
    flow = Flow(chosen, room)
    with flow.log:
        flow.run()
        data = report.data(flow)
        with open(flow.path("report.json"), "w", encoding="utf-8") as out:
            json.dump(data, out, indent=1)
        with open(flow.path("report.html"), "w", encoding="utf-8") as out:
            out.write(page.page(data))
        text = report.text(data)
        flow.log.write(text)
        flow.log.flush()
        made = [name for name in RESULTS if os.path.exists(flow.path(name))]
        flow.place(made if flow.status != DIFFERENT else ["report.html", "report.json", "log.txt"])
    print(json.dumps(data, indent=1) if chosen.json else text, end="\n" if chosen.json else "")
    return flow.status


def interrupted(*_):
    runs.stop()
    raise KeyboardInterrupt


def main(words):
    chosen = options.parse(words)
    for number in (signal.SIGTERM, signal.SIGINT, signal.SIGHUP):
        signal.signal(number, interrupted)
    # (Yosys and ABC take no paths with blanks)
    place = tempfile.gettempdir()
    room = tempfile.mkdtemp(prefix="lwflow.", dir="/tmp" if len(place.split()) != 1 else place)
    try:
        program_or_status()
        return perform(chosen, room)
    except Fault as fault:
        print(f"lwflow: {fault}", file=sys.stderr)
        return FAILED
    except OSError as fault:
        print(f"lwflow: {fault.filename or 'standard output'}: {fault.strerror}", file=sys.stderr)
        return FAILED
    except KeyboardInterrupt:
        print("lwflow: interrupted; nothing was written", file=sys.stderr)
        return INTERRUPTED
    finally:
        if not os.environ.get("LWFLOW_KEEP"):
            shutil.rmtree(room, ignore_errors=True)


def program_or_status():
    try:
        program.path()
    except Fault as fault:
        print(f"lwflow: {fault}", file=sys.stderr)
        sys.exit(NO_PROGRAM)
