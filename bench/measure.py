"""What the scripts that measure share: runs of a command with their status, processor time and memory; libraries as both programs get
them; means, counts and rows of tables. ABC gets a library with both block delays set to the larger one, and with constants and a
buffer without delay."""
import hashlib
import json
import math
import os
import resource
import shutil
import statistics
import sys
import time

import tables
from lib import equality, genlib, script
from lib.timing import Timing, unmap

LIMIT = int(os.environ.get("LIMIT", "10"))
RUNS = int(os.environ.get("RUNS", "3"))
KEEP = os.environ.get("KEEP")
ABC = shutil.which("berkeley-abc")
UNMAP = "; unmap; sop"


class Run:
    """What a run gave: its status (0, or why there is no answer), processor seconds, megabytes, and its output's path."""

    def __init__(self, status, seconds, memory, out):
        self.status, self.seconds, self.memory, self.out = status, seconds, memory, out

    def ok(self):
        return self.status == 0


class Room:
    """A folder for what is written, with the programs that are measured. The limit of a run is one of processor time."""

    def __init__(self, folder, program):
        self.folder, self.program, self.limit = folder, program, LIMIT

    def path(self, name):
        return os.path.join(self.folder, name)

    def start(self, command):
        """The time of a call that does nothing."""
        return statistics.median(self.timed(command, 5))

    def spawn(self, command, out=os.devnull):
        """Spawned and not forked, so that what Python does before the command becomes another program does not count."""
        files = [(os.POSIX_SPAWN_OPEN, 0, os.devnull, os.O_RDONLY, 0),
                 (os.POSIX_SPAWN_OPEN, 1, out, os.O_WRONLY | os.O_CREAT | os.O_TRUNC, 0o644),
                 (os.POSIX_SPAWN_OPEN, 2, self.path("err"), os.O_WRONLY | os.O_CREAT | os.O_TRUNC, 0o644)]
        child = os.posix_spawnp(command[0], command, os.environ, file_actions=files)
        resource.prlimit(child, resource.RLIMIT_CPU, (self.limit, self.limit))
        _, status, usage = os.wait4(child, 0)
        return os.waitstatus_to_exitcode(status), usage.ru_utime + usage.ru_stime

    def once(self, command, out="out"):
        """One run, with its memory as /usr/bin/time reports it."""
        took, out = self.path("took"), self.path(out)
        watched = ["prlimit", f"--cpu={self.limit}", "/usr/bin/time", "-q", "-f", "%M", "-o", took]
        status, seconds = self.spawn(watched + command, out)
        try:
            with open(took, encoding="ascii") as said_of:
                memory = int(said_of.read().split()[-1]) / 1024
        except (OSError, ValueError, IndexError):
            memory = 0
        return Run(status, seconds, memory, out)

    def timed(self, command, runs=RUNS):
        return sorted(self.spawn(command)[1] for _ in range(runs))

    def lwmap(self, words, out="out"):
        return self.once([self.program] + words, out)

    def abc(self, script, made):
        """A run of ABC's script that is to make a file of the room."""
        made = self.path(made)
        if os.path.exists(made):
            os.remove(made)
        run = self.once([ABC, "-s", "-q", script])
        if run.ok() and not (os.path.exists(made) and os.path.getsize(made)):
            run.status = "none"
        return run

    def generated(self, script):
        """A circuit of ABC's 'gen' as an AIG, in a file of the room, with the number of its nodes."""
        raw, made = self.path("raw.blif"), self.path("generated.blif")
        self.abc(f"{script} {raw}; read_blif {raw}; strash; write_blif {made}", "generated.blif")
        with open(made, encoding="latin-1") as text:
            return made, sum(line.startswith(".names") for line in text)

    def mapped_by_abc(self, library, network, script, then=""):
        """The run, and delay and area of what ABC wrote before it did the rest."""
        made = self.path("abc.blif")
        run = self.abc(f"read_genlib {library.peers}; read_blif {network}; {script}; write_blif {made}{then}", "abc.blif")
        return run, library.size(made) if run.ok() else None

    def mapped(self, library, network, *words):
        """The run, and delay and area of what this program wrote."""
        run = self.lwmap([*words, library.path, network], "mapped.blif")
        return run, library.size(run.out) if run.ok() else None

    def equivalent(self, one, other):
        """Whether two networks of plain nodes are the same, and who says so: lwequal, or ABC's 'cec' where that is undecided. Each may
        take a fifth of the limit."""
        return equality.answered(one, other, max(1, LIMIT // 5))


class Kept:
    """What was measured, by the words that name it. KEEP names a file that keeps it, so that a run that was ended can go on; it is for
    the same programs alone."""

    def __init__(self, programs):
        self.found = {"program": " ".join(hash_of(path) for path in programs)}
        if KEEP and os.path.exists(KEEP):
            with open(KEEP, encoding="ascii") as file:
                known = json.load(file)
            if known["program"] != self.found["program"]:
                raise script.Fault(f"{KEEP} keeps figures of other programs")
            self.found = known

    def of(self, *words, make):
        """The figures of that name, measured by a call where they are not known."""
        name = " ".join(words)
        if name not in self.found:
            before = spent()
            figures = make()
            self.found[name] = {"figures": figures, "seconds": spent() - before}
            tell(name)
            self.write()
        return self.found[name]["figures"]

    def write(self):
        if KEEP:
            with open(KEEP + ".new", "w", encoding="ascii") as out:
                json.dump(self.found, out, indent=0)
            os.replace(KEEP + ".new", KEEP)

    def seconds(self):
        return sum(part["seconds"] for name, part in self.found.items() if name != "program")


def hash_of(path):
    with open(path, "rb") as file:
        return hashlib.sha256(file.read()).hexdigest()


def spent():
    """The processor seconds of all calls so far."""
    used = resource.getrusage(resource.RUSAGE_CHILDREN)
    return used.ru_utime + used.ru_stime


class Library:
    """A library as lwmap gets it, and as ABC gets it."""

    def __init__(self, room, name, path):
        self.name, self.path, self.peers = name, path, room.path(f"{name}.peers")
        with open(self.peers, "w", encoding="latin-1") as out:
            out.write(genlib.padded(genlib.read_genlib(path)))
        self.cells = genlib.read_genlib(self.peers)

    def size(self, path):
        """Delay and area of a netlist."""
        found = Timing(self.cells, path)
        return found.max / genlib.UNIT, found.area / genlib.UNIT

    def plain(self, room, path):
        """A netlist as plain nodes, in a file of the room."""
        made = room.path("plain.blif")
        with open(made, "w", encoding="latin-1") as out:
            out.write(unmap(self.cells, path))
        return made


def table_size(path):
    """Depth and number of tables of a network."""
    nodes = tables.read(path)
    return max(tables.depths(nodes).values(), default=0), sum(not tables.is_wire(node) for node in nodes.values())


# Figures

def mean(ratios):
    return math.exp(sum(map(math.log, ratios)) / len(ratios)) if ratios else None


def said(number, digits=3):
    return "-" if number is None else f"{number:.{digits}f}"


def plain(number):
    return "-" if number is None else f"{number:.2f}".rstrip("0").rstrip(".")


def counts(pairs):
    """In how many pairs the first is lower, equal, higher."""
    return "/".join(str(sum(test(a, b) for a, b in pairs)) for test in
                    (lambda a, b: a < b, lambda a, b: a == b, lambda a, b: a > b))


def counted(verdicts):
    """How many there are of each verdict."""
    return ", ".join(f"{verdicts.count(one)} {one}" for one in sorted(set(verdicts)))


def ratio(figures, one, other, digits=3, among=None):
    """The mean ratio of two columns over the circuits that have both, with their number and the counts."""
    pairs = [(f[one], f[other]) for circuit, f in figures.items()
             if f.get(one) and f.get(other) and (among is None or circuit in among)]
    return said(mean([a / b for a, b in pairs]), digits), len(pairs), counts(pairs)


def common(figures, columns):
    """The circuits that have a figure in each column."""
    return {circuit for circuit, f in figures.items() if all(f.get(column) for column in columns)}


def row(*cells):
    print("|" + "|".join(str(cell) for cell in cells) + "|")


def head(*cells):
    row(*cells)
    print("|" + "---|" * len(cells))


def tell(*words):
    print(time.strftime("%H:%M:%S"), *words, file=sys.stderr, flush=True)
