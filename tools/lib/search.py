"""The search for the netlists of a network of logic: front ends by ABC, lwmap after each, and ABC's own mapper beside it.

A network (Network) is a file in the room, with the one that it was made from and how: by ABC, which cec has to confirm, or by
lwmap and lwarea, whose netlists are equivalent to what they read by theorem. All of them are without latches. What is mapped and timed has
the latches and the arrivals of the design (restored).
"""
import os
from collections import namedtuple
from concurrent.futures import ThreadPoolExecutor

from . import abc, blif, fronts, genlib, library, program, runs, timing
from .script import Fault

# Fronts and rounds of ABC, turns of the loop, widths, seconds of a step and of a proof; the efforts of lwarea, and for how many networks
# it runs each by itself; whether it runs for all of them joined, and how many turns may add a network to these.
Effort = namedtuple("Effort", "fronts rounds loop widths search proof area recovered joined turns")
EFFORTS = {
    "fast": Effort(("if4",), 1, 0, (6,), 2, 2, (1,), 2, False, 0),
    "normal": Effort(("if4", "dch+map"), 3, 0, (6,), 10, 10, (2,), 4, True, 0),
    "best": Effort(("if4", "dch+map"), 4, 20, (6, 8), 30, 40, (2, 3), 4, True, 3),
}
# The program whose theorem speaks of a netlist, its width, and without the files its command with a certificate, None where it has none,
# and the one that checks this; the further networks that it had.
Maker = namedtuple("Maker", "program width certified checked more", defaults=(None, None, None, ()))
GIVEN = "as given"
LARGE = 1500
SIGNALS = 262144
TOO_LARGE = (f"the network has more than {SIGNALS} signals, the most that lwmap takes; map its modules one by one, as tools/yosys-lwmap "
             "in Yosys does for a design that is not flattened")


class Network:
    """A network of logic: its file, what is said of it, what it was made from, and its name as a side of a comparison."""

    def __init__(self, file, said, parent=None, how="abc", kind="network"):
        self.file, self.said, self.parent, self.how = file, said, parent, how
        self.name = f"{kind} {said}"


class Netlist:
    """A netlist of cells: its file with latches, the network that it covers, who made it (by) and after what (where), its figures in
    millionths, and its maker if it is ours. If loads count, sized has delay, area and file of the sized one."""

    def __init__(self, file, network, by, where, figures, maker=None):
        self.file, self.network, self.by, self.where, self.maker = file, network, by, where, maker
        self.delay, self.area, self.gates = figures
        self.width = maker and maker.width
        self.sized = None

    def ours(self):
        return self.maker is not None

    def said(self):
        return f"{self.by}, {self.where}"

    def figures(self):
        if self.sized:
            return f"sized delay {self.sized[0]:g}, area {self.sized[1]:g}"
        return f"delay {genlib.show(self.delay)}, area {genlib.show(self.area)}"

    def rank(self):
        """Least first: the sized delay and area where there are some, else delay and area by block delays."""
        return self.sized[:2] if self.sized else (self.delay, self.area)


class Work:
    """What the steps of a search share: the room, the design's file in it, the library, limits, and who is told."""

    def __init__(self, room, design, library, effort, jobs, told, limit=None, loads=False):
        self.room, self.design, self.library, self.jobs, self.told = room, design, library, jobs, told
        self.effort, self.loads = EFFORTS[effort], loads
        self.ports = blif.ports_of(self.path(design))
        self.bare = not self.ports.latches and not self.ports.starts
        self.size = sum(words[0] == ".names" for words in self.ports.rest)
        self.quick = effort == "fast" and self.size > LARGE
        scale = 1 + self.size / 2500
        self.search = limit or self.effort.search * scale
        self.proof = limit or self.effort.proof * scale
        self.lost, self.netlists = [], []

    def path(self, file):
        return os.path.join(self.room, file)

    def write(self, file, text):
        with open(self.path(file), "w", encoding="latin-1") as out:
            out.write(text)
        return file

    def restored(self, file):
        """The file with the latches and arrivals of the design."""
        if self.bare:
            return file
        return self.write("whole." + file, blif.restore(self.path(self.design), self.path(file)))

    def each(self, function, items):
        """The results of a function for some items, several at a time, in their order."""
        if self.jobs == 1 or len(items) < 2:
            return [function(item) for item in items]
        with ThreadPoolExecutor(self.jobs) as pool:
            return list(pool.map(function, items))

    def lose(self, what, ended, limit):
        why = f"over {limit:.0f} s" if ended.late else runs.tail(ended.log).removeprefix("lwmap: ") or f"status {ended.status}"
        self.lost.append(f"{what}: {why}")

    def keep(self, found):
        """Takes netlists in, and tells how things stand. Where loads judge, one that could not be sized is left out."""
        found = [one for one in found if one]
        if self.loads:
            found = [one for one in self.each(lambda one: library.size(self, one), found) if one]
        for netlist in found:
            self.netlists.append(netlist)
            best = min(self.netlists, key=Netlist.rank)
            self.told(f"{netlist.said()}: {netlist.figures()}; " + ("best so far" if best is netlist else "best " + best.figures()))
        return found


# Networks


def cheap_script(names):
    """ABC's commands for the fronts of some names, and its own netlists after each: the files and the commands."""
    commands = ["read_genlib padded.genlib", "read_blif cut.blif", "strash", "backup", "map", "write_blif abc.given.blif"]
    for name in names:
        front = fronts.FRONTS[name].removeprefix("strash; ")
        if name.endswith("+map"):
            front = front.removesuffix(fronts.BACK) + f"map; write_blif abc.{name}.blif; unmap; sop"
        commands += ["restore", front, f"write_blif {name}.blif"]
        if not name.endswith("+map"):
            commands += ["strash", "map", f"write_blif abc.{name}.blif"]
    return "; ".join(commands)


def rounds_script(count, one):
    """ABC's commands for some rounds: for each the network of nodes of two inputs (s1, s2, ..), ABC's netlist, and the
    front, which has the functions of that netlist's cells as its nodes."""
    commands = ["read_genlib padded.genlib", "read_blif cut.blif", "strash"]
    first, choices = one.rsplit("; ", 1)
    for k in range(1, count + 1):
        commands += [first, f"write_blif s{k}.blif", choices, "backup", "map", f"write_blif abc.round{k}.blif", "unmap", "sop",
                     f"write_blif round{k}.blif", "restore"]
    return "; ".join(commands)


def cheap_fronts(work, base):
    """The networks of the fronts that ABC makes at once, and ABC's netlists: file, network, and what is said of it. The least effort
    leaves them out for a large network: a round is nearly always better."""
    names = () if work.quick else work.effort.fronts
    ended = abc.call(cheap_script(names), work.room, "fronts.log", work.search)
    made = [Network(f"{name}.blif", f"after {name}", base) for name in names if abc.whole(work.path(f"{name}.blif"))]
    if len(made) < len(names):
        work.lose("front ends", ended, work.search)
    found = [("abc.given.blif", base, GIVEN)] + [(f"abc.{one.file}", base if "+map" in one.file else one, one.said) for one in made]
    return made, [one for one in found if abc.whole(work.path(one[0]))]


def rounds(work, base):
    """The same after rounds of restructuring. Of several each is a step of its own, which cec decides more easily."""
    count = work.effort.rounds
    ended = abc.call(rounds_script(count, fronts.QUICK if work.quick else fronts.ROUND), work.room, "rounds.log", work.search)
    made, netlists, before = [], [], base
    for k in range(1, count + 1):
        if not all(abc.whole(work.path(f"{part}{k}.blif")) for part in ("s", "abc.round", "round")):
            work.lose(f"round {k}", ended, work.search)
            break
        if count > 1:
            before = Network(f"s{k}.blif", f"of two-input nodes after {k} round{'s' * (k > 1)}", before)
        one = Network(f"round{k}.blif", f"after {k} round{'s' * (k > 1)}", before)
        made.append(one)
        netlists.append((f"abc.round{k}.blif", before, one.said))
    return made, netlists


def fronts_of(work, base):
    """All networks and ABC's netlists after them. Without nodes there is nothing to restructure, and ABC ends in an assertion."""
    if not work.size:
        work.told("no nodes")
        return [], []
    work.told(f"{work.size} nodes; front ends by ABC")
    (made, netlists), (more, others) = work.each(lambda step: step(work, base), [cheap_fronts, rounds])
    return made + more, netlists + others


def again(work, netlist, turn):
    """A netlist as a network once more, after choices and a mapping by ABC: the network, or None; and ABC's netlist."""
    plain = plain_of(work, netlist, f"plain{turn}.blif")
    log = f"loop{turn}.log"
    ended = abc.call(f"read_genlib padded.genlib; read_blif {plain.file}; strash; dch; map; write_blif abc.loop{turn}.blif; unmap; sop; "
                     f"write_blif loop{turn}.blif", work.room, log, work.search)
    if not abc.whole(work.path(f"loop{turn}.blif")):
        work.lose(f"turn {turn} of the loop", ended, work.search)
        return None, None
    said = f"after turn {turn} of the loop"
    return Network(f"loop{turn}.blif", said, plain), (f"abc.loop{turn}.blif", plain, said)


def plain_of(work, netlist, file):
    """A netlist as a network of nodes without latches."""
    cells = work.library.cells
    path = work.path(work.write("plain." + file, timing.unmap(cells, work.path(netlist.file))))
    work.write(file, blif.cut(path))
    return Network(file, netlist.said(), netlist.network, "theorem" if netlist.ours() else "abc", "netlist of")


# Netlists


def figures(work, file):
    """Delay, area and gates of a netlist in the room, by lwmap time."""
    out = work.path(file + ".time")
    ended = runs.run([program.path(), "time", work.library.file, file], work.path(file + ".timelog"), cwd=work.room, limit=work.search, out=out)
    if ended.status:
        raise Fault(f"lwmap time: {runs.tail(ended.log).removeprefix('lwmap: ')}")
    found = dict(line.split(" ")[:2] for line in library.read(out).splitlines() if line.startswith(("max ", "area ")))
    gates = sum(line.startswith(".gate ") for line in library.read(work.path(file)).splitlines())
    return genlib.micro(found["max"]), genlib.micro(found["area"]), gates


def map_one(work, network, width):
    """lwmap's netlist of a network, or None."""
    given = work.restored(network.file)
    file, command = f"lwmap{width}.{network.file}", [program.path(), "map", "-w", str(width)]
    ended = runs.run([*command, work.library.file, given], work.path(file + ".log"), cwd=work.room, limit=work.search, out=work.path(file))
    if ended.status or ended.late:
        work.lose(f"lwmap -w {width}, {network.said}", ended, work.search)
        return None
    return Netlist(file, network, f"lwmap -w {width}", network.said, figures(work, file), Maker("lwmap map", width, [*command, "-c"], [program.path(), "check", "-w", str(width)]))


def last_step(work, networks):
    """lwmap's netlists of some networks, each by itself."""
    pairs = [(network, width) for network in networks for width in work.effort.widths]
    wide = {network.file: widest(work.path(network.file)) for network in networks}
    pairs = [(network, width) for network, width in pairs if width == min(work.effort.widths) or wide[network.file] > min(work.effort.widths)]
    found = work.each(lambda pair: map_one(work, *pair), pairs)
    return work.keep(found)


def widest(path):
    """The most inputs or rows of a node; greater widths change nothing."""
    most = rows = 0
    for words in blif.lines(path):
        if words[0] == ".names":
            rows, most = 0, max(most, len(words) - 2)
        elif not words[0].startswith("."):
            rows += 1
            most = max(most, rows)
    return most


def theirs(work, found):
    """ABC's netlist of a network, with wires where ABC was given a cell for them; None where it has a cell that the
    library has not."""
    (file, network, where), lines, cells = found, [], work.library.cells
    for words in blif.lines(work.path(file)):
        if words[0] == ".gate" and words[1] == "padded_wire":
            ends = dict(word.split("=", 1) for word in words[2:])
            lines += [[".names", ends["a"], ends["O"]], ["1", "1"]]
        elif words[0] == ".gate" and words[1] not in cells or words[0] == ".names" and len(words) == 2:
            return None
        elif words[0] != ".end":
            lines.append(words)
    work.write(file, blif.text(lines))
    whole = work.restored(file)
    return Netlist(whole, network, "ABC map", where, figures(work, whole))


def keep_theirs(work, found):
    return work.keep(work.each(lambda one: theirs(work, one), found))


# The search


def search(work):
    """All netlists that were found, ours and ABC's."""
    if work.size + len(work.ports.inputs) + len(work.ports.latches) > SIGNALS:
        raise Fault(TOO_LARGE)
    work.write("cut.blif", blif.cut(work.path(work.design)))
    work.base = Network("cut.blif", GIVEN)
    made, netlists = fronts_of(work, work.base)
    last_step(work, [work.base] + made)
    keep_theirs(work, netlists)
    if not work.netlists:
        why = "; ".join(dict.fromkeys(work.lost))
        why += "; --no-loads sizes nothing" if "sizing" in why else ""
        raise Fault("no netlist: " + why)
    return work.netlists


def loop(work):
    """A netlist as a network again, by turns our best one and the best of all, each once, until three in a row gain nothing."""
    clock, used, idle = runs.Clock(), set(), 0
    before = clock.spent()
    for turn in range(1, work.effort.loop + 1):
        fresh = [one for one in work.netlists if one not in used and (turn % 2 == 0 or one.ours())]
        if not fresh or idle == 3 or clock.spent() - before > work.search / 2:
            return
        best, seed = min(one.rank() for one in work.netlists), min(fresh, key=Netlist.rank)
        used.add(seed)
        network, netlist = again(work, seed, turn)
        if network is None:
            return
        last_step(work, [network])
        keep_theirs(work, [netlist])
        idle = 0 if min(one.rank() for one in work.netlists) < best else idle + 1
