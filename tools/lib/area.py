"""What area may cost in delay: netlists with less area for the networks of a search, and the order in which netlists are kept.

lwarea makes these, so that each output arrives by its deadline: of the design with all networks as its choices (joined.py), or else of
single networks. Where it is not there, 'lwmap trade' does for a deadline that is later than the least delay.
"""
from . import genlib, joined, program, runs, search
from .script import Fault
from .search import Netlist

# The parts that lwarea takes, in percent.
LEAST, MOST = 100, 999


def deadline(work, area):
    """The latest delay that an area asks for, in the unit of what judges; None where it is the least."""
    kind, value = area
    least = min(one.rank()[0] for one in work.netlists)
    if kind == "percent":
        return least * value / genlib.UNIT if work.loads else least * value // genlib.UNIT
    if kind == "time":
        return value / genlib.UNIT if work.loads else value
    return None


def asked(work, area, netlist):
    """The deadline that lwarea gets for the network of a netlist; None where no netlist of that network can be kept. Under loads a
    time is one of sized netlists, so it becomes a part of the netlist's own; less area may then lower the sized delay, too."""
    kind, latest = area[0], deadline(work, area)
    if latest is None:
        ours = [one for one in work.netlists if one.ours()] if kind == "each" else work.netlists
        return kind if work.loads or netlist.delay <= min(one.delay for one in ours) else None
    if work.loads:
        part = int(100 * latest / netlist.rank()[0] + 1e-6) if netlist.rank()[0] else MOST
        return f"{min(max(part, LEAST), MOST)}%"
    return genlib.show(latest) if netlist.delay <= latest else None


def recovered(work, netlist, time):
    """lwarea's netlist of the network of one of lwmap's, or None."""
    network, width, effort = netlist.network, str(netlist.width), str(work.effort.area[-1])
    by, file = f"lwarea -w {width} -t {time}", f"lwarea{width}.{network.file}"
    options = ["-e", effort, "-t", time]
    command = [program.path("lwarea"), "-w", width]
    ended = runs.run([*command, *options, work.library.file, work.restored(network.file)], work.path(file + ".log"), cwd=work.room,
                     limit=work.search, out=work.path(file))
    if ended.status or ended.late:
        work.lose(f"{by}, {network.said}", ended, work.search)
        return None
    certified = [*command, "-c", *options] if time == "each" else None
    checked = [program.path("lwarea"), "-k", "-w", width]
    return Netlist(file, network, by, network.said, search.figures(work, file), search.Maker("lwarea", netlist.width, certified, checked))


def trade(work, latest):
    """The netlist of lwmap trade after the best front, where it comes to an end."""
    ours = [one for one in work.netlists if one.ours()]
    if latest is None or work.loads or not ours or work.size > 5000:
        return
    network = min(ours, key=Netlist.rank).network
    file, time = "trade." + network.file, genlib.show(latest)
    by = f"lwmap trade {time}"
    ended = runs.run([program.path(), "trade", time, work.library.file, work.restored(network.file)], work.path(file + ".log"), cwd=work.room,
                     limit=work.search, out=work.path(file))
    if ended.status or ended.late:
        work.lose(f"{by}, {network.said}", ended, work.search)
    else:
        work.keep([Netlist(file, network, by, network.said, search.figures(work, file), search.Maker("lwmap trade"))])


def join(work, area):
    """Netlists of the design with all networks as its choices: whether there are any."""
    it = joined.Join(work)
    it.grow()
    words = ["each"] if area[0] == "each" else ["max", "102%"]
    found = it.kept(words)
    if found and area[0] in ("percent", "time"):
        word = asked(work, area, min(found, key=Netlist.rank))
        it.kept([word] if word and word not in words else [])
    return bool(found)


def recover(work, area):
    """Netlists with less area: of all networks joined, or of those networks whose netlists come first."""
    if program.has("lwarea") and work.effort.joined and join(work, area):
        return
    search.loop(work)
    if not program.has("lwarea"):
        trade(work, deadline(work, area))
        return
    first = sorted((one for one in work.netlists if one.ours()), key=Netlist.rank)
    pairs = [(one, asked(work, area, one)) for one in first]
    work.keep(work.each(lambda pair: recovered(work, *pair), [pair for pair in pairs if pair[1]][:work.effort.recovered]))


def ranked(work, area):
    """The netlists, the one to keep first."""
    latest = deadline(work, area)
    if area[0] == "each":
        return sorted((one for one in work.netlists if one.ours()), key=Netlist.rank)
    if latest is None:
        return sorted(work.netlists, key=Netlist.rank)
    within = [one for one in work.netlists if one.rank()[0] <= latest]
    if not within:
        best = min(work.netlists, key=Netlist.rank)
        raise Fault(f"no netlist is as early as --area asks; the least delay found has: {best.figures()}")
    return sorted(within, key=lambda one: one.rank()[::-1]) + sorted((one for one in work.netlists if one not in within), key=Netlist.rank)
