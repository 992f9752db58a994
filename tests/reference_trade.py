#!/usr/bin/env python3
"""The command 'trade' of the second program: least area of trees by a deadline, and a test of what another program wrote.

  reference_trade.py trade [-w K] [-i] T LIB IN             writes a netlist, and ends as lwmap does
  reference_trade.py test [-w K] [-i] T LIB IN MAPPED       says whether MAPPED, what 'trade' wrote, is as it has to be
  reference_trade.py points [-w K] [-i] T LIB IN            the times of the points of the roots, up to their deadlines

T is a time, or 'none' for no deadline. The deadline of a root is the greater of T and its least time. The area of a cover is the
sum over its gates, where each use of a shared part counts; the netlist may share gates all the same. With 'none' the netlist is
determined: it is that of 'map' with areas in the place of times. With a time it is one of several, and the test is for any of
them: the ports, the latches, the arrivals and the names are those of IN; the lines stand in their order; each root's net stands
for a cover at the root's class, arrives by the deadline, and has the least area that any cover has by then, which is found here
by explicit curves, all pairs of a time and an area of a class that no other pair beats. It says 'yes', or why not, with the
status 9.
"""
import bisect

import reference
from reference import Refused, time_of

MOST_AREA = 1 << 62


def area_of(match, areas):
    return min(match.cell.area + sum(areas[pin] for pin in match.pins), MOST_AREA)


class Point:
    """A cover's time and area, and the match with the points of its pins; an input has none."""

    def __init__(self, time, area, match=None, pins=()):
        self.time, self.area, self.match, self.pins = time, area, match, pins


class Curve:
    """Points by rising time and falling area."""

    def __init__(self):
        self.points = []

    def by(self, time):
        """The point of least area up to a time, or None."""
        at = bisect.bisect_right(self.points, time, key=lambda point: point.time)
        return self.points[at - 1] if at else None

    def add(self, point):
        """Takes a point that none here is as good as, and drops those that it beats."""
        old = self.by(point.time)
        if old and old.area <= point.area:
            return False
        self.points = [one for one in self.points if one.time < point.time or one.area < point.area]
        bisect.insort(self.points, point, key=lambda one: one.time)
        return True


def curves(graph, matches, starts, horizon):
    """The curve of each class up to a time, by going through all matches until no curve changes."""
    found = [Curve() for _ in graph.pairs]
    changed = set()
    for leaf, start in zip(graph.leaves, starts):
        found[leaf].add(Point(start, 0))
        changed.add(leaf)
    users = {}
    for match in matches:
        for pin in set(match.pins):
            users.setdefault(pin, []).append(match)
        if not match.pins:
            found[match.at].add(Point(0, min(match.cell.area, MOST_AREA), match))
            changed.add(match.at)
    while changed:
        for match in users.get(changed.pop(), ()):
            pins, delays = [found[pin] for pin in match.pins], match.cell.delays
            times = {point.time + delay for curve, delay in zip(pins, delays) for point in curve.points}
            for time in sorted(times):
                chosen = [curve.by(time - delay) for curve, delay in zip(pins, delays)]
                if time > horizon or None in chosen:
                    continue
                area = min(match.cell.area + sum(point.area for point in chosen), MOST_AREA)
                if found[match.at].add(Point(time, area, match, chosen)):
                    changed.add(match.at)
    return found


class Traded:
    """What is asked of the roots: the time and the area of each."""

    def __init__(self, network, cells, width, idempotent, deadline):
        self.network, self.cells = network, cells
        self.graph = graph = reference.Graph(network, width, idempotent)
        self.matches = reference.matches_of(graph, cells)
        starts = network.starts()
        labels = reference.settled(dict(zip(graph.leaves, starts)), self.matches, time_of)
        for name, root in zip(network.roots(), graph.roots):
            if root not in labels:
                raise Refused(6, b"no cover for output " + name)
        if deadline is None:
            areas = reference.settled(dict.fromkeys(graph.leaves, 0), self.matches, area_of)
            self.times = [None for _ in graph.roots]
            self.areas = [areas[root] for root in graph.roots]
            return
        self.times = [max(deadline, labels[root]) for root in graph.roots]
        self.curves = curves(graph, self.matches, starts, max(self.times, default=0))
        self.points = [self.curves[root].by(time) for root, time in zip(graph.roots, self.times)]
        self.areas = [point.area for point in self.points]


class Placed:
    """A gate for a point: its cell, and what its pins read, a gate or the name of an input."""

    def __init__(self, cell, pins):
        self.cell, self.pins = cell, pins
        self.depth = 1 + max([pin.depth for pin in pins if isinstance(pin, Placed)], default=0)


def netlist(traded):
    """A netlist of the points that the roots need, as text: a gate for each of them."""
    network, graph = traded.network, traded.graph
    placed, gates = {}, []
    leaves = dict(zip(graph.leaves, network.leaves()))

    def visit(at, point):
        """The gate of a point, which is made where it is not there, or the name of an input."""
        if point.match is None:
            return leaves[at]
        if id(point) not in placed:
            placed[id(point)] = Placed(point.match.cell, [visit(pin, one) for pin, one in zip(point.match.pins, point.pins)])
            gates.append(placed[id(point)])
        return placed[id(point)]

    found = {name: visit(root, point) for name, root, point in zip(network.roots(), graph.roots, traded.points)}
    gates.sort(key=lambda gate: gate.depth)
    net = reference.net_names({leaf: leaf for leaf in network.leaves()}, found, gates)
    lines = [reference.gate_line(gate.cell, [net[pin] for pin in gate.pins], net[gate]) for gate in gates]
    wires = reference.wire_lines((net[one], name) for name, one in found.items())
    return reference.joined(reference.head_lines(network) + lines + wires + [[b".end"]])


# The test

def no(text):
    raise Refused(9, b"no: " + text)


def test(data, traded):
    # A gate of such a cell names a pin twice, and no line of a netlist tells which of both is the output.
    if any(cell.output in cell.pins for cell in traded.cells):
        return b"yes\n"
    network, graph = traded.network, traded.graph
    head = reference.joined(reference.head_lines(network))
    if not data.startswith(head) or not data.endswith(b".end\n"):
        no(b"the head or the end is another one")
    kinds = [line.split(b" ")[0] for line in data[len(head):].split(b"\n")[:-2]]
    order = [{b".gate": 0, b".names": 1, b"1": 1}.get(kind, 2) for kind in kinds]
    if order != sorted(order) or 2 in order:
        no(b"the lines are not in their order")
    try:
        made = reference.read_mapped(data, b"MAPPED", traded.cells)
    except Refused as refused:
        no(b"it is no netlist: " + refused.text)
    if (made.roots(), made.starts()) != (network.roots(), network.starts()):
        no(b"other roots or arrivals")
    in_text = [line.split(b" ")[-1].split(b"=", 1)[1] for line in data.split(b"\n") if line.startswith(b".gate ")]
    if in_text != [gate.out for gate in made.gates]:
        no(b"the gates do not stand by their depth")
    test_names(made)
    arrivals = reference.arrivals_of(made, network.starts())
    classes = standing(graph, traded.matches, network, made)
    areas = dict.fromkeys(network.leaves(), 0)
    for gate in made.gates:
        areas[gate.out] = min(gate.cell.area + sum(areas[net] for net in gate.nets), MOST_AREA)
    for name, net, root, time, area in zip(network.roots(), made.root_nets, graph.roots, traded.times, traded.areas):
        if root not in classes[net]:
            no(b"root %s stands for no cover at class %d" % (name, root))
        if time is not None and arrivals[net] > time:
            no(b"root %s arrives at %s, the deadline is %s" % (name, reference.printed(arrivals[net]), reference.printed(time)))
        if areas[net] != area:
            no(b"root %s has the area %s, the least is %s" % (name, reference.printed(areas[net]), reference.printed(area)))
    return b"yes\n"


def test_names(made):
    ports = {*made.leaves(), *made.roots()}
    needed = set(made.root_nets) | {net for gate in made.gates for net in gate.nets}
    for gate in made.gates:
        number = gate.out[1:]
        if gate.out not in ports and not (gate.out[:1] == b"n" and number.isdigit() and len(number) <= 20):
            no(b"net %s has a name of another kind" % gate.out)
        if gate.out not in needed:
            no(b"nothing needs gate %s" % gate.out)
        if gate.out in made.roots() and made.root_nets[made.roots().index(gate.out)] != gate.out:
            no(b"net %s has the name of another root" % gate.out)


def standing(graph, matches, network, made):
    """For each net the classes at which it stands for a cover."""
    by = {}
    for match in matches:
        by.setdefault((match.cell, match.pins), set()).add(match.at)
    classes = {name: {leaf} for name, leaf in zip(network.leaves(), graph.leaves)}
    for gate in made.gates:
        bindings = [()]
        for net in gate.nets:
            bindings = [binding + (c,) for binding in bindings for c in classes[net]]
        classes[gate.out] = set().union(*(by.get((gate.cell, binding), ()) for binding in bindings))
    return classes


def answer(given):
    words = reference.Words(given)
    command = words.next()
    words.test(command in (b"trade", b"test", b"points"))
    width, idempotent = words.width(), words.option(b"-i")
    word = words.next()
    try:
        deadline = None if word == b"none" else reference.decimal(word)
    except ValueError:
        words.test(False)
    words.test(command != b"points" or deadline is not None)
    files = words.files(3 if command == b"test" else 2)
    cells, network = reference.library_of(files[0]), reference.network_of(files[1])
    traded = Traded(network, cells, width, idempotent, deadline)
    if command == b"test":
        return test(reference.text_of(files[2]), traded)
    if command == b"points":
        found = {point.time for root, time in zip(traded.graph.roots, traded.times)
                 for point in traded.curves[root].points if point.time <= time}
        return b"".join(reference.printed(time) + b"\n" for time in sorted(found))
    if deadline is None:
        return reference.Mapping(network, cells, width, idempotent, area_of, [0 for _ in network.leaves()]).text(False)
    return netlist(traded)


if __name__ == "__main__":
    reference.main(answer)
