"""A drawing of a small netlist, from what report.json has of it: a column for each level, signals from left to right, and the critical
path marked. A net that passes a column has a place of its own there, so that no line runs through a gate."""
from collections import namedtuple

from . import svg
from .pictures import figure, shown

TALL, LOW, GAP, LETTER = 24, 6, 9, 6.6
Place = namedtuple("Place", "kind name said column")  # kind: source, gate, root or pass


def fits(said, most=16):
    said = shown(said)
    return said if len(said) <= most else said[:most - 2] + ".."


class Drawing:
    """The places in columns, the links between them, and where each stands."""

    def __init__(self, found):
        self.netlist, self.path = found["netlist"], found["path"]
        self.gates = {gate["net"]: gate for gate in self.netlist["gates"]}
        self.late = set()
        self.columns, self.links = [], []
        self.put()
        self.order()
        self.stand()

    # Which place is in which column

    def levels(self):
        """The column of each gate: after all that it reads."""
        level = {}
        for gate in self.netlist["gates"]:
            self.level_of(gate["net"], level)
        return level

    def level_of(self, net, level):
        stack = [net]
        while stack:
            at = stack[-1]
            todo = [one for one in self.gates[at]["nets"] if one in self.gates and one not in level] if at in self.gates else []
            if todo:
                stack += todo
                continue
            level[at] = 1 + max((level[one] for one in self.gates[at]["nets"] if one in self.gates), default=0)
            stack.pop()

    def put(self):
        level = self.levels()
        readers = {}
        for gate in self.netlist["gates"]:
            for net in gate["nets"]:
                readers.setdefault(net, []).append(("gate", gate["net"], level[gate["net"]]))
        for root in self.netlist["roots"]:
            readers.setdefault(root["net"], []).append(("root", root["name"], level.get(root["net"], 0) + 1))
        self.columns = [[] for _ in range(max([at for several in readers.values() for _, _, at in several], default=0) + 1)]
        for source in self.netlist["sources"]:
            if source["net"] in readers:
                first = max(0, min(at for _, _, at in readers[source["net"]]) - 1)
                self.columns[first].append(Place("source", source["net"], fits(source["net"]), first))
                level[source["net"]] = first
        for gate in self.netlist["gates"]:
            self.columns[level[gate["net"]]].append(Place("gate", gate["net"], fits(gate["cell"], 12), level[gate["net"]]))
        for root in self.netlist["roots"]:
            at = level.get(root["net"], 0) + 1
            self.columns[at].append(Place("root", root["name"], fits((root["read_by"] or [root["name"]])[0]) + " .." * (len(root["read_by"]) > 1), at))
        self.connect(level, readers)

    def connect(self, level, readers):
        """Links from column to column. The late ones are those of the critical path."""
        places = {(place.kind, place.name): place for column in self.columns for place in column}
        steps = {(step["from"], step["net"]) for step in self.path}
        end = self.path[-1]["net"] if self.path else None
        for net, several in readers.items():
            at, place = level.get(net, 0), places.get(("gate", net)) or places.get(("source", net))
            last, chain = max(column for _, _, column in several), [place]
            for column in range(at + 1, last):
                chain.append(Place("pass", net, "", column))
                self.columns[column].append(chain[-1])
            ends = [(kind, name, column) for kind, name, column in several
                    if (net, name) in steps and kind == "gate" or kind == "root" and net == end]
            far = max((column for _, _, column in ends), default=0)
            self.links += [(one, other, other.column < far) for one, other in zip(chain, chain[1:])]
            self.links += [(chain[column - at - 1], places[kind, name], (kind, name, column) in ends) for kind, name, column in dict.fromkeys(several)]

    # Where they stand

    def order(self):
        """Each column in the order of the means of its neighbours, to and fro, so that few links cross."""
        before, behind = {}, {}
        for one, other, _ in self.links:
            behind.setdefault(one, []).append(other)
            before.setdefault(other, []).append(one)
        for turn in range(16):
            rank = {place: k / max(1, len(column)) for column in self.columns for k, place in enumerate(column)}
            near, columns = (before, self.columns) if turn % 2 == 0 else (behind, self.columns[::-1])
            for column in columns:
                column.sort(key=lambda place: mean([rank[one] for one in near.get(place, [])], rank[place]))
                rank.update({place: k / max(1, len(column)) for k, place in enumerate(column)})

    def stand(self):
        """The height of each place: as near to the mean of its neighbours as order and room let it."""
        near = {}
        for one, other, _ in self.links:
            near.setdefault(one, []).append(other)
            near.setdefault(other, []).append(one)
        self.y = {}
        most = max(sum(size(place) + GAP for place in column) for column in self.columns)
        for column in self.columns:
            at = (most - sum(size(place) + GAP for place in column)) / 2
            for place in column:
                self.y[place] = at + size(place) / 2
                at += size(place) + GAP
        for turn in range(12):
            for column in self.columns if turn % 2 else self.columns[::-1]:
                wanted = [mean([self.y[one] for one in near.get(place, [])], self.y[place]) for place in column]
                self.y.update(zip(column, apart(wanted, [size(place) for place in column])))
        lift = min(self.y[place] - size(place) / 2 for place in self.y)
        self.y = {place: y - lift for place, y in self.y.items()}
        self.height = max(self.y[place] + size(place) / 2 for place in self.y)


def mean(values, other):
    return sum(values) / len(values) if values else other


def size(place):
    return LOW if place.kind == "pass" else TALL


def apart(wanted, sizes):
    """The heights nearest to the wanted ones, in their order, with room between: neighbours that would meet are joined, and
    stand at the mean of what they want."""
    room = [0.0]
    for one, other in zip(sizes, sizes[1:]):
        room.append(room[-1] + (one + other) / 2 + GAP)
    groups = []
    for value, shift in zip(wanted, room):
        groups.append([value - shift, 1])
        while len(groups) > 1 and groups[-2][0] > groups[-1][0]:
            (a, n), (b, m) = groups[-2], groups.pop()
            groups[-1] = [(a * n + b * m) / (n + m), n + m]
    found = [value for value, count in groups for _ in range(count)]
    return [value + shift for value, shift in zip(found, room)]


# The picture


def wide(place):
    return 0 if place.kind == "pass" else LETTER * len(place.said) + 14


def draw(found, title=None):
    """The picture; with a title as a file of its own."""
    it = Drawing(found)
    top = 66 if title else 34
    widths = [max([wide(place) for place in column], default=0) for column in it.columns]
    lefts, at = [], 16
    for k, width in enumerate(widths):
        lefts.append(at)
        crossing = sum(1 for one, other, _ in it.links if one.column == k and other.column == k + 1)
        at += width + 34 + min(60, 1.5 * crossing)
    full = max(at - 20, 360)
    registers = ({("source", one["net"]) for one in it.netlist["sources"] if one["register"]} |
                 {("root", one["name"]) for one in it.netlist["roots"] if one["register"]})
    late = {step["net"] for step in it.path}
    parts = ([svg.text(16, 26, title, "title")] if title else []) + key(16, top - 20)
    for one, other, is_late in sorted(it.links, key=lambda link: link[2]):
        parts.append(link(it, lefts, widths, top, one, other, is_late))
    for place, y in it.y.items():
        if place.kind == "pass":
            is_late = any(link_[2] for link_ in it.links if place in link_[:2])
            parts.append(svg.line(lefts[place.column], y + top, lefts[place.column] + widths[place.column], y + top, "late" if is_late else "wire"))
        else:
            parts.append(shape(it, place, lefts[place.column], y + top, registers, late))
    said = of_netlist(found)
    return (svg.whole if title else svg.inline)(full, it.height + top + 12, said, parts)


def link(it, lefts, widths, top, one, other, is_late):
    start = lefts[one.column] + (widths[one.column] if one.kind == "pass" else wide(one))
    ends = [(lefts[other.column], it.y[other] + top + entry(it, one, other))]
    points = [(start, it.y[one] + top)]
    if start < lefts[one.column] + widths[one.column]:
        points.append((lefts[one.column] + widths[one.column], it.y[one] + top))
    return svg.curve(points + ends, "late" if is_late else "wire")


def entry(it, one, other):
    """How far from its middle a link reaches a gate: by the order of what it reads."""
    if other.kind != "gate":
        return 0
    before = sorted({link_[0] for link_ in it.links if link_[1] == other}, key=lambda place: it.y[place])
    return (before.index(one) - (len(before) - 1) / 2) * min(6, 16 / len(before))


def shape(it, place, x, y, registers, late):
    parts = []
    if place.kind == "gate":
        gate = it.gates[place.name]
        parts.append(svg.box(x, y - TALL / 2, wide(place), TALL, "box chosen" if place.name in late else "box"))
        parts.append(svg.text(x + wide(place) / 2, y + 4, place.said, "", "middle"))
        said = f"{gate['cell']} drives {shown(place.name)}, arrival {figure(gate['arrival'])}"
    else:
        if (place.kind, place.name) in registers:
            parts.append(svg.box(x, y - TALL / 2 + 2, wide(place), TALL - 4, "register"))
        parts.append(svg.text(x + 7, y + 4, place.said, "small"))
        said = shown(place.name)
    return svg.group(said, parts)


def key(x, y):
    return [svg.box(x, y - 9, 40, 18, "box"), svg.text(x + 48, y + 4, "gate"), svg.box(x + 92, y - 9, 40, 18, "register"),
            svg.text(x + 140, y + 4, "register"), svg.line(x + 206, y, x + 246, y, "late"), svg.text(x + 254, y + 4, "critical path")]


def of_netlist(found):
    """What the picture shows, in words."""
    netlist, path = found["netlist"], found["path"]
    cells = ", ".join(step["cell"] for step in path)
    return f"Netlist of {len(netlist['gates'])} gates from left to right; the critical path goes through {cells or 'no gate'}"
