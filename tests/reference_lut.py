#!/usr/bin/env python3
"""The command 'lut' of the second program: tables of least depth, and a test of those that another program wrote.

  reference_lut.py lut L [-w K] [-i] IN             writes tables of least depth, and ends as lwmap does
  reference_lut.py test L [-w K] [-i] IN TABLES     says whether TABLES, what 'lut L IN' wrote, is as it has to be

Which tables stand for a class is not determined, so the text of 'lut' is one of several. The test is for any of them: the
ports, the latches and the names are those of IN; the lines have their shapes and their order; no node has more than L fan-ins;
each root has the depth that is found here by counting leaves; and all roots have the values of IN, for all vectors of up to
twelve inputs and for 4,096 drawn ones of more. It says 'yes', or why not, with the status 9.

Depths are found for one depth after the other. A class that has a depth already, or whose complement has one, is one leaf; the
constants are none; any other class has the least sum over its pairs and those of its complement, counted over finite trees
alone. What has at most L leaves and has no depth yet gets the next one.
"""
import heapq
import random

import reference
from reference import Refused

VECTORS, MOST_INPUTS = 4096, 12


def leaf_counts(graph, known):
    """For each pair of classes the least number of leaves of a finite tree over the known ones, and what it is made of."""
    counts, ways = {}, {}
    users = {}
    for c, row in enumerate(graph.pairs):
        for x, y in row:
            for one in {x >> 1, y >> 1}:
                users.setdefault(one, []).append((c, x, y))
    heap = [(0, 0, ())] + [(1, c, ()) for c in sorted({c >> 1 for c in known})]
    heapq.heapify(heap)
    while heap:
        count, c, way = heapq.heappop(heap)
        if c in counts:
            continue
        counts[c], ways[c] = count, way
        for at, x, y in users.get(c, ()):
            if at >> 1 not in counts and x >> 1 in counts and y >> 1 in counts:
                heapq.heappush(heap, (counts[x >> 1] + counts[y >> 1], at >> 1, (at, x, y)))
    return counts, ways


class Depths:
    """The depth of each class that has a finite tree, and for each depth the ways of its classes."""

    def __init__(self, graph, most):
        self.depth = dict.fromkeys(graph.leaves, 0)
        self.ways = {}
        level, found = 0, True
        while found:
            level += 1
            counts, ways = leaf_counts(graph, self.depth)
            found = [c for pair, count in counts.items() if count <= most for c in (2 * pair, 2 * pair + 1) if c not in self.depth]
            for c in found:
                self.depth[c] = level
                self.ways[c] = ways


class Tables:
    """Tables of least depth for what the roots need."""

    def __init__(self, network, most, width, idempotent):
        self.network = network
        self.graph = graph = reference.Graph(network, width, idempotent)
        self.depths = Depths(graph, most)
        self.leaves = dict(zip(graph.leaves, network.leaves()))
        self.roots = dict(zip(network.roots(), graph.roots))
        self.tables = {}
        todo = list(graph.roots)
        while todo:
            c = todo.pop()
            if c not in self.leaves and c not in self.tables:
                self.tables[c] = self.table(c)
                todo += self.tables[c][0]
        self.order = sorted(self.tables, key=lambda c: (self.depths.depth[c], c))

    def table(self, c):
        """The fan-ins of a class's table, and its value for each assignment of them."""
        depth, ways = self.depths.depth, self.depths.ways[c]

        def tree(one):
            """The tree of a class, with its leaves as classes."""
            if one < 2:
                return ("const", one == 0)
            for leaf in (one, one ^ 1):
                if depth.get(leaf, depth[c]) < depth[c]:
                    return leaf if leaf == one else ("not", leaf)
            at, x, y = ways[one >> 1]
            nand = ("not", ("and", tree(x), tree(y)))
            return nand if at == one else ("not", nand)

        found = tree(c)
        fanins = sorted(leaves_of(found))

        def value(tree, values):
            if isinstance(tree, int):
                return values[tree]
            if tree[0] == "const":
                return tree[1]
            if tree[0] == "not":
                return not value(tree[1], values)
            return value(tree[1], values) and value(tree[2], values)

        bits = []
        for row in range(1 << len(fanins)):
            assigned = {one: bool(row >> (len(fanins) - 1 - k) & 1) for k, one in enumerate(fanins)}
            bits.append(value(found, assigned))
        return fanins, bits

    def text(self):
        net = reference.net_names(self.leaves, self.roots, self.order)
        lines = reference.head_lines(self.network, False)
        for c in self.order:
            fanins, bits = self.tables[c]
            lines.append([b".names"] + [net[one] for one in fanins] + [net[c]])
            if bits == [False, True]:
                lines.append([b"0", b"0"])
                continue
            for row, bit in enumerate(bits):
                if bit:
                    spelt = b"".join(b"1" if row >> k & 1 else b"0" for k in reversed(range(len(fanins))))
                    lines.append([spelt, b"1"] if fanins else [b"1"])
        lines += reference.wire_lines((net[root], name) for name, root in self.roots.items())
        return reference.joined(lines + [[b".end"]])


def leaves_of(tree):
    if isinstance(tree, int):
        return {tree}
    return set() if tree[0] == "const" else {leaf for part in tree[1:] for leaf in leaves_of(part)}


# The test

def no(text):
    raise Refused(9, b"no: " + text)


def is_wire(node):
    return len(node.fanins) == 1 and node.on and node.rows == [b"1"]


def test_lines(data, model):
    """The head, and the shapes of the other lines. It gives the nets of the nodes, in the order of the text."""
    head = reference.head_lines(model, False)
    if not data.startswith(reference.joined(head)):
        no(b"the head is another one")
    if not data.endswith(b"\n.end\n"):
        no(b"the last line is not .end")
    lines = [line.split(b" ") for line in data.split(b"\n")[len(head):-2]]
    for words in lines:
        if words[0] != b".names" and (words[0][:1] not in (b"0", b"1") or len(words) > 2):
            no(b"a line of another kind: " + b" ".join(words))
    return [words[-1] for words in lines if words[0] == b".names"]


def test(data, network, most, width, idempotent):
    graph = reference.Graph(network, width, idempotent)
    depths = Depths(graph, most).depth
    order = test_lines(data, network)
    try:
        made = reference.read_blif(data, b"TABLES")
    except Refused as refused:
        no(b"it is no network: " + refused.text)
    if (made.roots(), made.leaves()) != (network.roots(), network.leaves()):
        no(b"other roots or inputs")
    depth = test_nodes(made, most)
    test_order(order, made, depth, network)
    for name, root in zip(network.roots(), graph.roots):
        if depth[name] != depths[root]:
            no(b"root %s has the depth %d, the least is %d" % (name, depth[name], depths[root]))
    test_values(network, made)
    return b"yes\n"


def test_nodes(made, most):
    """The fan-ins and the rows of each node. It gives the depth of each net; wires add nothing."""
    depth = dict.fromkeys(made.leaves(), 0)
    for node in made.nodes:
        if len(node.fanins) > most:
            no(b"node %s has more than %d fan-ins" % (node.out, most))
        if len(set(node.fanins)) < len(node.fanins):
            no(b"node %s reads a net twice" % node.out)
        depth[node.out] = max([depth[one] for one in node.fanins], default=0) + (not is_wire(node))
        if node.on and node.rows != sorted(set(node.rows)) or any(b"-" in row for row in node.rows):
            no(b"the rows of node %s are not in their order" % node.out)
        if not node.on and node.rows != [b"0"]:
            no(b"node %s has rows for 0" % node.out)
    return depth


def test_order(order, made, depth, network):
    """Tables stand by depth, and then wires; each is needed; the nets that are no roots have the next free names, in order."""
    wires = {node.out for node in made.nodes if is_wire(node)}
    roots = set(network.roots())
    places = [(net in wires, 0 if net in wires else depth[net]) for net in order]
    if places != sorted(places):
        no(b"the nodes are not in their order")
    read = roots | {one for node in made.nodes for one in node.fanins}
    taken, number = roots | set(network.leaves()), 0
    for net in order:
        if net not in read or net in wires and net not in roots:
            no(b"nothing needs node %s" % net)
        if net not in roots:
            number += 1
            while b"n%d" % number in taken:
                number += 1
            if net != b"n%d" % number:
                no(b"node %s has not the next free name" % net)


def test_values(network, made):
    """The values of all roots, for many vectors at a time."""
    leaves = network.leaves()
    count = 1 << len(leaves) if len(leaves) <= MOST_INPUTS else VECTORS
    ones = (1 << count) - 1
    draw = random.Random(1)
    given = {}
    for k, leaf in enumerate(leaves):
        if len(leaves) <= MOST_INPUTS:
            given[leaf] = sum(1 << v for v in range(count) if v >> k & 1)
        else:
            given[leaf] = draw.getrandbits(count)
    for name in network.roots():
        if values_of(network, given, ones)[name] != values_of(made, given, ones)[name]:
            no(b"root %s has other values" % name)


def values_of(network, given, ones):
    values = dict(given)
    for node in network.nodes:
        holds = 0
        for row in node.rows:
            cube = ones
            for sign, fanin in zip(row, node.fanins):
                if sign != 45:
                    cube &= values[fanin] if sign == 49 else ones ^ values[fanin]
            holds |= cube
        values[node.out] = holds if node.on or not node.rows else ones ^ holds
    return values


def answer(given):
    words = reference.Words(given)
    command = words.next()
    words.test(command in (b"lut", b"test"))
    most = words.next()
    words.test(most in (b"2", b"3", b"4", b"5", b"6"))
    width, idempotent = words.width(), words.option(b"-i")
    files = words.files(1 if command == b"lut" else 2)
    network = reference.network_of(files[0])
    if command == b"lut":
        return Tables(network, int(most), width, idempotent).text()
    return test(reference.text_of(files[1]), network, int(most), width, idempotent)


if __name__ == "__main__":
    reference.main(answer)
