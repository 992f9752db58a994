#!/usr/bin/env python3
"""Prints the depth of a network of lookup tables, the number of its tables, and the most fan-ins of one.

  tables.py NETWORK

NETWORK is BLIF of '.names' and '.latch', as 'lwmap lut' writes it, or ABC after 'if'. A wire is a node of one fan-in whose one
row is '1 1'; every other node is a table. The depth is the number of tables on the longest path. Inputs and what latches give
have the depth 0, and wires add nothing.
"""
import sys

from lib import blif


def read(path):
    """For each node its fan-ins and rows, by its net."""
    nodes, rows = {}, None
    for words in blif.lines(path):
        if words[0] == ".names":
            rows = []
            nodes[words[-1]] = words[1:-1], rows
        elif words[0] == ".end":
            break
        elif not words[0].startswith("."):
            rows.append(words)
    return nodes


def is_wire(node):
    return len(node[0]) == 1 and node[1] == [["1", "1"]]


def depths(nodes):
    """The depth of each net of a node; fan-ins first, whatever the order of the file."""
    depth = {}
    for net in nodes:
        todo = [net]
        while todo:
            one = todo[-1]
            missing = [fanin for fanin in nodes[one][0] if fanin in nodes and fanin not in depth]
            if missing and one not in depth:
                todo += missing
                continue
            todo.pop()
            depth[one] = max([depth.get(fanin, 0) for fanin in nodes[one][0]], default=0) + (not is_wire(nodes[one]))
    return depth


def main(given):
    if len(given) != 1:
        sys.exit("usage: tables.py NETWORK")
    nodes = read(given[0])
    tables = [node for node in nodes.values() if not is_wire(node)]
    print(max(depths(nodes).values(), default=0), len(tables), max([len(node[0]) for node in tables], default=0))


if __name__ == "__main__":
    main(sys.argv[1:])
