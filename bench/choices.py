#!/usr/bin/env python3
"""Draws how a late input decides the decomposition of an AND of four inputs, for docs/METHOD.md, as SVG.

  choices.py [OUT]

OUT is docs/pictures/choices.svg without words. The arrivals are computed from the delays of examples/small/small.genlib.

Example: python3 bench/choices.py
"""
import itertools
import os

from lib import genlib, svg

ROOT = os.path.join(os.path.dirname(os.path.abspath(__file__)), "..")
STARTS = {"a": 3, "b": 0, "c": 0, "d": 0}
CELLS = {name: cell.delays[0] / genlib.UNIT for name, cell in
         genlib.read_genlib(os.path.join(ROOT, "examples", "small", "small.genlib")).items() if len(set(cell.delays)) == 1}
INVERTER = "big_inv"


def groups(names, count):
    """The ways to put names into so many groups."""
    if count == 1:
        yield (names,)
        return
    first, rest = names[0], names[1:]
    for size in range(len(rest) - count + 2):
        for more in itertools.combinations(rest, size):
            left = tuple(name for name in rest if name not in more)
            if len(left) >= count - 1:
                for others in groups(left, count - 1):
                    yield ((first, *more), *others)


def joined(parts):
    """The arrival of an AND whose parts one NAND joins, with an inverter after it."""
    return max(map(arrival, parts)) + CELLS[f"nand{len(parts)}"] + CELLS[INVERTER]


def arrival(names):
    """The earliest arrival of the AND of some inputs."""
    if len(names) == 1:
        return STARTS[names[0]]
    return min(joined(parts) for count in range(2, min(4, len(names)) + 1) for parts in groups(names, count))


def box(x, y, width, height, lines, chosen=False):
    parts = [svg.box(x, y, width, height, "box chosen" if chosen else "box")]
    for k, said in enumerate(lines):
        parts.append(svg.text(x + width / 2, y + height / 2 + 5 + 18 * (k - (len(lines) - 1) / 2), said, "", "middle"))
    return parts


def network():
    parts = [svg.text(16, 62, "1. The network: one node", "small")] + box(140, 120, 64, 160, ["AND"])
    for k, (name, start) in enumerate(STARTS.items()):
        y = 145 + 37 * k
        parts += [svg.text(30, y + 5, name), svg.text(50, y + 5, f"arrives at {start}", "small"), svg.line(115, y, 140, y, "link")]
    return parts + [svg.line(204, 200, 224, 200, "link"), svg.text(230, 205, "f")]


def choices():
    names = tuple(STARTS)
    splits = sorted(groups(names, 2), key=lambda parts: (len(parts[0]) != 1, len(parts[1]) != 1))
    best = min(splits, key=joined)
    parts = [svg.text(270, 62, "2. The graph keeps every split; below each, the arrival of f if nand2 joins its parts", "small")]
    parts += box(505, 82, 110, 40, [f"f: {svg.number(arrival(names))}"], True)
    for k, split in enumerate(splits):
        x = 270 + 84 * k
        parts += [svg.line(560, 122, x + 39, 176, "link chosen" if split == best else "link")]
        parts += box(x, 176, 78, 48, [" | ".join("".join(part) for part in split), svg.number(joined(split))], split == best)
        if split == best:
            rest = max(split, key=len)
            parts += [svg.line(x + 39, 224, x + 60, 262, "link chosen")]
            parts += box(x, 262, 150, 46, ["".join(rest), f"nand{len(rest)} + inverter: {svg.number(arrival(rest))}"], True)
    wide = [f"{svg.number(min(joined(parts) for parts in groups(names, count)))} with nand{count}" for count in (3, 4)]
    return parts + [svg.text(450, 282, "The same graph offers wider cells at f:", "small"), svg.text(450, 302, ", ".join(wide))]


def netlist():
    parts = [svg.text(880, 62, "3. The netlist", "small")]
    parts += box(900, 210, 74, 40, ["nand3"], True) + box(994, 210, 74, 40, ["big_inv"], True)
    parts += box(994, 110, 74, 40, ["nand2"], True) + box(1088, 110, 74, 40, ["big_inv"], True)
    for k, name in enumerate("bcd"):
        parts += [svg.text(880, 220 + 13 * k, name), svg.line(890, 217 + 13 * k, 900, 217 + 13 * k, "link")]
    for x1, y1, x2, y2 in ((974, 230, 994, 230), (1068, 230, 1080, 230), (1080, 230, 1080, 180), (1080, 180, 980, 180), (980, 180, 980, 140),
                           (980, 140, 994, 140), (1068, 130, 1088, 130), (1162, 130, 1174, 130)):
        parts.append(svg.line(x1, y1, x2, y2, "link chosen"))
    return parts + [svg.text(880, 126, "a"), svg.line(890, 121, 994, 121, "link"), svg.text(1178, 135, "f")]


def draw():
    title = "f = a b c d, where a arrives late: the graph lets a be taken last"
    delays = ", ".join(f"{name} {svg.number(CELLS[name])}" for name in (INVERTER, "nand2", "nand3", "nand4"))
    parts = [svg.text(16, 26, title, "title"), *network(), *choices(), *netlist()]
    return svg.picture(1200, 350, title, parts + [svg.text(16, 336, f"Delays of examples/small/small.genlib: {delays}", "small")])


if __name__ == "__main__":
    svg.run("choices", draw)
