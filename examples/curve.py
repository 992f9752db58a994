#!/usr/bin/env python3
"""Draws for a circuit and a library what time costs in area, as SVG.

  curve.py [-o WORDS] LIB IN PICTURE [FACTOR..]

It runs 'map', 'trade' at FACTOR times the least time, for each FACTOR (1, 1.02, 1.05, 1.1, 1.15, 1.2, 1.25, 1.3, 1.4 and 1.5),
and 'trade none'. The least time is the greatest arrival of an output of what 'map' wrote. PICTURE has delay against area, on
the left with each gate counted once, on the right by trees: the sum over the outputs and what latches read, where each use of a
shared part counts. The figures stand in a table on standard output too. WORDS are options of both commands, as '-w 4' or '-i'.
A time with more points than the program deals with is told, and left out. The program is the one that release/program.sh finds.

Example: python3 examples/curve.py bench/libs/mcnc.genlib bench/circuits/alu8_r.blif curve.svg
"""
import getopt
import os
import subprocess
import sys
import tempfile
from collections import namedtuple
from fractions import Fraction

from lib import genlib, program, script, svg, timing
from lib.script import Fault


FACTORS = "1 1.02 1.05 1.1 1.15 1.2 1.25 1.3 1.4 1.5".split()
WIDTH, HEIGHT, LEFT, TOP, BOTTOM, INNER = 900, 400, 70, 88, 56, 350
Size = namedtuple("Size", "said kind delay areas")
KINDS = {"map": (0, "b"), "trade": (1, "a"), "none": (2, "c")}


def written(words, path):
    """Whether a run wrote its netlist; a limit is told, and any other end is a fault."""
    with open(path, "wb") as file:
        done = subprocess.run([program.path()] + words, stdout=file, stderr=subprocess.PIPE)
    said = os.fsdecode(done.stderr).strip().removeprefix("lwmap: ")
    if done.returncode == 5 and words[0] == "trade":
        print(f"curve: {' '.join(words)}: {said}", file=sys.stderr)
    elif done.returncode:
        raise Fault(f"{words[0]} ended with {done.returncode}: {said[:200]}")
    return done.returncode == 0


def sizes(options, library, network, factors):
    """What each run comes to, 'map' first, in millionths."""
    cells = genlib.read_genlib(library)
    with tempfile.TemporaryDirectory() as room:
        path = os.path.join(room, "mapped")

        def size(said, kind, words):
            if not written(words, path):
                return None
            t = timing.Timing(cells, path)
            return Size(said, kind, t.max, (t.area, t.tree_area()))

        found = [size("map", "map", ["map", *options, library, network])]
        for factor in factors:
            deadline = genlib.show(-(-found[0].delay * factor.numerator // factor.denominator))
            found.append(size(f"trade {deadline}", "trade", ["trade", *options, deadline, library, network]))
        found.append(size("trade none", "none", ["trade", *options, "none", library, network]))
    return [one for one in found if one]


class Panel:
    """Delay against one of the areas."""

    def __init__(self, left, title, which, found):
        self.left, self.title, self.which = left, title, which
        self.found = [(one, one.delay / genlib.UNIT, one.areas[which] / genlib.UNIT) for one in found]
        delays = [delay for _, delay, _ in self.found]
        room = (max(delays) - min(delays)) * 0.06 or 1
        self.first, self.last = min(delays) - room, max(delays) + room
        self.most = max(area for _, _, area in self.found) * 1.06 or 1

    def x(self, delay):
        return self.left + INNER * (delay - self.first) / (self.last - self.first)

    def y(self, area):
        return HEIGHT - BOTTOM - (HEIGHT - TOP - BOTTOM) * area / self.most

    def draw(self):
        parts = [svg.text(self.left, TOP - 10, self.title)]
        for area in svg.steps(0, self.most):
            parts += [svg.line(self.left, self.y(area), self.left + INNER, self.y(area), "axis" if area == 0 else "rule"),
                      svg.text(self.left - 6, self.y(area) + 4, f"{area:.10g}", "small", "end")]
        for delay in svg.steps(self.first, self.last):
            parts += [svg.line(self.x(delay), HEIGHT - BOTTOM, self.x(delay), HEIGHT - BOTTOM + 5, "axis"),
                      svg.text(self.x(delay), HEIGHT - BOTTOM + 19, f"{delay:.10g}", "small", "middle")]
        traded = sorted((delay, area) for one, delay, area in self.found if one.kind != "map")
        for (x1, y1), (x2, y2) in zip(traded, traded[1:]):
            parts.append(svg.line(self.x(x1), self.y(y1), self.x(x2), self.y(y2), "link"))
        for one, delay, area in self.found:
            shape, colour = KINDS[one.kind]
            parts.append(svg.sign(shape, self.x(delay), self.y(area), colour + (" hollow" if one.kind == "map" else "")))
        return parts + [svg.text(self.left + INNER / 2, HEIGHT - 14, "delay", "small", "middle")]


def picture(name, found):
    parts = [svg.text(16, 26, f"What time costs in area: {name}", "title")]
    for place, (kind, said) in enumerate((("map", "map"), ("trade", "trade, by deadline"), ("none", "trade none"))):
        shape, colour = KINDS[kind]
        parts += [svg.sign(shape, LEFT + 170 * place, 47, colour + (" hollow" if kind == "map" else "")),
                  svg.text(LEFT + 10 + 170 * place, 51, said)]
    parts += Panel(LEFT, "area, each gate once", 0, found).draw()
    parts += Panel(LEFT + INNER + 90, "area by trees, all outputs", 1, found).draw()
    return svg.picture(WIDTH, HEIGHT, f"Delay against area of {name}", parts)


def main(words):
    try:
        chosen, rest = getopt.getopt(words, "o:")
        library, network, path, *factors = rest
        factors = [Fraction(factor) for factor in factors or FACTORS]
    except (getopt.GetoptError, ValueError, ZeroDivisionError):
        sys.exit("curve: usage: python3 examples/curve.py [-o WORDS] LIB IN PICTURE [FACTOR..]")
    options = dict(chosen).get("-o", "").split()
    found = sizes(options, library, network, factors)
    print("| command | delay | area, each gate once | area by trees |\n|---|---|---|---|")
    for one in found:
        print(f"| {one.said} | {' | '.join(genlib.show(value) for value in (one.delay, *one.areas))} |")
    name = os.path.basename(network).removesuffix(".blif") + " with " + os.path.basename(library).removesuffix(".genlib")
    with open(path, "w", encoding="utf-8") as file:
        file.write(picture(name, found))


if __name__ == "__main__":
    script.run("curve", main, written="the picture")
