#!/usr/bin/env python3
"""Draws the delays of bench/RESULTS.md by circuit, as SVG.

  plot.py [RESULTS FOLDER]

RESULTS is a page with tables 'Circuits of SET with LIB', as bench/all.sh prints them. FOLDER gets delay.svg. Without words they
are bench/RESULTS.md and docs/pictures. Each sign is the delay of lwmap as a ratio to that of ABC's map, for circuits as given. The
circuits are in two groups, sorted by the ratio with the first library of mcnc, rich, tiny that is there.

Example: python3 bench/plot.py

Where no such table is in RESULTS, one line on standard error says so, and the status is 1.
"""
import math
import os
import re
import sys

from lib import script, svg
from lib.script import Fault

ROOT = os.path.join(os.path.dirname(os.path.abspath(__file__)), "..")
LIBRARIES = ["mcnc", "rich", "tiny"]
# What the letters after a circuit's name say of its nodes.
WIDE = re.compile(r"_(l4|l5|l6|s|f|r)$")
LEFT, RIGHT, TOP, STEP, WIDTH = 150, 30, 96, 16, 760
MARKS = [0.7, 0.8, 0.9, 1, 1.1, 1.2, 1.3, 1.4, 1.5]


def tables(page):
    """The tables of a page, as a heading and rows of cells."""
    heading, rows = "", []
    for line in page.split("\n") + [""]:
        if line.startswith("|"):
            rows.append([cell.strip() for cell in line.strip().strip("|").split("|")])
        else:
            if rows:
                yield heading, rows
                rows = []
            if line.startswith("#"):
                heading = line.strip("# ")


def number(said):
    return float(said) if re.fullmatch(r"[0-9]+(\.[0-9]+)?", said) else None


def delays(page):
    """For each library the ratio of each circuit."""
    found = {}
    for heading, rows in tables(page):
        name = re.fullmatch(r"Circuits of \S+ with (\S+)", heading)
        if name and "`map`: delay" in rows[0]:
            ours, theirs = rows[0].index("`lwmap`: delay"), rows[0].index("`map`: delay")
            ratios = {row[0]: number(row[ours]) / number(row[theirs]) for row in rows[2:] if number(row[ours]) and number(row[theirs])}
            found.setdefault(name[1], {}).update(ratios)
    if not found:
        raise Fault("there is no table of delays by circuit")
    return {library: found[library] for library in LIBRARIES if library in found}


def mean(ratios):
    return math.exp(sum(map(math.log, ratios)) / len(ratios))


def at(ratio):
    first, last = math.log(MARKS[0]), math.log(MARKS[-1])
    return LEFT + (WIDTH - LEFT - RIGHT) * (math.log(ratio) - first) / (last - first)


def draw_delays(found):
    """The mean on top, then nodes of several inputs, then nodes of two."""
    first = next(iter(found))
    order = sorted(found[first], key=found[first].get)
    wide, narrow = ([(name, name) for name in order if bool(WIDE.search(name)) == is_wide] for is_wide in (True, False))
    rows = [("mean", None)] + wide + [("", None)] + narrow
    height = TOP + STEP * len(rows) + 56
    title = "Delay of lwmap as a ratio to ABC's map, circuits as given"
    note = f"{len(order)} circuits, width 6; ABC: strash; map. Left of 1 is faster. Scale: logarithm."
    parts = [svg.text(16, 26, title, "title"), svg.text(16, 46, note, "small")]
    for k, library in enumerate(found):
        parts += [svg.sign(k, LEFT + 130 * k, 68, "abc"[k] + ("" if k == 0 else " hollow")),
                  svg.text(LEFT + 10 + 130 * k, 72, f"{library}, mean {mean(found[library].values()):.3f}")]
    for mark in MARKS:
        parts += [svg.line(at(mark), TOP - 8, at(mark), height - 44, "axis" if mark == 1 else "rule"),
                  svg.text(at(mark), height - 28, f"{mark:g}", "small", "middle")]
    for r, (said, name) in enumerate(rows):
        y = TOP + STEP * (r + 0.6)
        if not said:
            parts.append(svg.text(LEFT - 12, y + 4, "two-input nodes", "small", "end"))
            continue
        parts += [svg.text(LEFT - 12, y + 4, said, "", "end"), svg.line(LEFT, y, WIDTH - RIGHT, y, "rule")]
        for k, library in enumerate(found):
            ratio = found[library].get(name) if name else mean(found[library].values())
            if ratio:
                parts.append(svg.sign(k, at(ratio), y, "abc"[k] + ("" if k == 0 else " hollow")))
    parts.append(svg.text(LEFT, height - 8, "Above the gap: nodes of several inputs.", "small"))
    return svg.picture(WIDTH, height, title, parts)


def main(words):
    if len(words) not in (0, 2):
        sys.exit("plot: usage: python3 bench/plot.py [RESULTS FOLDER]")
    source, folder = words or (os.path.join(ROOT, "bench", "RESULTS.md"), os.path.join(ROOT, "docs", "pictures"))
    with open(source, encoding="utf-8") as file:
        page = file.read()
    os.makedirs(folder, exist_ok=True)
    with open(os.path.join(folder, "delay.svg"), "w", encoding="utf-8") as file:
        file.write(draw_delays(delays(page)))


if __name__ == "__main__":
    script.run("plot", main, Fault, UnicodeError, written="a picture")
