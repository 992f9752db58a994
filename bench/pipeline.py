#!/usr/bin/env python3
"""Draws the way from a network and a library to a netlist and its check, for docs/ARCHITECTURE.md, as SVG.

  pipeline.py [OUT]

OUT is docs/pictures/pipeline.svg without words. Under each step stands the theorem or clause that carries it.

Example: python3 bench/pipeline.py
"""

from lib import svg

# what is made, how, and what carries that; a row of boxes each
ROWS = [[("IN: BLIF", "", ""), ("network", "read, close", "IsBlifNetwork"), ("forms", "list", "forms: listed"), ("graph", "reduce", "classes_have_the_trees")],
        [("LIB: genlib", "", ""), ("cells", "read", "library_of"), ("patterns", "bracket", "library_patterns_have_the_truth"), ("labels", "search", "labels_are_least_covers")],
        [None, ("netlist", "", "netlists_are_mappings"), ("text", "write", "mapped_text"), ("yes", "check", "yes_is_a_mapping")]]


def box(x, y, said):
    return [svg.box(x, y, 130, 44, "box"), svg.text(x + 65, y + 27, said, "", "middle")]


def arrow(x1, y1, x2, y2):
    tip = svg.line(x2, y2, x2 - 7, y2 - 4, "link") + svg.line(x2, y2, x2 - 7, y2 + 4, "link") if y1 == y2 else \
        svg.line(x2, y2, x2 - 4, y2 - 7, "link") + svg.line(x2, y2, x2 + 4, y2 - 7, "link")
    return [svg.line(x1, y1, x2, y2, "link"), tip]


def draw():
    title = "From a network and a library to a netlist and its check"
    parts = [svg.text(16, 26, title, "title")]
    for k, row in enumerate(ROWS):
        y = 56 + 120 * k
        for j, step in enumerate(row):
            if not step:
                continue
            x, (said, how, fact) = 16 + 230 * j, step
            parts += box(x, y, said) + [svg.text(x + 65, y + 62, fact, "small", "middle")]
            if how:
                parts += arrow(x - 100, y + 22, x, y + 22) + [svg.text(x - 50, y + 15, how, "small", "middle")]
    # the graph goes to the labels, and these to the netlist
    parts += arrow(771, 124, 771, 176)
    parts += [svg.line(771, 244, 771, 262, "link"), svg.line(771, 262, 311, 262, "link")] + arrow(311, 262, 311, 296)
    parts.append(svg.text(540, 256, "choose a match for each class that is needed", "small", "middle"))
    return svg.picture(860, 400, title, parts)


if __name__ == "__main__":
    svg.run("pipeline", draw)
