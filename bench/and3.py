#!/usr/bin/env python3
"""Draws the graph of the AND of three inputs, the example of docs/METHOD.md, as SVG.

  and3.py [OUT]

OUT is docs/pictures/and3.svg without words. The classes, the pairs and the labels are computed here, with inv of delay 1,
nand2 of delay 1.5 and nand3 of delay 2. The chosen cover is drawn thick, and what one cell covers is shaded.

Example: python3 bench/and3.py
"""
import itertools

from lib import svg

INV, NANDS = 1, {2: 1.5, 3: 2}
INPUTS = "abc"
# The operands of each class by its number; class n + 1 is the complement of class n.
OPERANDS = {2 * k + 2: part for k, part in enumerate(part for size in (1, 2, 3) for part in itertools.combinations(INPUTS, size))}
NUMBER = {part: number for number, part in OPERANDS.items()}


def pairs(part):
    """The pairs of the complement of an And: its operands in two."""
    for size in range(1, len(part)):
        for left in itertools.combinations(part, size):
            right = tuple(one for one in part if one not in left)
            if NUMBER[left] < NUMBER[right]:
                yield NUMBER[left], NUMBER[right]


def labels():
    """The least arrival at each class, and the pins of the cell that gives it."""
    label, pins = {NUMBER[(one,)]: 0 for one in INPUTS}, {}
    changed = True
    while changed:
        changed = False
        for number, part in OPERANDS.items():
            matches = [(number, INV, [number + 1]), (number + 1, INV, [number])]
            matches += [(number + 1, NANDS[2], list(pair)) for pair in pairs(part)]
            matches += [(number + 1, NANDS[3], [NUMBER[(one,)] for one in part])] if len(part) == 3 else []
            for at, delay, found in matches:
                if all(pin in label for pin in found):
                    arrival = max(label[pin] for pin in found) + delay
                    if arrival < label.get(at, arrival + 1):
                        label[at], pins[at], changed = arrival, found, True
    return label, pins


# Where each class is drawn: the AND on top, the ANDs of two with their complements, and each input once.
PLACE = {14: (400, 70), 15: (400, 150)} | {8 + 2 * k + odd: (150 + 250 * k, 310 + 80 * odd) for k in range(3) for odd in (0, 1)}
PLACE |= {2 + 2 * k: (150 + 250 * k, 560) for k in range(3)}


class Drawing:
    def __init__(self):
        self.label, self.pins = labels()
        self.shades, self.links, self.boxes = [], [], []

    def node(self, number, chosen):
        """A class, with its form and its label."""
        x, y = PLACE[number]
        part = " ".join(OPERANDS[number & ~1])
        form = part if not number & 1 else f"not ({part})"
        self.boxes += [svg.box(x - 52, y - 21, 104, 42, "box chosen" if chosen else "box"), svg.text(x, y - 4, f"{number}: {form}", "", "middle"),
                       svg.text(x, y + 13, f"label {svg.number(self.label[number])}", "small", "middle")]

    def link(self, x1, y1, x2, y2, chosen, said=""):
        self.links.append(svg.line(x1, y1, x2, y2, "link chosen" if chosen else "link"))
        if said:
            self.boxes.append(svg.text((x1 + x2) / 2 + 6, (y1 + y2) / 2 + 4, said, "small"))

    def choice(self, x, y, pair, chosen):
        """A NAND of a pair of classes."""
        self.boxes += [svg.box(x - 46, y - 13, 92, 26, "box chosen" if chosen else "box"),
                       svg.text(x, y + 4, f"NAND ({pair[0]}, {pair[1]})", "small", "middle")]

    def covered(self, x, y, width, height, cell, at):
        self.shades += [svg.box(x, y, width, height, "shade"), svg.text(at[0], at[1], cell, "small")]

    def column(self, single, both, chosen):
        """One choice at class 15: the NAND of an input and an AND of two, and the choice below that."""
        x, y = PLACE[both]
        self.link(400, 171, x, 217, chosen)
        self.choice(x, 230, (single, both), chosen)
        self.link(x, 243, x, y - 21, chosen)
        self.link(x + 46, 230, x + 105, 230, chosen)
        self.link(x + 105, 230, x + 105, 460, chosen)
        self.link(x + 105, 460, PLACE[single][0] + (20 if single == 2 else 0), 539, chosen)
        self.node(both, chosen)
        self.link(x, y + 21, x, y + 59, chosen, "inverter")
        self.node(both + 1, chosen)
        (pair,) = pairs(OPERANDS[both])
        self.link(x, y + 101, x, y + 127, chosen)
        self.choice(x, y + 140, pair, chosen)
        for pin in pair:
            self.link(x, y + 153, PLACE[pin][0] - (20 if pin != 2 else 0), 539, chosen)

    def draw(self):
        top = NUMBER[tuple(INPUTS)]
        self.covered(330, 40, 140, 76, "inv", (476, 60))
        self.covered(90, 205, 122, 268, "nand3", (96, 200))
        self.node(top, True)
        self.link(400, 91, 400, 129, True, "inverter")
        self.node(top + 1, True)
        for single, both in sorted(pairs(OPERANDS[top]), key=lambda pair: pair[1]):
            self.column(single, both, both == 8)
        for one in INPUTS:
            self.node(NUMBER[(one,)], True)
        note = "Thick: the chosen cover, an inverter after nand3 on the three inputs. Shaded: what each of the two cells covers."
        title = "The graph of the AND of three inputs, with all its choices"
        return svg.picture(800, 630, title, self.shades + [svg.text(16, 26, title, "title")] + self.links + self.boxes +
                           [svg.text(16, 616, note, "small")])


if __name__ == "__main__":
    svg.run("and3", lambda: Drawing().draw())
