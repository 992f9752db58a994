#!/usr/bin/env python3
"""Adds to each cell of a genlib the usual other forms of its function, since lwmap finds a cell by its form.

  forms.py [-n N] LIB >OUT

LIB's text comes first, as it is, and then further entries under the names of its cells, N at most for each (8), those
with the fewest names first. A form is a way to write the function that leads to other trees of NANDs:

  - the sum of products, of the function and of its complement, and both factored by literals;
  - an exclusive or of two parts as p*!q+!p*q, as !(p*q+!p*!q), and by four NANDs, p*!(p*q)+q*!(p*q);
  - a multiplexer as s*p+!s*q, as !(s*!p+!s*!q), as (s+q)*(!s+p), and without its inverter, s*p+q*!(s*q);
  - a product or a sum with its brackets gone, so that lwmap takes all bracketings, and one of more than four parts in
    two halves, since lwmap takes one bracketing of these.

Each form is read back, and stands in OUT only where its truth table and its pins are the cell's. Pins that a function
names in vain and cells of more than 8 pins keep a cell as it is; they are named on standard error, and so is what was
added. Example:

  python3 tools/forms.py bench/libs/mcnc.genlib >mcnc_forms.genlib

More forms are more matches and more time, most so with cells that are exclusive ors of several pins. Where LIB cannot be
read, one line on standard error says why, and the status is 1.
"""
import functools
import itertools
import sys

from lib import expressions, genlib, script
from lib.expressions import cofactor, inverse, join

MOST_PINS, MOST_ENTRIES, WIDE = 8, 4096, 4
INNER = 3


@functools.lru_cache(None)
def key(tree):
    """The trees of NANDs of a form: a sum is a product under complements, and the order of operands is nothing."""
    if isinstance(tree, str):
        return (False, tree)
    if tree[0] == "!":
        negative, one = key(tree[1])
        return (not negative, one)
    parts = [key(part) for part in tree[1:]]
    if tree[0] == "+":
        return (True, tuple(sorted(((not negative, one) for negative, one in parts), key=str)))
    return (False, tuple(sorted(parts, key=str)))


def flat(tree):
    """The same without brackets in products and sums, also where complements stand between; a sum of complements is
    written as the complement of a product."""
    def pushed(tree, negative):
        if isinstance(tree, str):
            return ("!", tree) if negative else tree
        if tree[0] == "!":
            return pushed(tree[1], not negative)
        sign = tree[0] if not negative else "+" if tree[0] == "*" else "*"
        parts = join(sign, [pushed(part, negative) for part in tree[1:]])[1:]
        if sign == "+" and 2 * sum(part[0] == "!" for part in parts) > len(parts):
            return ("!", join("*", [inverse(part) for part in parts]))
        return (sign, *parts)

    return pushed(tree, False)


def halved(tree):
    """The same with each product or sum of many parts in two halves."""
    if isinstance(tree, str):
        return tree
    parts = [halved(part) for part in tree[1:]]
    if tree[0] == "!" or len(parts) <= WIDE:
        return (tree[0], *parts)
    middle = (len(parts) + 1) // 2
    return (tree[0], halved((tree[0], *parts[:middle])), halved((tree[0], *parts[middle:])))


@functools.lru_cache(None)
def size(tree):
    return 1 if isinstance(tree, str) else sum(size(part) for part in tree[1:])


def few(trees, most):
    """The smallest of some trees, one of each shape."""
    found = {}
    for tree in sorted(trees, key=size):
        if len(found) == most:
            break
        found.setdefault(key(tree), tree)
    return list(found.values())


class Table:
    """A truth table over some pins, each of which it depends on."""

    def __init__(self, truth, pins):
        self.truth, self.pins = truth, list(pins)
        for i in range(len(pins))[::-1]:
            if cofactor(self.truth, len(self.pins), i, 0) == self.truth:
                self.truth = self.without(i)
                del self.pins[i]
        self.count = len(self.pins)
        self.ones = (1 << (1 << self.count)) - 1

    def without(self, i):
        """The truth table with the pin at a place gone."""
        rows = [r for r in range(1 << len(self.pins)) if not r >> i & 1]
        return sum(1 << k for k, r in enumerate(rows) if self.truth >> r & 1)

    def fixed(self, pin, value):
        return Table(cofactor(self.truth, self.count, self.pins.index(pin), value), self.pins)

    def complement(self):
        return Table(self.truth ^ self.ones, self.pins)

    def sums(self):
        """The sum of products, and its factorings."""
        cubes = expressions.cover(self.truth, self.count)
        found = [expressions.sum_of(cubes, self.pins)]
        for first in expressions.most_common(cubes, self.pins)[:4]:
            found.append(expressions.factored(cubes, self.pins, first))
        return found

    def halves(self):
        """Each way to give the function as one of two functions, of some pins and of the others: sign, Table, Table. Of
        products and sums the first will do, since its parts are joined to those of the others."""
        for size in range(1, self.count):
            for left in itertools.combinations(range(self.count), size):
                for found in self.split(left) if 0 in left else ():
                    yield found
                    if found[0] != "^":
                        return

    def split(self, left):
        right = [i for i in range(self.count) if i not in left]
        columns = {}
        for bits in range(1 << len(right)):
            chosen = sum(1 << i for k, i in enumerate(right) if bits >> k & 1)
            rows = [chosen + sum(1 << i for k, i in enumerate(left) if r >> k & 1) for r in range(1 << len(left))]
            column = sum(1 << r for r, row in enumerate(rows) if self.truth >> row & 1)
            columns.setdefault(column, []).append(bits)
        if len(columns) != 2:
            return
        ones = (1 << (1 << len(left))) - 1
        one, other = sorted(columns)
        sign = "*" if one == 0 else "+" if other == ones else "^" if one ^ other == ones else None
        if sign:
            column = one if sign != "*" else other
            where = columns[other]
            yield (sign, Table(column, [self.pins[i] for i in left]),
                   Table(sum(1 << bits for bits in where), [self.pins[i] for i in right]))

    def multiplexers(self):
        """Each pin that stands both as it is and complemented, with the functions that it chooses between: pin, at 1, at 0."""
        for pin in self.pins:
            one, zero = self.fixed(pin, 1), self.fixed(pin, 0)
            at_one = cofactor(self.truth, self.count, self.pins.index(pin), 1)
            at_zero = cofactor(self.truth, self.count, self.pins.index(pin), 0)
            if one.count and zero.count and at_one & at_zero not in (at_one, at_zero):
                yield pin, one, zero


def exclusive(p, q, r):
    """p ^ q, where q and r are two forms of one function."""
    yield ("+", join("*", [p, inverse(q)]), join("*", [inverse(p), r]))
    yield inverse(("+", join("*", [p, q]), join("*", [inverse(p), inverse(r)])))


def by_nands(p, q):
    for one, two, odd in ((p, q, False), (inverse(p), inverse(q), False), (p, inverse(q), True), (inverse(p), q, True)):
        nand = inverse(join("*", [one, two]))
        tree = ("+", join("*", [one, nand]), join("*", [two, nand]))
        yield inverse(tree) if odd else tree


def multiplexed(s, p, q):
    yield join("+", [join("*", [s, p]), join("*", [inverse(s), q])])
    yield inverse(join("+", [join("*", [s, inverse(p)]), join("*", [inverse(s), inverse(q)])]))
    yield join("*", [join("+", [s, q]), join("+", [inverse(s), p])])
    yield join("+", [join("*", [s, p]), join("*", [q, inverse(join("*", [s, q]))])])
    yield join("+", [join("*", [inverse(s), q]), join("*", [p, inverse(join("*", [inverse(s), p]))])])


FORMS = {}


def forms(table):
    """Trees of a table, without any limit but on its parts."""
    known = (table.truth, tuple(table.pins))
    if known not in FORMS:
        FORMS[known] = list(made(table))
    return FORMS[known]


def made(table):
    if table.count == 1:
        return [table.pins[0] if table.truth == 2 else ("!", table.pins[0])]
    found = table.sums() + [inverse(tree) for tree in table.complement().sums()]
    for sign, left, right in table.halves():
        some, others = few(forms(left), INNER), few(forms(right), INNER)
        for p in some:
            for q in others:
                found += [join(sign, [p, q])] if sign != "^" else by_nands(p, q)
        if sign == "^":
            found += [tree for p in some for q in others for r in others for tree in exclusive(p, q, r)]
            found += [tree for q in others for p in some for r in some for tree in exclusive(q, p, r)]
    if table.count > 2:
        for pin, one, zero in table.multiplexers():
            for p in few(forms(one), 2):
                for q in few(forms(zero), 2):
                    found += multiplexed(pin, p, q)
    return found


def further(cell, most):
    """The texts of a cell's further forms."""
    first = expressions.read(cell.funs[0])
    truth = expressions.table(first, cell.pins)
    table = Table(truth, cell.pins)
    if table.count < max(len(cell.pins), 1):
        return None
    seen = {key(expressions.read(fun, False)) for fun in cell.funs}
    found = []
    trees = [expressions.read(fun) for fun in cell.funs] + sorted(forms(table) if len(cell.pins) > 1 else [], key=size)
    for tree in trees:
        for one in (flat(tree), halved(flat(tree))) if len(found) < most else ():
            if key(one) not in seen and expressions.fits(one) and set(expressions.pins(one)) == set(cell.pins):
                seen.add(key(one))
                found.append(one)
    texts = [expressions.write(tree) for tree in found[:most]]
    for text in texts:
        order = expressions.pins(expressions.read(text))
        if sorted(order) != sorted(cell.pins) or genlib.truth(text, cell.pins) != genlib.truth(cell.funs[0], cell.pins):
            raise script.Fault(f"a form of cell {cell.name} has another truth table: {text}")
    return texts


def entry(cell, text):
    lines = [f"GATE {cell.name} {genlib.show(cell.area)} {cell.out}={text};"]
    for pin, delay, phase in zip(cell.pins, cell.delays, cell.phases):
        lines.append(f"  PIN {pin} {phase} 1 999 {genlib.show(delay)} 0 {genlib.show(delay)} 0")
    return "\n".join(lines) + "\n"


def main(words):
    most = 8
    if words[:1] == ["-n"]:
        if len(words) < 2 or not words[1].isdigit():
            sys.exit("forms: -n wants a number")
        most, words = int(words[1]), words[2:]
    if len(words) != 1 or words[0].startswith("-"):
        sys.exit("forms: usage: python3 tools/forms.py [-n N] LIB >OUT")
    cells = genlib.read_genlib(words[0])
    with open(words[0], encoding="latin-1") as file:
        text = file.read()
    entries = sum(len(cell.funs) for cell in cells.values())
    added, kept = [], []
    for cell in cells.values():
        texts = further(cell, most) if len(cell.pins) <= MOST_PINS and cell.pins else None
        if texts is None:
            kept += [cell.name] if cell.pins else []
        else:
            added += [entry(cell, one) for one in texts]
    if entries + len(added) > MOST_ENTRIES:
        raise script.Fault(f"more than {MOST_ENTRIES} entries; a smaller -n makes fewer")
    sys.stdout.reconfigure(encoding="latin-1")
    sys.stdout.write(text + ("" if text.endswith("\n") or not text else "\n"))
    sys.stdout.write(f"# Further forms, by tools/forms.py.\n{''.join(added)}" if added else "")
    if kept:
        print("forms: left as they are: " + " ".join(kept), file=sys.stderr)
    print(f"forms: {len(added)} added to {len(cells)} cells", file=sys.stderr)


if __name__ == "__main__":
    script.run("forms", main)
