"""Functions of cells: read, written, compared and put into other forms.

A tree is a pin's name, or ("!", tree), or ("*", tree..), or ("+", tree..), or ("^", tree, tree). Trees are flat: no
product stands in a product, no sum in a sum, no complement in a complement; but read with flat=False a tree has the
brackets of its text. The ranks are ' and !, then ^, then products (* & and blanks), then sums (+ and |). A function of a
genlib has ! ' * + and brackets alone.
"""
import re

from .script import Fault

NAME = r"[^\s#;()!'+*=&|^\"]+"
MOST_NAMES, MOST_BYTES = 64, 2048


def inverse(tree):
    """The complement of a tree."""
    return tree[1] if tree[0] == "!" and isinstance(tree, tuple) else ("!", tree)


def join(sign, parts):
    """The product or the sum of some trees."""
    flat = []
    for part in parts:
        flat += part[1:] if isinstance(part, tuple) and part[0] == sign else [part]
    return flat[0] if len(flat) == 1 else (sign, *flat)


def nest(sign, parts):
    """The same, with the brackets kept."""
    return parts[0] if len(parts) == 1 else (sign, *parts)


class Reader:
    """Reads the text of a function. Where genlib holds, the signs of Liberty alone (& | ^) are refused."""

    def __init__(self, text, flat=True, genlib=False):
        self.signs = re.findall(r"[()!'+*]|" + NAME + r"|\S", text) + [""]
        self.at = 0
        self.joined = join if flat else nest
        self.ands, self.ors, self.xors = (("*",), ("+",), ()) if genlib else (("*", "&"), ("+", "|"), ("^",))

    def next(self):
        self.at += 1
        return self.signs[self.at - 1]

    def refuse(self, sign):
        raise Fault(f"not understood at {sign or 'its end'}")

    def factor(self):
        sign = self.next()
        if sign == "!":
            return inverse(self.factor())
        if sign == "(":
            tree = self.sum()
            if self.next() != ")":
                raise Fault("a bracket is missing")
        elif re.fullmatch(NAME, sign):
            tree = sign
        else:
            self.refuse(sign)
        while self.signs[self.at] == "'":
            self.at += 1
            tree = inverse(tree)
        return tree

    def operand(self):
        tree = self.factor()
        while self.signs[self.at] in self.xors:
            self.at += 1
            tree = ("^", tree, self.factor())
        return tree

    def product(self):
        parts = [self.operand()]
        while self.signs[self.at] not in ("", ")", *self.ors):
            if self.signs[self.at] in self.ands:
                self.at += 1
            parts.append(self.operand())
        return self.joined("*", parts)

    def sum(self):
        parts = [self.product()]
        while self.signs[self.at] in self.ors:
            self.at += 1
            parts.append(self.product())
        return self.joined("+", parts)

    def whole(self):
        """The tree of the whole text."""
        tree = self.sum()
        if self.signs[self.at]:
            self.refuse(self.signs[self.at])
        return tree


def read(text, flat=True, genlib=False):
    """The tree of a text; a Fault says what is wrong with it."""
    return Reader(text, flat, genlib).whole()


def names(tree):
    """The names of a tree, as often as they stand."""
    return [tree] if isinstance(tree, str) else [name for part in tree[1:] for name in names(part)]


def pins(tree):
    """The names of a tree, each once, in the order of their first places."""
    return list(dict.fromkeys(names(tree)))


def table(tree, order):
    """The truth table: bit r is the value in row r, in which the pin at place i of the order has the value of bit i."""
    rows = 1 << len(order)
    ones = (1 << rows) - 1
    of = {pin: sum(1 << r for r in range(rows) if r >> i & 1) for i, pin in enumerate(order)}
    of.update({"CONST0": 0, "CONST1": ones})

    def value(tree):
        if isinstance(tree, str):
            return of[tree]
        parts = [value(part) for part in tree[1:]]
        if tree[0] == "!":
            return parts[0] ^ ones
        one = parts[0]
        for other in parts[1:]:
            one = one & other if tree[0] == "*" else one | other if tree[0] == "+" else one ^ other
        return one

    return value(tree)


def plain(tree):
    """The tree with each exclusive or as a sum of two products."""
    if isinstance(tree, str):
        return tree
    if tree[0] == "!":
        return inverse(plain(tree[1]))
    if tree[0] == "^":
        a, b = plain(tree[1]), plain(tree[2])
        return ("+", join("*", [a, inverse(b)]), join("*", [inverse(a), b]))
    return join(tree[0], [plain(part) for part in tree[1:]])


def write(tree):
    """The text of a tree in genlib, with brackets where the tree has them."""
    if isinstance(tree, str):
        return tree
    if tree[0] == "!":
        return "!" + bracketed(tree[1], "*+")
    if tree[0] == "*":
        return "*".join(bracketed(part, "*+") for part in tree[1:])
    return "+".join(bracketed(part, "+") for part in tree[1:])


def bracketed(tree, signs):
    text = write(tree)
    return f"({text})" if isinstance(tree, tuple) and tree[0] in signs else text


def verilog(tree):
    """The text of a tree as an expression of Verilog."""
    if isinstance(tree, str):
        return {"CONST0": "1'b0", "CONST1": "1'b1"}.get(tree) or f"\\{tree} "
    if tree[0] == "!":
        return "~" + verilog(tree[1])
    return "(" + f" {({'*': '&', '+': '|', '^': '^'})[tree[0]]} ".join(verilog(part) for part in tree[1:]) + ")"


def fits(tree):
    """Whether a function is within the limits of a library here."""
    return len(names(tree)) <= MOST_NAMES and len(write(tree)) <= MOST_BYTES


# Forms of a truth table over some pins. A cube is a pair of sets of bits: the pins that it has, and those as they are.

def cofactor(truth, count, pin, value):
    """The table in which a pin has one value; it no longer depends on the pin."""
    step = 1 << pin
    rows = sum(1 << r for r in range(1 << count) if (r >> pin & 1) == value)
    part = truth & rows
    return part | (part >> step if value else part << step)


def primes(truth, count):
    """The prime cubes."""
    cubes = {((1 << count) - 1, r) for r in range(1 << count) if truth >> r & 1}
    found = []
    while cubes:
        merged, above = set(), set()
        for mask, value in cubes:
            for i in range(count):
                if mask >> i & 1 and (mask, value ^ 1 << i) in cubes:
                    above.add((mask ^ 1 << i, value & ~(1 << i)))
                    merged.add((mask, value))
        found += sorted(cubes - merged)
        cubes = above
    return found


def rows_of(cube, count):
    """The rows of a cube, as a table."""
    return sum(1 << r for r in range(1 << count) if (r & cube[0]) == cube[1])


def cover(truth, count):
    """A list of prime cubes, none of which can be left out."""
    rows = {cube: rows_of(cube, count) for cube in primes(truth, count)}
    kept = sorted(rows, key=lambda cube: (bin(cube[0]).count("1"), cube))
    for cube in kept[::-1]:
        rest = 0
        for other in kept:
            rest |= rows[other] if other != cube else 0
        if rest == truth:
            kept.remove(cube)
    return kept


def irredundant(truth, count):
    """A list of prime cubes, none of which can be left out, found without all primes: Minato's recursion over the pins, from
    the last on. A table of the first n pins has 1 << n rows, and the one of a pin's value is a half of it."""

    def some(lower, upper, pins):
        """Cubes whose rows hold all of lower and nothing outside of upper, and these rows."""
        if not lower:
            return [], 0
        if upper == (1 << (1 << pins)) - 1:
            return [(0, 0)], upper
        half, bit = 1 << pins - 1, 1 << pins - 1
        ones = (1 << half) - 1
        low, high = (lower & ones, lower >> half), (upper & ones, upper >> half)
        without, made0 = some(low[0] & ~high[1], high[0], pins - 1)
        with_it, made1 = some(low[1] & ~high[0], high[1], pins - 1)
        both, made = some(low[0] & ~made0 | low[1] & ~made1, high[0] & high[1], pins - 1)
        cubes = [(mask | bit, value) for mask, value in without] + [(mask | bit, value | bit) for mask, value in with_it] + both
        return cubes, made0 | made | (made1 | made) << half

    return some(truth, truth, count)[0]


def literals(cube, order):
    """The literals of a cube over the pins of an order."""
    return [pin if cube[1] >> i & 1 else ("!", pin) for i, pin in enumerate(order) if cube[0] >> i & 1]


def sum_of(cubes, order):
    """The sum of some cubes."""
    return join("+", [join("*", literals(cube, order)) for cube in cubes])


def factored(cubes, order, first=None):
    """The literal that stands in most cubes is taken out, again and again; the first one may be given."""
    count = {}
    for cube in cubes:
        for one in literals(cube, order):
            count[one] = count.get(one, 0) + 1
    best = first or max(count, key=lambda one: count[one])
    if count[best] < 2:
        return sum_of(cubes, order)
    bit = 1 << order.index(best if isinstance(best, str) else best[1])
    with_it = [cube for cube in cubes if best in literals(cube, order)]
    without = [cube for cube in cubes if cube not in with_it]
    inner = factored([(mask & ~bit, value & ~bit) for mask, value in with_it], order)
    return join("+", [join("*", [best, inner])] + ([factored(without, order)] if without else []))


def most_common(cubes, order):
    """The literals that stand in most cubes, where that is more than one."""
    count = {}
    for cube in cubes:
        for one in literals(cube, order):
            count[one] = count.get(one, 0) + 1
    most = max(count.values())
    return [one for one in count if count[one] == most and most > 1]
