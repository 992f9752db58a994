"""Cases that ask for long searches, much memory or much stack, as tests/fuzz.py draws them: files, and the words of a command."""
import functools
import itertools
import os

import collide
import compare

# What fails today, and how. A kind of these is drawn only where it is named; the change that mends it takes it from here.
FAILING = {}

TWO = "GATE inv 1 O=!a;\nPIN * INV 1 999 1 0 1 0\nGATE nand2 2 O=!(a*b);\nPIN * INV 1 999 1.5 0 1.5 0\n"
DELAYS = ["0", "0.5", "1", "1.5", "2", "0.000001"]


@functools.lru_cache(None)
def stock(name):
    with open(os.path.join(compare.ROOT, "bench", "libs", name + ".genlib")) as file:
        return file.read()


def cell(draw, name, function, pins):
    own = "".join(f"PIN {pin} INV 1 999 0 0 {draw.choice(DELAYS)} 0\n" for pin in pins if draw.random() < 0.5)
    return f"GATE {name} {draw.randint(0, 9)} O={function};\n{own}PIN * INV 1 999 1 0 {draw.choice(DELAYS)} 0\n"


def ands(draw, widths):
    """Nodes that are Ands or Ors of inputs, of their complements and of the nodes before."""
    signals, lines = [f"x{k}" for k in range(max(widths) + 1)], []
    head = [".model m", ".inputs " + " ".join(signals)]
    for number, width in enumerate(widths):
        lines.append(" ".join([".names", *draw.sample(signals, width), f"g{number}"]))
        lines.append("".join(draw.choice("01") for _ in range(width)) + " " + draw.choice("01"))
        signals.append(f"g{number}")
    return "\n".join(head + [f".outputs g{len(widths) - 1}"] + lines + [".end\n"])


def product(draw, literals, depth=0):
    """A function of these literals, each operator drawn."""
    if len(literals) == 1:
        return literals[0]
    at = draw.choice([len(literals) - 1, draw.randrange(1, len(literals))])
    text = product(draw, literals[:at], depth + 1) + draw.choice("***+") + product(draw, literals[at:], depth + 1)
    return draw.choice(["({})", "({})", "!({})"]).format(text) if depth else f"!({text})"


def pins(draw):
    names = "abcd"[:draw.randint(2, 4)]
    literals = [draw.choice(names) + draw.choice(["", "", "", "'"]) for _ in range(draw.randint(4, 20))]
    width = draw.randint(2, 4)
    library = cell(draw, "big", product(draw, literals), sorted({one[0] for one in literals})) + TWO
    words = draw.choice(["map -w {} -i -c LIB IN", "map -w {} -i LIB IN", "check -w {} -i LIB IN MAPPED"]).format(width)
    return {"LIB": library, "IN": ands(draw, [draw.randint(2, width) for _ in range(draw.randint(1, 2))])}, words


def brackets(draw):
    opened, closed = draw.choice([("(", ")"), ("!(", ")"), ("(", ")'"), ("(a*", ")")])
    # (64 names are allowed, 2,048 bytes)
    most = min(63 if "a" in opened else 1000, 2040 // len(opened + closed))
    times = draw.choice([most, draw.randint(0, most)])
    function = opened * times + draw.choice(["a", "b", "!a", "", "("]) + closed * draw.choice([times, times, times, max(0, times - 1), times + 1])
    return {"LIB": cell(draw, "deep", function, []) + TWO, "IN": ands(draw, [2])}, "map LIB IN"


@functools.lru_cache(None)
def blocks():
    return list(itertools.islice(collide.blocks(), 60))


def names(draw):
    """A netlist of names that collide, some of them driven twice or not at all, in some order."""
    count = draw.choice([2, 30, 3000])
    known = draw.sample([(one + two).decode() for one in blocks() for two in blocks()], count)
    lines = []
    for number, name in enumerate(known):
        before = [known[draw.randrange(number)] for _ in range(2)] if number else ["i0", "i0"]
        lines.append(draw.choice([f".gate inv a={before[0]} O={name}", f".gate nand2 a={before[0]} b={before[1]} O={name}"]))
    for _ in range(draw.choice([0, 0, 0, 1, 2])):
        if draw.random() < 0.5:
            lines.insert(draw.randrange(len(lines) + 1), draw.choice(lines))
        else:
            lines.pop(draw.randrange(len(lines)))
    draw.shuffle(lines)
    mapped = "\n".join([".model m", ".inputs i0", f".outputs {known[-1]} {known[len(known) // 2]}", *lines, ".end\n"])
    network = "\n".join([".model m", ".inputs i0", f".outputs {known[-1]}", f".names i0 {known[-1]}", "0 1", ".end\n"])
    words = draw.choice(["time LIB MAPPED", "check LIB IN MAPPED", "sim -g LIB MAPPED VECTORS", "verilog LIB MAPPED", "unverilog LIB VER"])
    return {"LIB": TWO, "MAPPED": mapped, "IN": network, "VECTORS": "0\n1\n"}, words


def wide(draw):
    words = draw.choice(["map -w 8 -c LIB IN", "map -w 7 LIB IN", "graph -w 8 IN", "lut 4 -w 8 IN", "lut 6 -w 7 IN"])
    return {"LIB": TWO, "IN": ands(draw, [draw.randint(7, 8) for _ in range(draw.randint(1, 2))])}, words


def memory(draw):
    """(tests/fuzz.py takes memory away)"""
    words = f"trade {draw.choice(['none', '4', '20'])} LIB IN"
    return {"LIB": stock("mcnc"), "IN": ands(draw, [draw.randint(2, 5) for _ in range(draw.randint(1, 4))])}, words


KINDS = {"pins": pins, "brackets": brackets, "names": names, "wide": wide, "memory": memory}
