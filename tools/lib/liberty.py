"""Libraries of Liberty, as far as their text tells: cells, which of them are pads or buffers for clocks, and functions."""
import fnmatch
import re

from . import expressions
from .genlib import Cell
from .script import Fault

ALONE = re.compile(r"(?i)(^|_)(pad|(clk|ck)_?(buf|inv))")


def is_liberty(text):
    """Whether a text is a library of Liberty."""
    return re.search(r"\blibrary\s*\(", bare(text)) is not None


def bare(text):
    """The text without comments, and without braces in strings, each sign in its place."""
    return re.sub(r"/\*.*?\*/|\"(?:\\.|[^\"\\])*\"", lambda m: re.sub(r"[{}]", " ", m[0]) if m[0][0] == '"'
                  else " " * len(m[0]), text, flags=re.S)


def groups(text, kind):
    """Each group of a kind, as 'cell' or 'pin': its name, and where it begins and ends in a text without comments."""
    found = []
    for m in re.finditer(rf"\b{kind}\s*\(\s*\"?([^\"()]+?)\"?\s*\)\s*\{{", text):
        depth, at = 1, m.end()
        while depth:
            brace = re.compile(r"[{}]").search(text, at)
            if not brace:
                raise Fault(f"the group of {kind} {m[1]} does not end")
            depth += 1 if brace[0] == "{" else -1
            at = brace.end()
        found.append((m[1], m.start(), at))
    return found


def cells(text):
    """Each cell's name, and where its group begins and ends."""
    return groups(bare(text), "cell")


def stands_alone(name, group):
    """Whether a cell is a pad or a buffer for clocks, which no logic should be mapped to."""
    return ALONE.search(name) is not None or re.search(r"\b(pad_cell|is_pad)\s*:\s*\"?true", group) is not None


def without(patterns, text, every=False):
    """The text without the cells whose names match a pattern and, unless every one is wanted, without pads and buffers for
    clocks; and the names of both kinds."""
    if not is_liberty(text):
        raise Fault("it holds no library of Liberty")
    if not re.search(r"\bcell_(rise|fall)\s*\(", bare(text)):
        raise Fault("its cells have no delay tables (cell_rise, cell_fall), which ABC makes delays of; a library with tables is "
                    "needed, or a genlib whose delays are written by hand")
    kept, at, asked, alone = [], 0, [], []
    found = cells(text)
    for name, start, end in found:
        if any(fnmatch.fnmatchcase(name, pattern) for pattern in patterns):
            asked.append(name)
        elif not every and stands_alone(name, text[start:end]):
            alone.append(name)
        else:
            continue
        kept.append(text[at:start])
        at = end
    if len(asked) + len(alone) == len(found):
        raise Fault("no cell is left")
    return "".join(kept) + text[at:], asked, alone


def areas(text):
    """The area of each cell that gives one, by name."""
    plain = bare(text)
    found = {name: re.search(r"\barea\s*:\s*\"?([0-9.]+(?:[eE][+-]?[0-9]+)?)", plain[start:end]) for name, start, end in groups(plain, "cell")}
    return {name: float(area[1]) for name, area in found.items() if area}


def functions(text):
    """The cells with one output and a function, by name, with area 0 and delays of 0."""
    plain, found = bare(text), {}
    for name, start, end in groups(plain, "cell"):
        group = plain[start:end]
        outs = []
        for pin, first, last in groups(group, "pin"):
            function = re.search(r"\bfunction\s*:\s*\"([^\"]*)\"", group[first:last])
            if function:
                outs.append((pin, function[1]))
        if len(outs) == 1 and not re.search(r"\b(ff|latch|statetable)(_bank)?\s*\(", group):
            try:
                tree = expressions.plain(expressions.read(outs[0][1]))
            except Fault:
                continue
            pins = expressions.pins(tree)
            if not {"0", "1"} & set(pins):
                found[name] = Cell(name, 0, outs[0][0], pins, [0] * len(pins), [expressions.write(tree)], ["UNKNOWN"] * len(pins))
    return found
