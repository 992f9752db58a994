#!/usr/bin/env python3
"""The two steps of liberty.sh around ABC; it is called by that script alone.

  liberty.py without PATTERNS LIBERTY OUT [every]
                                                LIBERTY without the cells whose names match a line of PATTERNS and, unless 'every'
                                                stands there, without pads and buffers for clocks
  liberty.py genlib LIBERTY GENLIB LOG          ABC's GENLIB as lwmap reads it; LOG is what ABC said of LIBERTY

What is left out is named on standard error. A failure is one line there, and the status is 1.
"""
import re
import sys
from decimal import Decimal

from lib import expressions, liberty, script
from lib.script import Fault

MOST_PINS, MOST_ENTRIES, BOUND = 16, 4096, 1000000


def said(text):
    print("liberty: " + text, file=sys.stderr)


def outputs(text):
    """How many outputs with a function a cell has."""
    return len(re.findall(r"\bfunction\s*:", re.sub(r"/\*.*?\*/", " ", text, flags=re.S)))


def entries(path):
    """The entries of ABC's genlib: name, area, output, function, and pins with their delays."""
    found = []
    for line in open(path, encoding="latin-1"):
        line = line.split("#")[0].strip()
        gate = re.fullmatch(r"GATE\s+(\S+)\s+(\S+)\s+([^\s=]+)\s*=(.*);\s*(PIN.*)?", line)
        pin = line if line.startswith("PIN") else gate[5] if gate else None
        if gate:
            found.append((gate[1], gate[2], gate[3], gate[4].strip(), []))
        if pin and found:
            words = pin.split()
            found[-1][4].append((words[1], max(words[5], words[7], key=lambda word: Decimal(word))))
        elif line and not gate:
            raise Fault(f"ABC wrote a line that is not understood: {line}")
    return found


def figure(word, what):
    value = Decimal(word)
    if not value.is_finite():
        raise Fault(f"{what} {word}")
    return value


def shown(value):
    """A figure without an exponent, with six decimals at most; what is below 0 is 0."""
    return f"{max(value, 0):.6f}".lstrip("-").rstrip("0").rstrip(".")


def entry(name, area, output, function, delays, scale):
    """An entry as lwmap reads it."""
    if function in ("CONST0", "CONST1"):
        return f"GATE {name} 0 {output}={function};\n"
    tree = expressions.plain(expressions.read(function))
    pins = expressions.pins(tree)
    if {"0", "1"} & set(pins):
        raise Fault("a constant in its function")
    if len(pins) > MOST_PINS:
        raise Fault(f"more than {MOST_PINS} pins")
    if not expressions.fits(tree):
        raise Fault(f"more than {expressions.MOST_NAMES} names or {expressions.MOST_BYTES} bytes in its function")
    if expressions.table(tree, pins) != expressions.table(expressions.read(function), pins):
        raise Fault("its function was not rewritten rightly")
    text = f"GATE {name} {shown(figure(area, 'the area') / scale)} {output}={expressions.write(tree)};\n"
    for pin, word in delays:
        delay = figure(word, "the delay")
        if delay >= BOUND:
            raise Fault(f"the delay {word}, which is not below {BOUND}")
        if delay < 0:
            said(f"{name}: the delay {word} of pin {pin} is taken as 0")
        if pin != "*" and pin not in pins:
            said(f"{name}: pin {pin} is not in the function")
            continue
        text += f"  PIN {pin} UNKNOWN 1 999 {shown(delay)} 0 {shown(delay)} 0\n"
    return text


def genlib(library, path, log):
    given = entries(path)
    areas = [Decimal(one[1]) for one in given if Decimal(one[1]).is_finite()]
    scale = 1
    while areas and max(areas) / scale >= BOUND:
        scale *= 10
    if scale > 1:
        print(f"# Areas are divided by {scale}.")
    names = [one[0] for one in given]
    reasons = {name: "registers" for name in re.findall(r'skipped sequential cell "(.*?)"', log)}
    reasons.update({name: "three states" for name in re.findall(r'skipped three-state cell "(.*?)"', log)})
    reasons.update({name: "no function" for name in re.findall(r'skipped cell "(.*?)" without', log)})
    spans = {name: library[start:end] for name, start, end in liberty.cells(library)}
    reasons.update({name: "several outputs" for name in spans if name not in reasons and outputs(spans[name]) > 1})
    reasons.update({name: "another cell of the same function stands" for name in spans
                    if name not in reasons and name not in names})
    kept = 0
    for name, area, output, function, delays in given:
        if names.count(name) > 1:
            reasons[name] = "several outputs"
        if name in reasons:
            continue
        try:
            sys.stdout.write(entry(name, area, output, function, delays, scale))
            kept += 1
        except Fault as fault:
            reasons[name] = str(fault)
    for reason in dict.fromkeys(reasons.values()):
        said(f"left out ({reason}): " + " ".join(name for name in reasons if reasons[name] == reason))
    if kept > MOST_ENTRIES:
        raise Fault(f"more than {MOST_ENTRIES} cells are left; leave some out by -x")
    if kept <= sum(name in ("_const0_", "_const1_") for name in names):
        raise Fault("no cell is left")
    said(f"{kept} cells written")


def text_of(path):
    with open(path, encoding="latin-1") as file:
        return file.read()


def main(words):
    if len(words) in (4, 5) and words[0] == "without":
        text, asked, alone = liberty.without(text_of(words[1]).split("\n")[:-1], text_of(words[2]), words[4:] == ["every"])
        for why, names in (("as asked", asked), ("pads and buffers for clocks", alone)):
            if names:
                said(f"left out ({why}): " + " ".join(names))
        with open(words[3], "w", encoding="latin-1") as out:
            out.write(text)
    elif len(words) == 4 and words[0] == "genlib":
        genlib(text_of(words[1]), words[2], text_of(words[3]))
    else:
        sys.exit(__doc__)


if __name__ == "__main__":
    sys.stdout.reconfigure(encoding="latin-1")
    script.run("liberty", main, ArithmeticError, IndexError)
