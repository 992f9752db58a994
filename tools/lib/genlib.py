"""Libraries of cells in genlib. Areas and delays are whole millionths; the delay of a pin is the larger of its rise and its
fall block delay, and loads are not used."""
import re
from collections import namedtuple
from decimal import Decimal

from . import expressions
from .script import Fault

UNIT = 1000000
Cell = namedtuple("Cell", "name area out pins delays funs phases")


def micro(word):
    """The millionths of a decimal."""
    try:
        value = Decimal(word) * UNIT
        if value == int(value):
            return int(value)
    except (ArithmeticError, ValueError):
        pass
    raise Fault(f"{word} is no decimal of millionths")


def show(value):
    """Millionths as a decimal without zeros at its end."""
    whole, rest = divmod(value, UNIT)
    return f"{whole}.{rest:06d}".rstrip("0") if rest else str(whole)


def words_of(path):
    """The words of a file, comments cut."""
    with open(path, encoding="latin-1") as file:
        return [word for line in file for word in line.split("#")[0].split()]


def read_genlib(path):
    """The cells by name, in the order of their first entries."""
    try:
        return parse_genlib(words_of(path))
    except Fault as fault:
        raise Fault(f"{path}: {fault}") from None
    except IndexError:
        raise Fault(f"{path}: the file ends within an entry") from None


def parse_genlib(words):
    """The cells of the words of a library."""
    lib, i = {}, 0
    while i < len(words):
        if words[i] == "LATCH":
            i += 1
            while i < len(words) and words[i] not in ("GATE", "LATCH"):
                i += 1
            continue
        if words[i] != "GATE":
            raise Fault(f"GATE expected, not {words[i]}")
        name, area = words[i + 1].strip('"'), micro(words[i + 2])
        text, i = function_at(words, i + 3)
        if "=" not in text:
            raise Fault(f"cell {name} has no function")
        out, fun = (part.strip() for part in text.split("=", 1))
        own, i = pins_at(words, i)
        pins = [pin for pin in function_of(name, fun)[1] if pin not in ("CONST0", "CONST1")]
        info = [own.get(pin, own.get("*")) for pin in pins]
        if None in info:
            raise Fault(f"pin {pins[info.index(None)]} of cell {name} has no delay")
        if name in lib:
            lib[name].funs.append(fun)
        else:
            lib[name] = Cell(name, area, out, pins, [delay for delay, _ in info], [fun], [phase for _, phase in info])
    return lib


def function_at(words, i):
    """The text up to the next semicolon, and the place after it."""
    text = ""
    while ";" not in words[i]:
        text += words[i] + " "
        i += 1
    head, rest = words[i].split(";", 1)
    if rest:
        words[i] = rest
    else:
        i += 1
    return text + head, i


def pins_at(words, i):
    """Delay and phase of each pin whose line stands here, and the place after these lines."""
    own = {}
    while i < len(words) and words[i] == "PIN":
        own[words[i + 1]] = (max(micro(words[i + 5]), micro(words[i + 7])), words[i + 2])
        i += 9
    return own, i


def function_of(cell, fun, pins=None):
    """The tree of a function, and its pins; with pins given, no other name may stand there."""
    try:
        tree = expressions.read(fun, False, True)
    except Fault as fault:
        raise Fault(f"function of cell {cell}: {fault}") from None
    found = expressions.pins(tree)
    strange = [name for name in found if pins is not None and name not in pins and name not in ("CONST0", "CONST1")]
    if strange:
        raise Fault(f"function of cell {cell}: {strange[0]} is no pin of it")
    return tree, found


def truth(fun, pins, cell="?"):
    """The truth table of a function over some pins: bit r is the value in row r, pin i being bit i of r."""
    return expressions.table(function_of(cell, fun, pins)[0], pins)


def tilde(lib):
    """The first cell whose function has a tilde before a bracket or a name, which is taken for a part of a name; or None."""
    return next((cell.name for cell in lib.values() for fun in cell.funs if re.search(r"~\s*[(\w]", fun)), None)


def flat(lib):
    """The same library as the peers get it. Both block delays are the larger one, so that every way to
    combine rise and fall (max, mean, by phase) gives the delay that counts here. A second form of a cell is left
    out, since ABC takes two entries of one name as one cell with two outputs."""
    text = []
    for cell in lib.values():
        text.append(f"GATE {cell.name} {show(cell.area)} {cell.out}={cell.funs[0]};")
        for pin, delay, phase in zip(cell.pins, cell.delays, cell.phases):
            text.append(f"  PIN {pin} {phase} 1 999 {show(delay)} 0 {show(delay)} 0")
    return "\n".join(text) + "\n"


def padded(lib):
    """The flat library with what some of ABC's commands ask for: cells for the constants, and a buffer, which stands
    for a wire and so has no delay and no area."""
    text = flat(lib)
    tables = [(len(cell.pins), truth(cell.funs[0], cell.pins)) for cell in lib.values()]
    if (0, 0) not in tables:
        text += "GATE padded_zero 0 O=CONST0;\n"
    if (0, 1) not in tables:
        text += "GATE padded_one 0 O=CONST1;\n"
    if (1, 2) not in tables:
        text += "GATE padded_wire 0 O=a;\n  PIN a NONINV 1 999 0 0 0 0\n"
    return text


def modules(lib):
    """The cells as modules of Verilog, by their first forms."""
    text = []
    for cell in lib.values():
        ports = [f"input \\{pin} " for pin in cell.pins] + [f"output \\{cell.out} "]
        tree = function_of(cell.name, cell.funs[0], cell.pins)[0]
        text.append(f"module \\{cell.name} ({', '.join(ports)});\n    assign \\{cell.out} = {expressions.verilog(tree)};\nendmodule\n")
    return "".join(text)
