"""ABC: scripts in a folder, whether two networks are the same, and netlists under a library of Liberty."""
import filecmp
import os
import re

from . import blif, runs

TOOL = "berkeley-abc"


def call(commands, room, log, limit):
    """Runs commands of ABC in a folder; paths in them are of that folder and have no blanks."""
    return runs.run([TOOL, "-s", "-q", commands], os.path.join(room, log), cwd=room, limit=limit)


def heard(commands, room, log, limit):
    """The same, and what this run alone said, as a log may hold what others said."""
    path = os.path.join(room, log)
    if os.path.exists(path):
        os.remove(path)
    return call(commands, room, log, limit), said(path)


def whole(path):
    """Whether a file of BLIF was written to its end."""
    try:
        with open(path, "rb") as file:
            file.seek(max(0, os.path.getsize(path) - 32))
            return file.read().rstrip().endswith(b".end")
    except OSError:
        return False


def said(path):
    with open(path, encoding="utf-8", errors="replace") as file:
        return file.read()


def same(one, other):
    """Whether two files hold the same text."""
    return os.path.getsize(one) == os.path.getsize(other) and filecmp.cmp(one, other, shallow=False)


def swept(one, other, room, log, limit):
    """Whether ABC's '&cec' shows two networks equal. It goes by the order of inputs and outputs, so both have to name the same ones
    in one order, and none may have latches. It is several times as fast as 'cec', and names no output that differs."""
    if not (one.endswith(".blif") and other.endswith(".blif")):
        return False
    ends = [blif.ends_of(os.path.join(room, file)) for file in (one, other)]
    if ends[0] is None or ends[0] != ends[1] or not all(ends[0]):
        return False
    made = [f"{log}.{k}.aig" for k in (0, 1)]
    steps = [f"read_blif {file}; strash; write_aiger {aig}" for file, aig in zip((one, other), made)]
    return "Networks are equivalent." in heard("; ".join(steps + ["&cec " + " ".join(made)]), room, log, limit)[1]


def cec(one, other, room, log, limit):
    """Whether two networks in a folder compute the same: 'equal', 'different' or 'undecided', and why."""
    if same(os.path.join(room, one), os.path.join(room, other)) or swept(one, other, room, log + ".swept", limit / 2):
        return "equal", ""
    ended, text = heard(f"cec {one} {other}", room, log, limit)
    if "NOT EQUIVALENT" in text:
        failed = re.search(r"Verification failed for (.*)", text)
        return "different", failed[1].strip() if failed else "cec found a difference"
    if "are equivalent" in text:
        return "equal", ""
    if ended.late:
        return "undecided", f"cec came to no end in {limit:g} s"
    return "undecided", "cec: " + (runs.tail(ended.log) or f"ended with {ended.status}")


def sized(netlist, library, result, room, log, limit, buffers=True):
    """Buffers (where the library has cells for it) and sizes a netlist of .gate lines under a library that ABC has read as
    .scl. Gives delay in picoseconds and area, or None; the netlist goes to the file result."""
    sizing = ("buffer; topo; " if buffers else "") + "upsize; dnsize; topo; stime"
    _, text = heard(f"read_scl {library}; read_blif {netlist}; topo; {sizing}; write_blif {result}", room, log, limit)
    found = re.findall(r"Area =\s*([0-9.]+).*?Delay =\s*([0-9.]+) ps", re.sub(r"\x1b\[[0-9;]*m", "", text))
    if not found or not whole(os.path.join(room, result)):
        return None
    return float(found[-1][1]), float(found[-1][0])
