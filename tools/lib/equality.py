"""Whether two networks compute the same. lwequal is asked first, whose yes is proved, and ABC's cec where that comes to no end."""
import os
import tempfile
from collections import namedtuple

from . import abc, program, runs

Answer = namedtuple("Answer", "verdict why by")
# The verdicts by status, with the word that the answer begins with.
VERDICTS = {0: ("equal", "equal"), 1: ("different", "differ ")}


def by_lwequal(one, other, room, log, limit):
    """What lwequal says of two networks in BLIF: its verdict, None if it has none, and the output that differs."""
    if not (one.endswith(".blif") and other.endswith(".blif") and program.has("lwequal")):
        return None, ""
    out = os.path.join(room, log + ".out")
    ended = runs.run([program.path("lwequal"), one, other], os.path.join(room, log), cwd=room, limit=limit, out=out)
    verdict, word = VERDICTS.get(ended.status, (None, ""))
    with open(out, encoding="utf-8", errors="replace") as file:
        said = file.readline().rstrip("\n")
    return (verdict, said.removeprefix(word)) if said.startswith(word) else (None, "")


def compared(one, other, room, log, limit):
    """Whether two networks in a folder compute the same: 'equal', 'different' or 'undecided', why, and who says so."""
    verdict, why = by_lwequal(one, other, room, log + ".lwequal", limit)
    if verdict:
        return Answer(verdict, why, "lwequal")
    if not runs.has(abc.TOOL):
        return Answer("undecided", f"there is no {abc.TOOL}", "lwequal")
    return Answer(*abc.cec(one, other, room, log, limit), "cec")


def answered(one, other, limit):
    """The same of two files that stand anywhere, in words: the verdict, and who says so where it is one."""
    with tempfile.TemporaryDirectory() as room:
        verdict, _, by = compared(os.path.abspath(one), os.path.abspath(other), room, "log", limit)
    return verdict if verdict == "undecided" else f"{verdict} by {by}"
