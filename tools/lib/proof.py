"""Whether a netlist computes what its design does: each step from the design's network to the netlist."""
import json
import os
import re
from collections import namedtuple

from . import abc, equality, registers, runs, search, timing
from .script import Fault

Step = namedtuple("Step", "what verdict why")


def same(room, top, what, files, limit):
    """A step: whether two netlists of single bits, files of Yosys's JSON in the room, have the same registers and the same logic.
    A register that was taken for a value that it keeps, and does not, is taken otherwise then; settled.json says
    which ones were taken so."""
    folder = os.path.join(room, "compare." + ".".join(files))
    os.makedirs(folder, exist_ok=True)
    refused = set()
    for _ in range(12):
        try:
            number, free, settled = registers.compare(top, *(os.path.join(room, file) for file in files), folder, refused)
        except Fault as fault:
            return Step(what, "different" if str(fault).startswith("difference") else "undecided", str(fault))
        verdict, why, by = equality.compared("given.blif", "made.blif", folder, "cec.log", limit)
        if by == "lwequal" and verdict == "different":
            # (cec names all outputs that differ)
            why = abc.cec("given.blif", "made.blif", folder, "cec.log", limit)[1] or why
        wrong = {(name, settled[name]) for name in re.findall(r"\bA?D:(\S+)", why) if name in settled}
        if verdict != "different" or not wrong:
            break
        refused |= wrong
    with open(os.path.join(folder, "settled.json"), "w", encoding="utf-8") as out:
        json.dump(settled, out)
    how = (f", {number} registers by name" if number else "") + (", an x of the Verilog being anything" if free else "")
    return Step(f"{what}{how}, by {by}", verdict, why)


class Prover:
    """Confirms the steps of a work, each once."""

    def __init__(self, work):
        self.work, self.known = work, {}

    def compared(self, one, other):
        if (one, other) not in self.known:
            log = f"cec.{len(self.known)}.log"
            self.known[one, other] = None
            work = self.work
            self.known[one, other] = equality.compared(one, other, work.room, log, work.proof)
        return self.known[one, other]

    def steps(self, netlist):
        """The steps to a netlist, from the design on."""
        last = netlist.network
        chain = []
        while last.parent is not None:
            chain.append(last)
            last = last.parent
        links = [(one.parent, one) for one in reversed(chain) if one.how == "abc"]
        if not netlist.ours():
            links.append((netlist.network, search.plain_of(self.work, netlist, "plain.last.blif")))
        found = self.work.each(lambda link: self.link(*link), links)
        if netlist.ours():
            found.append(self.checked(netlist))
        return found

    def link(self, one, other):
        verdict, why, by = self.compared(one.file, other.file)
        if verdict == "undecided" and one.file != "cut.blif":
            whole = self.compared("cut.blif", other.file)
            if whole.verdict == "equal":
                verdict, why, by = whole
        return Step(f"{one.name} to {other.name}, by {by}", verdict, why)

    def checked(self, netlist):
        """A netlist of ours: equivalent by theorem, and our programs look at its certificate, if it can have one."""
        work, maker = self.work, netlist.maker
        what = "network as given to netlist" if netlist.network.parent is None else "front to netlist"
        by_theorem = Step(f"{what}, by the theorem of {maker.program}", "equal", "")
        if not maker.certified:
            return by_theorem
        given, made = work.restored(netlist.network.file), "certified.blif"
        checked = "lwarea -k" if maker.program == "lwarea" else "lwmap check"
        files = [work.library.file, given, *maker.more]
        ended = runs.run([*maker.certified, *files], work.path("certify.log"), cwd=work.room, limit=work.search * 2, out=work.path(made))
        if ended.status:
            return by_theorem._replace(why="no certificate: " + runs.tail(ended.log))
        netlist.certified = made
        ended = runs.run([*maker.checked, *files, made], work.path("check.log"), cwd=work.room, limit=work.proof, out=work.path("check.out"))
        answer = runs.tail(work.path("check.out"))
        if answer.startswith("yes"):
            return Step(f"{what}, by theorem and {checked}", "equal", "")
        why = answer or runs.tail(ended.log) or f"over {work.proof:.0f} s"
        return Step(f"{what}, by theorem; {checked}", "different" if answer.startswith("no") else "undecided", why)

    def sizing(self, netlist):
        """The step from the mapper's netlist to the sized one."""
        work = self.work
        plain = search.plain_of(work, netlist, "plain.mapped.blif").file
        work.write("plain.sized.blif", timing.unmap(work.library.sized_cells(), work.path(netlist.sized[2])))
        verdict, why, by = self.compared(plain, "plain.sized.blif")
        return Step(f"netlist to sized netlist, by {by}", verdict, why)
