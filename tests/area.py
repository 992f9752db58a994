#!/usr/bin/env python3
"""Judges what lwarea writes for networks and libraries that are drawn at random, by the reading of tests/reference.py.

  area.py COUNT [SEED]

For each of COUNT cases a library and a network are drawn (tests/draw.py), with latches and arrivals, and at times with a fault. Links are
not looked for (-n), so that the search space is that of 'map'. Then it runs with links and a further network: another one, or the first
with a line changed. The netlist has to have the values of the first, by its deadlines, and -k has to accept its certificate.
Each effort runs with deadlines of all forms. A refusal has to be that of 'map', with the name of this program. A netlist has to
have the ports and latches of the network and its values, for all assignments or for some of many; each output has to arrive by
its deadline, with 'each' exactly at its least time; the area, each gate counted once, may not be above that of the netlist of
'map', and at effort 0 the text has to be that of 'map'. With -c the certificate has to pass the check of tests/reference.py.
How often the area was below that of 'map' is told; a program that always writes the netlist of 'map' fails.

The program is the one that release/program.sh finds for lwarea. A case that fails stays in a folder that is told. The last line
is 'N passed, N failed'.
"""
import os
import random
import shutil
import subprocess
import sys
import tempfile

import draw as drawn
import reference
from reference import Refused

ROOT = os.path.dirname(os.path.dirname(os.path.realpath(__file__)))
MOST_VECTORS = 64


def program_path():
    found = subprocess.run(["sh", ROOT + "/release/program.sh", "lwarea"], stdout=subprocess.PIPE)
    return os.fsdecode(found.stdout).rstrip("\n") or sys.exit(1)


def shown(text):
    """A text as a message shows it: control bytes are escaped."""
    return b"".join(b"\\x%02x" % byte if byte < 32 or byte == 127 else bytes([byte]) for byte in text)


class Least:
    """What 'map' comes to: the text, the least times of the outputs, and the area; or the refusal."""

    def __init__(self, width, idempotent):
        self.refused = None
        try:
            self.cells = reference.library_of(b"LIB")
            self.network = reference.network_of(b"IN")
            self.mapping = reference.Mapping(self.network, self.cells, width, idempotent)
        except Refused as refused:
            self.refused = refused
            return
        labels, roots = self.mapping.labels, self.mapping.roots
        self.times = [labels[roots[name]] for name in self.network.roots()]
        self.area = sum(match.cell.area for match in self.mapping.gates.values())

    def deadlines(self, word):
        greatest = max(self.times, default=0)
        if word == "each":
            common = 0
        elif word == "max":
            common = greatest
        elif word.endswith("%"):
            common = greatest * int(word[:-1]) // 100
        else:
            common = reference.decimal(word.encode())
        return [max(time, common) for time in self.times]


def vectors(draw, width):
    """All vectors of a width, or some where there are many."""
    if 2 ** width <= MOST_VECTORS:
        return [[k >> place & 1 for place in range(width)] for k in range(2 ** width)]
    return [[draw.randint(0, 1) for _ in range(width)] for _ in range(MOST_VECTORS)]


def fault_of(draw, least, word, effort, certified, options, text):
    """What is wrong with a text, or None, and its area."""
    network, cells = least.network, least.cells
    if effort == "0" and text != least.mapping.text(certified):
        return "effort 0 is not map", 0
    try:
        model = reference.read_mapped(text, b"OUT", cells)
    except Refused as refused:
        return "not read: " + refused.text.decode(), 0
    head = reference.joined(reference.head_lines(network))
    if not text.startswith(head):
        return "other ports", 0
    tried = vectors(draw, len(network.leaves()))
    if reference.simulation(network, network.roots(), tried) != reference.simulation(model, model.root_nets, tried):
        return "other values", 0
    arrivals = reference.arrivals_of(model, network.starts())
    came = [arrivals[net] for net in model.root_nets]
    due = least.deadlines(word)
    if any(one > other for one, other in zip(came, due)) or word == "each" and came != due:
        return f"arrivals {came}, due {due}", 0
    area = sum(gate.cell.area for gate in model.gates)
    if area > least.area:
        return f"area {area}, that of map is {least.area}", 0
    if certified:
        width, idempotent = options
        if reference.check_netlist(width, idempotent, cells, network, model) != b"yes\n":
            return "the certificate does not pass", 0
    return None, area


class Judge:
    def __init__(self, program):
        self.program, self.passed, self.failed, self.smaller, self.runs = program, 0, [], 0, 0

    def run(self, draw, least, options, words, word, effort, certified):
        given = [*words, *(["-c"] if certified else []), "-e", effort, "-t", word, "LIB", "IN"]
        got = subprocess.run([self.program, *given], capture_output=True, timeout=300)
        if least.refused:
            wanted = least.refused.status, b"", b"lwarea: " + shown(least.refused.text) + b"\n"
            fault = None if (got.returncode, got.stdout, got.stderr) == wanted else f"wanted {wanted}"
        elif got.returncode or got.stderr:
            fault = f"status {got.returncode}: {got.stderr!r}"
        else:
            fault, area = fault_of(draw, least, word, effort, certified, options, got.stdout)
            self.runs += effort != "0"
            self.smaller += fault is None and area < least.area
        if fault:
            self.failed.append(" ".join(given) + ": " + fault)
        else:
            self.passed += 1


    def joined(self, draw, least, words):
        """A run with a further network, of which only the first one's values, deadlines and ports are known."""
        effort, word = draw.choice("123"), draw.choice(["each", "max", "102%", "7"])
        given = [*words, "-t", word, "LIB", "IN", "MORE"]
        first, got = [subprocess.run([self.program, "-e", one, *given], capture_output=True, timeout=300) for one in ("0", effort)]
        fault = fault_of_joined(draw, least, word, first, got)
        if not fault and got.returncode == 0:
            certified = subprocess.run([self.program, *words, "-e", effort, "-c", "-t", "each", "LIB", "IN", "MORE"], capture_output=True, timeout=300)
            with open("MAPPED", "wb") as file:
                file.write(certified.stdout)
            checked = subprocess.run([self.program, "-k", *words, "LIB", "IN", "MORE", "MAPPED"], capture_output=True, timeout=300)
            fault = None if checked.stdout == b"yes\n" or has_shared_names(least.cells) else f"-k: {checked.stderr!r}"
        if fault:
            self.failed.append(f"-e {effort} " + " ".join(given) + ": " + fault)
        else:
            self.passed += 1


def has_shared_names(cells):
    """Whether a cell gives its output the name of a pin, which a line of a netlist cannot tell apart."""
    return any(cell.output in cell.pins for cell in cells)


def fault_of_joined(draw, least, word, first, got):
    """What is wrong with a run over a further network, beside that at effort 0; or None."""
    if least.refused and least.refused.status != 6:
        wanted = least.refused.status, b"", b"lwarea: " + shown(least.refused.text) + b"\n"
        return None if (got.returncode, got.stdout, got.stderr) == wanted else f"wanted {wanted}, got {got}"
    leaves = set(least.network.leaves())
    try:
        strange = not set(reference.network_of(b"MORE").leaves()) <= leaves
        refused = b"lwarea: MORE: no input of the first network: " if strange else None
    except Refused as fault:
        refused = b"lwarea: " + shown(fault.text) + b"\n"
    if refused:
        return None if got.returncode == 3 and not got.stdout and got.stderr.startswith(refused) else f"wanted {refused!r}, got {got}"
    if got.returncode == 6 and least.refused:
        return None
    if got.returncode or got.stderr or first.returncode:
        return f"status {got.returncode}, at effort 0 {first.returncode}: {got.stderr!r}"
    model, fastest = [reference.read_mapped(text, b"OUT", least.cells) for text in (got.stdout, first.stdout)]
    if not got.stdout.startswith(reference.joined(reference.head_lines(least.network))):
        return "other ports"
    tried = vectors(draw, len(least.network.leaves()))
    if reference.simulation(least.network, least.network.roots(), tried) != reference.simulation(model, model.root_nets, tried):
        return "other values"
    arrivals = reference.arrivals_of(model, least.network.starts())
    if not least.refused and any(arrivals[net] > due for net, due in zip(model.root_nets, least.deadlines(word))):
        return f"later than with one network, {least.deadlines(word)}"
    area, most = [sum(gate.cell.area for gate in one.gates) for one in (model, fastest)]
    return None if area <= most else f"area {area}, that of effort 0 is {most}"


def try_case(judge, draw):
    with open("LIB", "w", newline="") as file:
        file.write(drawn.library(draw))
    with open("IN", "w", newline="") as file:
        file.write(drawn.network(draw))
    width, idempotent = draw.choice([2, 3, 4, 6]), draw.random() < 0.25
    words = ["-n", "-w", str(width)] + (["-i"] if idempotent else [])
    least = Least(width, idempotent)
    for effort in "0123":
        for word in ["each", "max", draw.choice(["100%", "102%", "150%", "999%"]), draw.choice(["0", "2.5", "7", "100000"])]:
            judge.run(draw, least, (width, idempotent), words, word, effort, False)
        judge.run(draw, least, (width, idempotent), words, "each", effort, True)
    with open("IN") as file:
        lines = file.read().splitlines()
    for _ in range(2):
        with open("MORE", "w", newline="") as file:
            file.write("".join(line + "\n" for line in drawn.damaged(draw, lines)) if lines and draw.random() < 0.7 else drawn.network(draw))
        judge.joined(draw, least, words[1:])


def main():
    given = [int(word) for word in sys.argv[1:]]
    if not 1 <= len(given) <= 2:
        sys.exit(__doc__)
    count, seed = (given + [1])[:2]
    judge = Judge(program_path())
    for number in range(count):
        draw = random.Random(f"{seed} {number}")
        folder = tempfile.mkdtemp()
        os.chdir(folder)
        before = len(judge.failed)
        try_case(judge, draw)
        os.chdir(ROOT)
        if len(judge.failed) == before:
            shutil.rmtree(folder)
        else:
            print(f"FAILED: case {number} of seed {seed}, in {folder}")
            print("".join(f"    {line}\n" for line in judge.failed[before:]), end="")
    print(f"{judge.smaller} of {judge.runs} netlists are smaller than that of map")
    if judge.runs >= 100 and not judge.smaller:
        judge.failed.append("no netlist is smaller than that of map")
    print(f"{judge.passed} passed, {len(judge.failed)} failed")
    sys.exit(1 if judge.failed else 0)


if __name__ == "__main__":
    main()
