#!/usr/bin/env python3
"""Compares the built program with tests/reference.py on networks and libraries that are drawn at random.

  compare.py COUNT [SEED] [DAMAGES]

For each of COUNT cases a library and a network are drawn (tests/draw.py), with latches and arrivals, and at times with a
fault. The status and all that is written are compared for 'map', with and without '-c', for 'graph' and 'sim', and then, with
the mapped netlist of tests/reference.py, for 'check', 'time' and 'sim -g': for the netlist as it is, and DAMAGES times (4)
with damage, as a label moved by a millionth, two classes or two pins exchanged, a gate left out, a slower cell of the same
function, or another latch. 'verilog' takes each of these netlists, and 'unverilog' what was written, as it is and with damage;
where it is as it was, it has to be the netlist again, and the same text once more. Where the program knows them, 'lut' and
'trade' are compared too. The text of 'lut', and of 'trade' with a time, is not determined; there what the program wrote has to
pass the test of tests/reference_lut.py or tests/reference_trade.py. The times of 'trade' are some fixed ones, and one at, just
before or just behind a time at which the least area of a root falls.

The program is the one that release/program.sh finds. A case on which the two differ stays in a folder that is told, with the
words of each run. The last lines count the runs by command and status, and are then 'N passed, N failed'.
"""
import collections
import functools
import os
import random
import shutil
import subprocess
import sys
import tempfile

import draw as drawn
import reference
import reference_lut
import reference_trade
import reference_verilog

ROOT = os.path.dirname(os.path.dirname(os.path.realpath(__file__)))

FURTHER = {"lut": reference_lut, "trade": reference_trade, "verilog": reference_verilog, "unverilog": reference_verilog}


@functools.lru_cache(None)
def program_path():
    """The path of the program; where there is none, release/program.sh says so."""
    found = subprocess.run(["sh", ROOT + "/release/program.sh"], stdout=subprocess.PIPE)
    return os.fsdecode(found.stdout).rstrip("\n") or sys.exit(1)


def known():
    """The commands that the program has, by its own words on how it is called."""
    said = subprocess.run([program_path()], capture_output=True, timeout=300).stderr.decode()
    return [form.split()[0] for form in said.partition("usage: ")[2].split(" | ")]


def ours(words):
    done = subprocess.run([program_path()] + words, capture_output=True, timeout=300)
    return done.returncode, done.stdout, done.stderr


def theirs(words, program=None):
    program = program or FURTHER.get(words[0] if words else "", reference)
    try:
        return 0, program.answer([word.encode() for word in words]), b""
    except reference.Refused as refused:
        return refused.status, b"", b"lwmap: " + refused.text + b"\n"


def wanted_of(words, got):
    """What the second program does; where its answer is one of several, what was got, if that passes its test."""
    wanted = theirs(words)
    free = words[:1] == ["lut"] or words[:1] == ["trade"] and "none" not in words
    if not free or (wanted[0], got[0], got[2]) != (0, 0, b""):
        return wanted
    with open("WRITTEN", "wb") as file:
        file.write(got[1])
    tested = theirs(["test"] + words[1:] + ["WRITTEN"], FURTHER[words[0]])
    return got if tested == (0, b"yes\n", b"") else tested


def deadlines(draw, options):
    """A time at which the least area of a root falls, or a millionth before or after it, where there is one."""
    status, text, _ = theirs(["points", *options, "1000", "LIB", "IN"], reference_trade)
    times = text.decode().split()
    if status or not times:
        return []
    return [reference.printed(max(0, reference.decimal(draw.choice(times).encode()) + draw.choice([-1, 0, 0, 1]))).decode()]


class Case:
    """The runs on files of one folder, which is where the process is."""

    def __init__(self):
        self.runs = collections.Counter()
        self.failed = []

    def put(self, name, text):
        with open(name, "w", newline="") as file:
            file.write(text)

    def same(self, *words):
        """Compares one run, and gives what the second program writes where it ends with 0."""
        words = list(words)
        got = ours(words)
        wanted = wanted_of(words, got)
        self.runs[words[0], wanted[0]] += 1
        if got != wanted:
            self.failed.append(" ".join(words))
        return wanted[1].decode() if wanted[0] == 0 else None

    def further(self, draw, options, commands):
        """The commands beyond those that every program has, of those that are given."""
        if "lut" in commands:
            self.same("lut", str(draw.randint(2, 6)), *options, "IN")
        if "trade" in commands:
            for deadline in ["none", draw.choice(["0", "2", "3.5", "6", "9.25", "100000"]), *deadlines(draw, options)]:
                self.same("trade", *options, deadline, "LIB", "IN")

    def in_verilog(self, draw, library, mapped, damages):
        """A netlist in Verilog, read again as it is and with damage."""
        text = self.same("verilog", library, mapped)
        if text is None:
            return
        self.put("VER", text)
        again = self.same("unverilog", library, "VER")
        if again is None:
            self.failed.append(f"unverilog {library} VER: refused, though it was written")
            return
        self.put("AGAIN", again)
        if self.same("verilog", library, "AGAIN") != text or self.same("sim", "-g", library, "AGAIN", "VECTORS") != \
                self.same("sim", "-g", library, mapped, "VECTORS"):
            self.failed.append(f"verilog {library} AGAIN: not as it was")
        for number in range(damages):
            name = f"DAMAGED{number}.v"
            self.put(name, drawn.damaged_verilog(draw, text))
            self.same("unverilog", library, name)

    def known_netlist(self, options, library, mapped):
        self.same("check", *options, library, "IN", mapped)
        self.same("time", library, mapped)
        self.same("sim", "-g", library, mapped, "VECTORS")


def leaves(text):
    """How many values a vector has, where the network is good."""
    try:
        return len(reference.read_blif(text.encode(), b"IN").leaves())
    except reference.Refused:
        return 3


def try_case(case, draw, damages, commands):
    library, network = drawn.library(draw), drawn.network(draw)
    case.put("LIB", library)
    case.put("IN", network)
    case.put("VECTORS", drawn.vectors(draw, leaves(network)))
    options = drawn.options(draw)
    case.same("graph", *options, "IN")
    case.same("sim", "IN", "VECTORS")
    case.same("map", *options, "LIB", "IN")
    mapped = case.same("map", *options, "-c", "LIB", "IN")
    if mapped is None:
        case.further(draw, options, commands)
        return
    case.put("MAPPED", mapped)
    case.further(draw, options, commands)
    case.known_netlist(options, "LIB", "MAPPED")
    case.in_verilog(draw, "LIB", "MAPPED", damages)
    case.put("MORE", drawn.with_slow_cells(draw, library))
    for number in range(damages):
        name = f"DAMAGED{number}"
        case.put(name, drawn.damaged_netlist(draw, mapped))
        case.known_netlist(draw.choice([options] * 9 + [drawn.options(draw)]), "MORE", name)
        case.in_verilog(draw, "MORE", name, 1)


def main():
    given = [int(word) for word in sys.argv[1:]]
    if not 1 <= len(given) <= 3:
        sys.exit("usage: compare.py COUNT [SEED] [DAMAGES]")
    count, seed, damages = given + [1, 4][len(given) - 1:]
    draw = random.Random(seed)
    runs = collections.Counter()
    failed, commands = 0, known()
    for _ in range(count):
        folder = tempfile.mkdtemp()
        os.chdir(folder)
        case = Case()
        try_case(case, draw, damages, commands)
        os.chdir(ROOT)
        runs += case.runs
        failed += len(case.failed)
        for words in case.failed:
            print("they differ:", words, "in", folder)
        if not case.failed:
            shutil.rmtree(folder)
    print(", ".join(f"{command} {status}: {number}" for (command, status), number in sorted(runs.items())))
    print(f"{sum(runs.values()) - failed} passed, {failed} failed")
    sys.exit(failed > 0)


if __name__ == "__main__":
    main()
