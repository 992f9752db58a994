#!/usr/bin/env python3
"""Damages the files of rows at random, runs the built program on them, and compares all that it does with tests/reference.py.

  fuzz.py [-n CASES] [-t SECONDS] [-s SEED] [-c COMMAND] [-k KIND] [-o NUMBER]

A case takes the files of one row of tests/rows; what the row has not, a netlist with its certificate or in Verilog, vectors, is made by
tests/reference.py. Then some of the files are damaged: bytes flipped, exchanged for bytes that mean something, cut out, doubled
or put elsewhere, the end cut off, lines and words doubled, exchanged or left out, numbers put at their limits, a part of
another row's file put in. One command runs on them: 'map', 'map -c', 'check', 'time', 'sim', 'sim -g', 'graph', 'big', 'verilog'
or 'unverilog'. Its status, its standard output and its standard error have to be those of tests/reference.py, byte by byte; 'lut'
and 'trade', where the program has them, as tests/compare.py has it. It gets 256 KB of stack, 2 GB of memory and 2 seconds of the
processor, and a signal is a difference, that of the time among them. Where tests/reference.py takes over 10 seconds, the case
counts as not compared, and any end without a signal will do.

Each tenth case is of another kind (tests/hard.py), not damaged: pins that repeat with -i, nested brackets, names that collide, wide
Ands, or 'trade' in 3 to 8 MB, where status 8 will do too. A kind that is known to fail is drawn only where it is named by -k, which
takes cases of that kind alone.

CASES is 10000 where neither it nor SECONDS is given; SEED is 1. COMMAND is one word of those above, as 'sim-g'. -o runs one case
alone, by the number that was told. The program is the one that release/program.sh finds. The first difference ends the run: it is
printed, and the files of the case stay in a folder that is told. The last line is 'N passed, N failed'.
"""
import collections
import functools
import getopt
import os
import random
import re
import resource
import shutil
import signal
import subprocess
import sys
import tempfile
import time

import compare
import hard
import reference

ROWS = os.path.join(compare.ROOT, "tests", "rows")
STACK, MEMORY, SECONDS, PATIENCE = 256 << 10, 2 << 30, 2, 10
FORMS = {"map": "map LIB IN", "map-c": "map -c LIB IN", "check": "check LIB IN MAPPED", "time": "time LIB MAPPED",
         "sim": "sim IN VECTORS", "sim-g": "sim -g LIB MAPPED VECTORS", "graph": "graph IN", "big": "big SEED N LIB",
         "lut": "lut 4 IN", "trade": "trade 4 LIB IN", "verilog": "verilog LIB MAPPED", "unverilog": "unverilog LIB VER"}
MEANT = [bytes([byte]) for byte in b"#\\\n\r\t\f \0.=;\"'!*+()-01\x7f\xff"] + [b"\\\n", b"#@", b"#@ ", b" = ", b"\r\n", b"//"]
VERILOG = rb"""module \module m endmodule endmodule; input output wire assign ; ( ) , . = (); .a(a) .O(f) // /* */ (* *) inv u1 \a
\ $""".split()
WORDS = b""".model .inputs .outputs .names .latch .end .exdc .gate .subckt .clock .input_arrival .default_input_arrival .area
#@ label net NIL re 0 1 2 - 1- 01 GATE PIN LATCH INV UNKNOWN * CONST0 CONST1 O=a; O=!(a*b); O=a*!b+!a*b;
a=a O=f n1 x unnamed""".split()
NUMBERS = b"""0 1 2 -1 -0 +0 +1 00 . .. .5 1. 1e3 0x1 inf 999999 1000000 999999.999999 999999.9999999 0.000001 0.0000001
1000000.000000 4194303 4194304 8796093022207 8796093022207.999999 8796093022208 262143 262144 2147483648 4294967295 4294967296
18446744073709551615 18446744073709551616 340282366920938463463374607431768211456""".split()
NUMBERS += [b"9" * 4095, b"9" * 4096, b"0" * 4095, b"." + b"0" * 4093 + b"1", b"1." + b"0" * 4093]
SEEDS = "0 1 00 18446744073709551615 18446744073709551616 00000000000000000001 000000000000000000001 -1".split()
COUNTS = "1 2 15 16 17 0 01 20001 99999 100000 1.0".split() + [""]
OPTIONS = ["-w 2", "-w 3", "-w 8", "-i", "-w 3 -i", "-w 9", "-i -w 2"]


class Slow(Exception):
    """The second program took too long."""


def rows():
    """The rows as dictionaries of their files, but for those of great files."""
    found = []
    for name in sorted(os.listdir(ROWS)):
        folder, files = os.path.join(ROWS, name), {}
        for file in ("LIB", "IN", "MAPPED", "VECTORS", "VER"):
            path = os.path.join(folder, file)
            if os.path.isfile(path) and os.path.getsize(path) < 1 << 16:
                with open(path, "rb") as opened:
                    files[file] = opened.read()
        if files:
            found.append((name, files))
    return found


def place(draw, data):
    return draw.randrange(len(data) + 1)


def part(draw, data):
    """Where a part of the bytes begins and ends; it is short more often than long."""
    one = place(draw, data)
    return one, min(len(data), one + int(draw.expovariate(1 / draw.choice([2, 20, 200]))))


# Each damage takes bytes and the bytes of some other file, and gives bytes.

def flip(draw, data, _):
    if not data:
        return data
    at = draw.randrange(len(data))
    return data[:at] + bytes([data[at] ^ 1 << draw.randrange(8)]) + data[at + 1:]


def exchange_byte(draw, data, _):
    at = place(draw, data)
    return data[:at] + draw.choice(MEANT) + data[at + draw.randint(0, 1):]


def cut_end(draw, data, _):
    return data[:place(draw, data)]


def cut_out(draw, data, _):
    one, two = part(draw, data)
    return data[:one] + data[two:]


def double(draw, data, _):
    one, two = part(draw, data)
    return data[:two] + data[one:two] * draw.choice([1, 1, 2, 40]) + data[two:]


def move(draw, data, _):
    one, two = part(draw, data)
    rest = data[:one] + data[two:]
    at = place(draw, rest)
    return rest[:at] + data[one:two] + rest[at:]


def put_in(draw, data, other):
    one, two = part(draw, other)
    at = place(draw, data)
    return data[:at] + other[one:two] + data[at:]


def lines(draw, data, other):
    kept = data.split(b"\n")
    one, two = draw.randrange(len(kept)), draw.randrange(len(kept))
    way = draw.randrange(5)
    if way == 0:
        kept[one], kept[two] = kept[two], kept[one]
    elif way == 1:
        kept.insert(two, kept[one])
    elif way == 2:
        kept.pop(one)
    elif way == 3:
        kept.insert(two, kept.pop(one))
    else:
        kept.insert(one, draw.choice(other.split(b"\n")))
    return b"\n".join(kept)


def word(draw, data, other):
    """A word exchanged for another one, doubled, left out, or joined to the next."""
    kept = data.split(b"\n")
    at = draw.randrange(len(kept))
    words = kept[at].split(b" ")
    one = draw.randrange(len(words))
    way = draw.randrange(5)
    if way == 0:
        words[one] = draw.choice(VERILOG if data.lstrip()[:6] == b"module" else WORDS)
    elif way == 1:
        words[one] = draw.choice(draw.choice(kept + other.split(b"\n")).split(b" "))
    elif way == 2:
        words.insert(one, words[one])
    elif way == 3:
        words.pop(one)
    else:
        words[one] += b"x" * draw.choice([1, 1999, 2000, 2044, 2045, 4094, 4095])
    kept[at] = b" ".join(words)
    return b"\n".join(kept)


def number(draw, data, _):
    """A number put at one of the limits."""
    kept = data.split(b" ")
    numbers = [at for at, one in enumerate(kept) if one.strip(b"\n;")[:1].isdigit()]
    if not numbers:
        return data
    at = draw.choice(numbers)
    tail = kept[at][len(kept[at].split(b"\n")[0]):]
    kept[at] = draw.choice(NUMBERS) + tail
    return b" ".join(kept)


DAMAGES = [flip, flip, exchange_byte, exchange_byte, cut_end, cut_out, double, move, put_in, lines, lines, word, word, word,
           number, number]


def damaged(draw, data, other):
    for _ in range(draw.choice([1, 1, 1, 2, 3, 8])):
        data = draw.choice(DAMAGES)(draw, data, other)
    return data


def patiently(words, got):
    """What the second program wants, as status, output and error."""

    def late(*_):
        raise Slow

    signal.signal(signal.SIGALRM, late)
    signal.setitimer(signal.ITIMER_REAL, PATIENCE)
    try:
        answer = compare.wanted_of(words, got)
    finally:
        signal.setitimer(signal.ITIMER_REAL, 0)
    return answer


def limits(memory):
    for what, most in ((resource.RLIMIT_STACK, STACK), (resource.RLIMIT_AS, memory), (resource.RLIMIT_CPU, SECONDS),
                       (resource.RLIMIT_CORE, 0)):
        resource.setrlimit(what, (most, most))


def ours(words, memory=MEMORY):
    """What the program does, as status, output and error. A signal is a status below 0."""
    done = subprocess.run([compare.program_path()] + words, stdin=subprocess.DEVNULL, capture_output=True,
                          preexec_fn=functools.partial(limits, memory))
    return done.returncode, done.stdout, done.stderr


class Fuzz:
    def __init__(self, seed, command, kind):
        self.seed, self.kind, self.rows = seed, kind, rows()
        have = compare.known()
        self.forms = [command] if command else [form for form in FORMS if form.split("-")[0] in have]
        self.networks = [files for _, files in self.rows if "LIB" in files and "IN" in files]
        self.counted = collections.Counter()

    def files(self, draw):
        """The files of a row, with what it lacks."""
        name, own = draw.choice(self.rows)
        files = dict(own)
        more = draw.choice(self.networks)
        if "LIB" not in files:
            files["LIB"] = more["LIB"]
        if "IN" not in files:
            files["IN"] = more["IN"] if "LIB" in own else draw.choice([one for _, one in self.rows if "IN" in one])["IN"]
        for file, text in files.items():
            self.put(file, text)
        if "MAPPED" not in files:
            status, text, _ = compare.theirs(["map", "-c", "LIB", "IN"])
            files["MAPPED"] = text if status == 0 else b".model m\n.inputs a\n.outputs f\n.gate inv a=a O=f\n.end\n"
            self.put("MAPPED", files["MAPPED"])
        if "VECTORS" not in files:
            width = compare.leaves(files["IN"].decode("latin-1"))
            files["VECTORS"] = b"".join(b"".join(draw.choice([b"0", b"1"]) for _ in range(width)) + b"\n"
                                        for _ in range(draw.choice([0, 1, 3, 65])))
        return name, files

    def verilog(self, draw):
        """The netlist as Verilog, with names that are plain where they can be."""
        status, text, _ = compare.theirs(["verilog", "LIB", "MAPPED"])
        if status:
            text = b"module \\m (\\a , \\f );\ninput \\a ;\noutput \\f ;\n\\inv u1 (.\\a (\\a ), .\\O (\\f ));\nendmodule\n"
        if draw.random() < 0.5:
            text = re.sub(rb"\\([a-z_][a-z0-9_]*) ", rb"\1", text)
            text = re.sub(rb"^(module|input|output|wire|assign)(?=\w)", rb"\1 ", text, flags=re.M)
            text = re.sub(rb"^(\w+)(u\d+ \()", rb"\1 \2", text, flags=re.M)
        return text

    def put(self, file, text):
        with open(file, "wb") as opened:
            opened.write(text)

    def words(self, draw):
        """The words of a command, at times with options, or damaged."""
        words = FORMS[draw.choice(self.forms)].split(" ")
        if words[0] in ("map", "check", "graph", "lut", "trade") and draw.random() < 0.3:
            at = 2 if words[0] == "lut" else 1
            words[at:at] = draw.choice(OPTIONS).split(" ")
        if words[0] == "lut":
            words[1] = draw.choice("234567")
        if words[0] == "trade":
            words[-3] = draw.choice(["none", "0", "2", "3.5", "8", draw.choice(NUMBERS).decode()])
        if words[0] == "big":
            words[1] = draw.choice(SEEDS) if draw.random() < 0.3 else str(draw.getrandbits(draw.choice([8, 32, 64])))
            words[2] = draw.choice(COUNTS) if draw.random() < 0.3 else str(draw.randint(1, 60))
        if draw.random() < 0.02:
            at = draw.randrange(len(words))
            words[at:at + draw.randint(0, 1)] = draw.choice([[], [""], ["-"], [words[at]], ["none"], ["-c"], ["."]])
        return words

    def hard(self, draw):
        """A case of a kind: its name, words and memory. The files stand in the folder."""
        kind = self.kind or draw.choice([kind for kind in hard.KINDS if kind not in hard.FAILING])
        files, line = hard.KINDS[kind](draw)
        for file, text in files.items():
            self.put(file, text.encode())
        words = line.split(" ")
        if "MAPPED" in words and "MAPPED" not in files:
            self.put("MAPPED", ours(["map", *words[1:4], "-c", "LIB", "IN"])[1])
        if "VER" in words:
            self.put("VER", self.verilog(draw))
        return kind, words, draw.randint(13, 32) << 18 if kind == "memory" else MEMORY

    def damaged(self, draw):
        """A case of damaged files: the row that they are of, and words. The files stand in the folder."""
        name, files = self.files(draw)
        words = self.words(draw)
        if "VER" in words and ("VER" not in files or draw.random() < 0.3):
            files["VER"] = self.verilog(draw)
        read = [word for word in words if word in files] or list(files)
        other = draw.choice(list(draw.choice(self.rows)[1].values()))
        for file in read[-1:] if draw.random() < 0.6 else draw.sample(read, draw.choice([1, 1, len(read)])):
            files[file] = damaged(draw, files[file], other)
        for file, text in files.items():
            self.put(file, text)
        return name, words, MEMORY

    def one(self, case):
        """Runs a case in the folder where the process is; what differs is given in words, or None."""
        draw = random.Random(f"{self.seed} {case}")
        is_hard = self.kind is not None or case % 10 == 9
        name, words, memory = self.hard(draw) if is_hard else self.damaged(draw)
        got = ours(words, memory)
        try:
            wanted = patiently(words, got)
        except Slow:
            wanted = None
        command = name if is_hard else words[0] if words and words[0] in FORMS else "other words"
        self.counted[command, got[0] if wanted else "not compared"] += 1
        if got[0] >= 0 and (wanted is None or got == wanted) or memory < MEMORY and got == (8, b"", b"lwmap: out of memory\n"):
            return None
        said = [f"case {case} of seed {self.seed}, of {name}: lwmap {' '.join(words)}"]
        said.append("wanted: " + (shown(wanted) if wanted else "any answer"))
        said.append("got:    " + shown(got))
        return "\n".join(said)


def shown(answer):
    return f"status {answer[0]}, {len(answer[1])} bytes {answer[1][:300]!r}, error {answer[2][:300]!r}"


def main(given):
    try:
        options, rest = getopt.getopt(given, "n:t:s:c:k:o:")
        chosen = dict(options)
        seed, only = int(chosen.get("-s", 1)), chosen.get("-o") and int(chosen["-o"])
        until = time.monotonic() + float(chosen["-t"]) if "-t" in chosen else None
        most = int(chosen["-n"]) if "-n" in chosen else None if until else 10000
        if rest or chosen.get("-c", "map") not in FORMS or chosen.get("-k", "wide") not in hard.KINDS:
            raise ValueError
    except (getopt.GetoptError, ValueError):
        sys.exit("usage: fuzz.py [-n CASES] [-t SECONDS] [-s SEED] [-c COMMAND] [-k KIND] [-o NUMBER]")
    compare.program_path()  # (found before the folder is another)
    fuzz = Fuzz(seed, chosen.get("-c"), chosen.get("-k"))
    folder = tempfile.mkdtemp()
    os.chdir(folder)
    case, differs = only or 0, None
    while differs is None and (most is None or case < most) and (until is None or time.monotonic() < until):
        differs = fuzz.one(case)
        case += 1
        if only is not None:
            break
    passed = sum(fuzz.counted.values()) - (differs is not None)
    if differs:
        print(differs)
        print("the files are in", folder)
    else:
        os.chdir("/")
        shutil.rmtree(folder)
    print(", ".join(f"{command} {status}: {count}" for (command, status), count in sorted(fuzz.counted.items(), key=str)))
    print(f"{passed} passed, {int(differs is not None)} failed")
    sys.exit(differs is not None)


if __name__ == "__main__":
    main(sys.argv[1:])
