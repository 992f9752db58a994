#!/usr/bin/env python3
"""Compares the built program with tests/reference.py on each prefix of small files of each kind.

  prefixes.py [-w]

Each file of a few rows is cut behind each of its bytes in turn, the others staying whole. What the second program says to the
prefixes of the smaller files stands in tests/prefixes.txt too, for tests/rows.sh where there is no Python; it is compared, and
with -w it is written and nothing is run. Its lines have a row, a file, the least and the greatest length of a prefix, the status, the sum and the count that
cksum gives of what is written, and the message. The program is the one that release/program.sh finds. The last line is
'N passed, N failed', and the status is 0 where none failed.
"""
import itertools
import os
import shutil
import subprocess
import sys
import tempfile

import compare

# a row, and the files of it that are cut
ROWS = [
    ("quoted_cells_and_pins_that_begin_with_a_digit", ["LIB", "IN"]),
    ("certificate_of_an_and_of_three", ["LIB", "IN"]),
    ("check_and_of_three", ["LIB", "IN", "MAPPED"]),
    ("time_of_a_full_adder", ["MAPPED"]),
    ("sim_of_gates_full_adder", ["MAPPED", "VECTORS"]),
]
# the longest file in the table
LONGEST = 500
TABLE = os.path.join(compare.ROOT, "tests", "prefixes.txt")


def words_of(row):
    with open(os.path.join(row, "words"), encoding="utf-8") as file:
        return file.read().split("\n")[:-1]


def prefixes(row, name):
    """Puts each prefix of a file into the room in turn, and gives its length; then the whole file."""
    with open(os.path.join(row, name), "rb") as file:
        whole = file.read()
    for length in range(len(whole) + 1):
        with open(name, "wb") as file:
            file.write(whole[:length])
        yield length
    shutil.copy(os.path.join(row, name), name)


def lines_of(row, name, answers):
    """The lines of the table for a file, by the answers to its prefixes in order."""
    length = 0
    for (status, out, err), alike in itertools.groupby(answers):
        count = len(list(alike))
        summed = subprocess.run(["cksum"], input=out, stdout=subprocess.PIPE).stdout.decode().strip()
        yield " ".join([row, name, str(length), str(length + count - 1), str(status), summed, err.decode().strip()]).strip()
        length += count


def tried(row, name, writes):
    """What the second program answers to each prefix of a file, and the lengths at which the program answers something else."""
    words, answers, bad = words_of(row), [], []
    for length in prefixes(row, name):
        answers.append(compare.theirs(words))
        if not writes and compare.ours(words) != answers[-1]:
            bad.append(length)
    return answers, bad


def main():
    writes = sys.argv[1:] == ["-w"]
    rows = os.path.join(compare.ROOT, "tests", "rows")
    passed = failed = 0
    table = []
    for row, names in ROWS:
        with tempfile.TemporaryDirectory() as room:
            for name in os.listdir(os.path.join(rows, row)):
                shutil.copy(os.path.join(rows, row, name), room)
            os.chdir(room)
            for name in names:
                answers, bad = tried(os.path.join(rows, row), name, writes)
                if len(answers) <= LONGEST:
                    table += lines_of(row, name, answers)
                passed, failed = passed + len(answers) - len(bad), failed + len(bad)
                if bad:
                    print("%s: %s cut to %s bytes" % (row, name, ", ".join(map(str, bad[:10]))))
            os.chdir(rows)
    text = "".join(line + "\n" for line in table)
    if writes:
        with open(TABLE, "w", encoding="utf-8") as file:
            file.write(text)
        return
    with open(TABLE, encoding="utf-8") as file:
        if file.read() != text:
            print("prefixes.txt is not what the second program says: python3 tests/prefixes.py -w")
            failed += 1
    print("%d passed, %d failed" % (passed, failed))
    sys.exit(failed > 0)


main()
