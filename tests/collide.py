#!/usr/bin/env python3
"""Writes a mapped netlist whose names a table by a fixed hash puts into one place.

  collide.py COUNT

COUNT gates `inv` read the input i0. Each name is two of the blocks of seven letters and digits to which
hash = hash * 2654435769 + byte, modulo 2^32, gives the number 12345; there are some 700,000 such names. The last is the output.
"""
import itertools
import math
import sys

FACTOR, SIZE, WANTED = 2654435769, 1 << 32, 12345
LETTERS = b"abcdefghijklmnopqrstuvwxyz0123456789ABCDEFGHIJKLMNOPQRSTUVWXYZ"


def hash_of(text):
    number = 0
    for byte in text:
        number = (number * FACTOR + byte) % SIZE
    return number


def blocks():
    """The blocks: the first byte and the next three leave over what the last three have to give."""
    ends = {}
    for end in itertools.product(LETTERS, repeat=3):
        ends.setdefault(hash_of(end), []).append(bytes(end))
    middles = [(number * pow(FACTOR, 3, SIZE) % SIZE, heads) for number, heads in ends.items()]
    for first in LETTERS:
        left = WANTED - first * pow(FACTOR, 6, SIZE)
        for number, heads in middles:
            for end in ends.get((left - number) % SIZE, ()):
                yield from (bytes([first]) + head + end for head in heads)


def main(count):
    found = list(itertools.islice(blocks(), math.isqrt(count - 1) + 1))
    assert {hash_of(block) for block in found} == {WANTED}
    names = [one + two for one, two in itertools.islice(itertools.product(found, repeat=2), count)]
    gates = [b".gate inv a=i0 O=" + name for name in names]
    sys.stdout.buffer.write(b"\n".join([b".model m", b".inputs i0", b".outputs " + names[-1], *gates, b".end\n"]))


if __name__ == "__main__":
    if len(sys.argv) != 2 or not sys.argv[1].isdigit() or not 0 < int(sys.argv[1]) < 700000:
        sys.exit("usage: collide.py COUNT")
    main(int(sys.argv[1]))
