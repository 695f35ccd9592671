#!/usr/bin/env python3
"""Writes stdout of this crate: the step table that the gate array loads, one entry a line, two hexadecimal digits, entry 0 first.

usage: make.py            write the file
       make.py --check    write nothing; exit with 1 where the file is not what would be written

Entry i is computed here from G(x) alone, and from nothing of the crate `sequence`: the eight bits of i, most significant bit first, times x^7,
leave it modulo G(x) = x^7+x^6+x^5+x^2+1.
"""
import os
import sys

HERE = os.path.dirname(os.path.abspath(__file__))

# The coefficients of G(x), from x^7 down to 1.
G = [1, 1, 1, 0, 0, 1, 0, 1]

# Entries that must come out, and steps: what a remainder and the next byte leave.
ENTRIES = {0x00: 0x00, 0x01: 0x65, 0x02: 0x2F, 0x03: 0x4A, 0x04: 0x5E, 0x10: 0x57, 0x40: 0x73, 0x7F: 0x22, 0x80: 0x03, 0x81: 0x66, 0xE5: 0x00,
           0xFF: 0x21}
STEPS = {(0x01, 0x00): 0x2F, (0x7F, 0xFF): 0x65, (0x40, 0x80): 0x00}


def bits_of(number, count):
    """The `count` low bits of a number, most significant bit first."""
    return [number >> k & 1 for k in reversed(range(count))]


def remainder(dividend):
    """Long division as on paper: G subtracted under each leading one, from the left; what is left stands in the last seven bits."""
    rest = list(dividend)
    for at in range(len(rest) - 7):
        if rest[at] == 1:
            for k in range(8):
                rest[at + k] = (rest[at + k] - G[k]) % 2
    return int("".join(map(str, rest[-7:])), 2)


def entry(i):
    """What the eight bits of i, times x^7, leave."""
    return remainder(bits_of(i, 8) + [0] * 7)


def step(r, b):
    """What is left of what left r, after the byte b: r times x^8 and b times x^7 together leave it."""
    return remainder([x ^ y for x, y in zip(bits_of(r, 7) + [0] * 8, bits_of(b, 8) + [0] * 7)])


def assert_known(table):
    for i, value in ENTRIES.items():
        assert table[i] == value, "entry %02x is %02x" % (i, table[i])
    for (r, b), value in STEPS.items():
        assert step(r, b) == value, "the step from %02x by %02x is %02x" % (r, b, step(r, b))
    # One look-up serves each remainder and each byte, and each remainder stands twice: at i, and at i plus G.
    assert all(step(r, b) == table[2 * r ^ b] for r in range(128) for b in range(256))
    assert all(table[i] == table[i ^ 0xE5] for i in range(256)) and sorted(table) == sorted(2 * list(range(128)))


def main(words):
    if words not in ([], ["--check"]):
        sys.exit(__doc__)
    table = [entry(i) for i in range(256)]
    assert_known(table)
    made = "".join("%02x\n" % value for value in table)
    path = os.path.join(HERE, "stdout")
    if words == ["--check"]:
        with open(path, encoding="ascii") as file:
            if file.read() != made:
                sys.exit("not what make.py writes: stdout")
        return
    with open(path, "w", encoding="ascii") as file:
        file.write(made)


if __name__ == "__main__":
    main(sys.argv[1:])
