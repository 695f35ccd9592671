#!/usr/bin/env python3
"""Writes stdin and stdout of this crate: the vectors and what must be printed of them.

usage: make.py            write both files, and say how many vectors of each kind there are
       make.py --check    write nothing; exit with 1 where a file is not what would be written

The check byte is computed here from document 01's words alone, and from nothing of the crate `sequence`: "G(x) =
x^7+x^6+x^5+x^2+1. The bits of a block of one to four words, most significant bit first, times x^7, leave a 7-bit remainder
modulo G. One bit follows that makes the ones in data, remainder and itself even. The eight bits are then inverted."
"""
import os
import sys

HERE = os.path.dirname(os.path.abspath(__file__))

# The coefficients of G(x), from x^7 down to 1.
G = [1, 1, 1, 0, 0, 1, 0, 1]

# What the program reads at most.
LIMIT = 65536

# Document 01, "Numbers on either side".
PUBLISHED = [([0x0000], 0xFF), ([0x0001], 0x34), ([0x0002], 0xA1), ([0x0003], 0x6A), ([0x0000, 0x0001], 0x34)]

# More checks that must come out.
KNOWN = [([0xFFFF], 0x05), ([0x1234], 0xA2)]

# Words in two steps of the step table: what the high byte leaves, the low byte, and what both leave.
STEPS = [(0x01, 0x00, 0x2F), (0x7F, 0xFF, 0x65), (0x40, 0x80, 0x00)]

SPECIAL = [0x0000, 0xFFFF, 0x8000, 0x0001, 0x5555, 0xAAAA]


def bits_of(word):
    """The sixteen bits of a word, most significant bit first."""
    return [int(digit) for digit in format(word, "016b")]


def remainder(data):
    """Long division as on paper: the data, times x^7, with G subtracted under each leading one, from the left."""
    rest = data + [0] * 7
    for at in range(len(data)):
        if rest[at] == 1:
            for k in range(8):
                rest[at + k] = (rest[at + k] - G[k]) % 2
    assert not any(rest[: len(data)])
    return rest[len(data) :]


def left_by(bits):
    """The remainder as a number."""
    return int("".join(str(bit) for bit in remainder(bits)), 2)


def stepped(r, low, left):
    """The words whose high byte leaves r, with this low byte: they leave `left`."""
    words = [high * 256 + low for high in range(256) if left_by(bits_of(high)[8:]) == r]
    assert len(words) == 2 and all(left_by(bits_of(word)) == left for word in words)
    return [[word] for word in words]


def check(block):
    """The check byte of a block of one to four words."""
    assert 1 <= len(block) <= 4
    data = [bit for word in block for bit in bits_of(word)]
    rest = remainder(data)
    parity = (sum(data) + sum(rest)) % 2
    eight = [1 - bit for bit in rest + [parity]]
    return int("".join(str(bit) for bit in eight), 2)


def answer(words):
    """The line that must be printed of a frame."""
    block = "%02x" % check(words) if 1 <= len(words) <= 4 else "range"
    blocks = [words[at : at + 4] for at in range(0, len(words), 4)] if len(words) <= 16 else []
    frame = ",".join("%02x" % check(b) for b in blocks) or "none"
    return "block=%s frame=%s" % (block, frame)


class Numbers:
    """Pseudo-random words, the same in each run: Lehmer's generator x' = 48271 x mod 2^31 - 1, from x = 1, of which bits 8 to 23
    are a word."""

    def __init__(self):
        self.x = 1

    def word(self):
        self.x = self.x * 48271 % (2**31 - 1)
        return self.x // 2**8 % 2**16

    def words(self, count):
        return [self.word() for _ in range(count)]


def kinds():
    """The vectors, as (kind, frames, how a word is written)."""
    padded, bare = "%04x", "%x"
    numbers = Numbers()
    yield "published", [words for words, _ in PUBLISHED], padded
    yield "single bit", [[2**k] for k in range(16)], bare
    yield "special pair", [[a, b] for a in SPECIAL for b in SPECIAL], padded
    for size in range(1, 5):
        yield "block of %d" % size, [numbers.words(size) for _ in range(160)], padded
    for size in range(5, 17):
        yield "frame of %d" % size, [numbers.words(size) for _ in range(14)], padded
    # The same words with zero words in front: one check within a block, other sizes, and in a frame other blocks.
    tails = [[0x0001], [0x8000], [0xFFFF], numbers.words(1), numbers.words(2), numbers.words(3)]
    yield "leading zeros", [[0] * zeros + tail for tail in tails for zeros in (0, 1, 2, 3, 4, 13)], bare
    yield "all zeros", [[0] * size for size in range(1, 17)], bare
    # No frame. The program keeps 20 words of a line.
    for size in (0, 17, 18, 20, 21, 25):
        yield "line of %d" % size, [numbers.words(size) for _ in range(2)], padded
    # After the lines that are too long, one that is not.
    yield "after those", [[0x0001]], padded
    yield "known", [words for words, _ in KNOWN], padded
    yield "two steps", [words for step in STEPS for words in stepped(*step)], padded


def assert_published():
    for words, byte in PUBLISHED + KNOWN:
        assert check(words) == byte, "check of %s is not %02x" % (words, byte)
    assert check([0, 0, 1]) == check([1])


def files():
    """The two files' contents, and how many vectors of each kind there are."""
    lines, answers, counts = [], [], []
    for kind, frames, form in kinds():
        counts.append((kind, len(frames)))
        for words in frames:
            lines.append(" ".join(form % word for word in words))
            answers.append(answer(words))
    made = {name: "".join(line + "\n" for line in text).encode("ascii") for name, text in (("stdin", lines), ("stdout", answers))}
    assert len(made["stdin"]) < LIMIT
    return made, counts


def on_disk(name):
    path = os.path.join(HERE, name)
    if not os.path.exists(path):
        return None
    with open(path, "rb") as file:
        return file.read()


def main(words):
    if words not in ([], ["--check"]):
        sys.exit(__doc__)
    assert_published()
    made, counts = files()
    if words == ["--check"]:
        wrong = [name for name in made if on_disk(name) != made[name]]
        if wrong:
            sys.exit("not what make.py writes: " + ", ".join(wrong))
        return
    for name in made:
        with open(os.path.join(HERE, name), "wb") as file:
            file.write(made[name])
    for kind, count in counts:
        print("%4d %s" % (count, kind))
    print("%4d vectors, %d bytes of input" % (sum(count for _, count in counts), len(made["stdin"])))


if __name__ == "__main__":
    main(sys.argv[1:])
