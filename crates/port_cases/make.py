#!/usr/bin/env python3
"""Writes data/, args and stdout of this crate: inputs of the port program, and what must be printed of them.

usage: make.py            write the files, and say how many inputs there are and how each ends
       make.py --check    write nothing; exit with 1 where a file is not what would be written

What must be printed is computed here from the words of documents 01 and 02 alone, and from nothing of the other crates.
"""
import os
import random
import sys

HERE = os.path.dirname(os.path.abspath(__file__))

# The longest line, in bytes without its newline; a longer one is malformed.
LONGEST = 1024

# Slave sizes in words; an F-code that is not here expects no reply.
SIZES = {0: 1, 1: 2, 2: 4, 3: 8, 4: 16, 12: 16, 8: 1, 9: 1, 13: 1, 14: 1, 15: 1}

REPLY_TIME = 64


# ---- the check sequence

def check(block):
    """The check byte of one to four words."""
    bits = [int(digit) for word in block for digit in format(word, "016b")]
    rest = bits + [0] * 7
    g = [1, 1, 1, 0, 0, 1, 0, 1]
    for i in range(len(bits)):
        if rest[i]:
            for k in range(8):
                rest[i + k] ^= g[k]
    remainder = rest[-7:]
    parity = (sum(bits) + sum(remainder)) % 2
    return 255 - int("".join(str(b) for b in remainder + [parity]), 2)


def checks(words):
    """The check bytes of a frame: one ends each four words; sizes 1 and 2 have one."""
    return [check(words[i:i + 4]) for i in range(0, len(words), 4)]


# ---- the port program

class Refused(Exception):
    """A refusal, by its number."""


def refuse(given, number):
    if given:
        raise Refused(number)


class Port:
    """An open port."""

    def __init__(self, number, code, sink):
        self.number, self.code, self.sink = number, code, sink
        self.words, self.fills, self.faulty, self.blocks = None, 0, False, 0

    def fill(self, words):
        self.words, self.fills = words, (self.fills + 1) % 65536
        self.faulty, self.blocks = False, 0

    def fail(self, blocks):
        """No sound answer came; these blocks of it were wrong, lowest bit for the first."""
        self.faulty, self.blocks = True, blocks

    def state(self):
        return "never" if self.words is None else "held" if self.faulty else "good"


class Program:
    """Events are heard alike on both lines, so which line is trusted does not matter here."""

    def __init__(self):
        self.ports = {}
        self.group = []
        self.begun = False
        self.waiting = None
        self.since = 0
        self.out = []

    # the host's calls on ports

    def open(self, a, number, code, sink):
        refuse(a > 4095 or not 1 <= number <= 255 or code > 4, 2)
        refuse(a in self.ports or any(p.number == number for p in self.ports.values()), 4)
        self.ports[a] = Port(number, code, sink)

    def write(self, a, words):
        refuse(a > 4095, 2)
        refuse(a not in self.ports, 3)
        refuse(self.ports[a].sink, 5)
        refuse(len(words) != SIZES[self.ports[a].code], 2)
        self.ports[a].fill(words)

    # the bus

    def port_for(self, word):
        """The port with exactly this master word."""
        port = self.ports.get(word % 4096)
        return port if port is not None and port.code == word // 4096 else None

    def master(self, word, byte):
        self.waiting = None
        if byte != check([word]):
            return
        self.since = 0
        if word // 4096 not in SIZES:
            return
        port = self.port_for(word)
        if port is not None and not port.sink and port.words is not None:
            self.out.append("reply=%s;%s\n" % (commas(port.words), commas(checks(port.words))))
            return
        self.waiting = word

    def slave(self, words, ends):
        refuse(len(words) > 16 or len(ends) > 4, 2)
        word, self.waiting = self.waiting, None
        if word is None:
            return
        port = self.port_for(word)
        if port is None or not port.sink:
            return
        size = SIZES[word // 4096]
        right = checks(words)
        if len(words) != size or len(ends) != len(right):
            port.fail(0)
        elif ends != right:
            port.fail(sum(2 ** k for k in range(len(right)) if ends[k] != right[k]))
        else:
            port.fill(words)

    def quiet(self, n):
        refuse(n > 65535, 2)
        for _ in range(n):
            self.since += 1
            if self.waiting is not None and self.since >= REPLY_TIME:
                port = self.port_for(self.waiting)
                self.waiting = None
                if port is not None and port.sink:
                    port.fail(0)

    # the text

    def line(self, line):
        key, equals, value = line.partition(b"=")
        refuse(not equals, 7)
        order = [b"addr", b"fcode", b"dir", b"index"]
        if key in order:
            refuse(self.begun or key != order[len(self.group)], 7)
            refuse(key == b"dir" and value not in (b"sink", b"source"), 7)
            self.group.append(value == b"sink" if key == b"dir" else number(value))
            if len(self.group) == 4:
                a, code, sink, p = self.group
                self.group = []
                self.open(a, p, code, sink)
            return
        refuse(key not in (b"master", b"slave", b"quiet", b"write"), 7)
        if key == b"quiet":
            call = (self.quiet, number(value))
        else:
            first, mark, second = value.partition(b"," if key == b"master" else b";")
            refuse(not mark, 7)
            if key == b"master":
                call = (self.master, below(number(first), 65535), below(number(second), 255))
            elif key == b"slave":
                call = (self.slave, numbers(first, 65535), numbers(second, 255))
            else:
                call = (self.write, below(number(first), 65535), numbers(second, 65535))
        refuse(self.group, 7)
        self.begun = True
        call[0](*call[1:])

    def report(self):
        for a in sorted(self.ports):
            p = self.ports[a]
            self.out.append("addr=%d\nfcode=%d\ndir=%s\nindex=%d\n" % (a, p.code, "sink" if p.sink else "source", p.number))
            data = "none" if p.words is None else commas(p.words)
            self.out.append("state=%s\nfills=%d\nblocks=%d\ndata=%s\n" % (p.state(), p.fills, p.blocks, data))


def number(text):
    refuse(not text or any(c not in b"0123456789" for c in text), 7)
    return int(text)


def below(n, most):
    refuse(n > most, 7)
    return n


def numbers(text, most):
    return [below(number(item), most) for item in text.split(b",")] if text else []


def commas(values):
    return ",".join(str(v) for v in values)


def printed(text):
    """All that is printed of an input."""
    program = Program()
    lines = text.split(b"\n")
    if lines[-1] == b"":
        lines.pop()
    try:
        for line in lines:
            refuse(len(line) > LONGEST, 7)
            program.line(line)
        refuse(program.group, 7)
        program.report()
    except Refused as e:
        program.out.append("refused=%d\n" % e.args[0])
    return "".join(program.out)


# ---- the inputs

def port(a, code, side, p):
    return "addr=%d\nfcode=%d\ndir=%s\nindex=%d\n" % (a, code, side, p)


def master(word):
    return "master=%d,%d\n" % (word, check([word]))


def slave(words, ends=None):
    return "slave=%s;%s\n" % (commas(words), commas(checks(words) if ends is None else ends))


SINK = port(1, 0, "sink", 1)
SOURCE = port(2, 1, "source", 2)
SINKS = "".join(port(10 + code, code, "sink", 10 + code) for code in range(5))
SOURCES = "".join(port(20 + code, code, "source", 20 + code) for code in range(5))
FILLED = SINK + "master=1,52\nslave=2;161\n"


def run_of(seed, count):
    """A long run over ten ports, of sound and unsound frames, quiet time and writes."""
    r = random.Random(seed)
    text = SINKS + SOURCES
    for _ in range(count):
        kind = r.randrange(8)
        code = r.randrange(5)
        words = [r.choice([0, 1, 65535, r.randrange(65536)]) for _ in range(SIZES[code])]
        if kind < 3:
            text += master(4096 * code + 10 + code)
            text += slave(words) if r.randrange(3) else slave(words[1:] + [words[0] ^ 1], checks(words))
        elif kind < 5:
            text += "write=%d;%s\n" % (20 + code, commas(words))
        elif kind < 6:
            text += master(4096 * code + 20 + code)
        elif kind < 7:
            text += "quiet=%d\n" % r.choice([1, 63, 64, 65, 2500])
        else:
            text += "master=%d,%d\n" % (4096 * code + 10 + code, r.randrange(256))
    return text


def padded_to(size):
    """An input of so many bytes, by leading zeros in quiet lines."""
    text = SINK
    while len(text) + 2 * 40 < size:
        text += "quiet=%s1\n" % ("0" * 32)
    return text + "quiet=%s\n" % ("0" * (size - len(text) - 7))


def good():
    yield "example", FILLED
    yield "no_last_newline", FILLED[:-1]
    yield "empty", ""
    yield "no_event", SINK + SOURCE
    yield "events_without_ports", master(1) + slave([2]) + "quiet=100\n"
    yield "rising_address", port(4095, 4, "sink", 255) + port(0, 3, "source", 1) + port(7, 2, "sink", 9)
    yield "all_sizes", SINKS + "".join(master(4096 * c + 10 + c) + slave(list(range(1, SIZES[c] + 1))) for c in range(5))
    yield "ports_255", "".join(port(4095 - 16 * p, p % 5, ["sink", "source"][p % 2], p) for p in range(1, 256))
    yield "leading_zeros", "addr=0001\nfcode=00\ndir=sink\nindex=001\nmaster=00001,052\nslave=0002;0161\n"
    yield "largest_word", SINK + master(1) + slave([65535])
    yield "last_fill_shown", FILLED + master(1) + slave([3]) + master(1) + slave([65535])
    yield "quiet_63", SINK + "master=1,52\nquiet=63\nslave=2;161\n"
    yield "quiet_64", SINK + "master=1,52\nquiet=64\nslave=2;161\n"
    yield "quiet_in_parts", SINK + "master=1,52\nquiet=32\nquiet=31\nslave=2;161\n"
    yield "quiet_0", SINK + "master=1,52\nquiet=0\nslave=2;161\n"
    yield "quiet_65535", FILLED + "quiet=65535\nmaster=1,52\nslave=3;106\n"


def held():
    yield "held_by_timeout", FILLED + "master=1,52\nquiet=64\n"
    yield "held_by_wrong_check", FILLED + "master=1,52\nslave=2;160\n"
    yield "held_by_size", FILLED + "master=1,52\n" + slave([2, 3])
    yield "held_by_no_words", FILLED + "master=1,52\nslave=;\n"
    yield "held_by_no_check", FILLED + "master=1,52\nslave=2;\n"
    yield "held_then_good", FILLED + "master=1,52\nquiet=64\nmaster=1,52\nslave=3;106\n"
    yield "never_by_wrong_check", SINK + "master=1,52\nslave=2;160\n"
    yield "never_by_timeout", SINK + "master=1,52\nquiet=65535\n"
    yield "never_unasked", SINK + "slave=2;161\n"
    yield "leading_zero_words", SINK + "master=1,52\n" + slave([0, 2])
    yield "unsound_master_ends_wait", SINK + "master=1,52\nmaster=1,53\nslave=2;161\n"
    yield "other_master_waits", SINK + master(1) + master(4097) + slave([2, 3])
    yield "second_slave_unasked", FILLED + "slave=3;106\n"
    yield "sixteen_words_wrong_block", SINKS + master(4 * 4096 + 14) + slave(list(range(16)), checks(list(range(15)) + [99]))


def turned(words, *wrong):
    """A slave frame with a bit of the check bytes of these blocks turned."""
    return slave(words, [c ^ (2 ** k if k in wrong else 0) for k, c in enumerate(checks(words))])


def blocks():
    """Which block was bad: in a sink of F-code 4 that was filled once."""
    words = list(range(16))
    sink = port(14, 4, "sink", 14)
    asked = master(4 * 4096 + 14)
    filled = sink + asked + slave(words)
    for name, wrong in (("1", [0]), ("2", [1]), ("3", [2]), ("4", [3]), ("1_and_3", [0, 2]), ("all", [0, 1, 2, 3])):
        yield "block_%s_wrong" % name, filled + asked + turned(words, *wrong)
    yield "block_of_word_9", filled + asked + slave(words[:9] + [9 ^ 64] + words[10:], checks(words))
    yield "block_2_wrong_check_missing", filled + asked + slave(words, [checks(words)[0], 0] + checks(words)[2:3])
    yield "block_1_wrong_eight_words", filled + asked + turned(words[:8], 0)
    yield "blocks_cleared_by_fill", filled + asked + turned(words, 0, 3) + asked + slave(words)
    yield "blocks_cleared_by_timeout", filled + asked + turned(words, 0, 3) + asked + "quiet=64\n"
    yield "blocks_cleared_by_size", filled + asked + turned(words, 0, 3) + asked + slave(words[:8])
    yield "blocks_replaced", filled + asked + turned(words, 0, 3) + asked + turned(words, 1)
    yield "blocks_of_a_short_frame", SINKS + "".join(master(4096 * c + 10 + c) + turned(words[:SIZES[c]], 0, 1, 2, 3) for c in range(5))


def replies():
    yield "reply", SOURCE + "write=2;0,1\n" + master(4098)
    writes = "".join("write=%d;%s\n" % (20 + c, commas([65535 - i for i in range(SIZES[c])])) for c in range(5))
    yield "reply_all_sizes", SOURCES + writes + "".join(master(4096 * c + 20 + c) for c in range(5))
    yield "reply_twice", SOURCE + "write=2;0,1\n" + master(4098) + "write=2;2,3\n" + master(4098)
    yield "no_reply_unfilled", SOURCE + master(4098)
    yield "no_reply_other_code", SOURCE + "write=2;0,1\n" + master(2) + master(8194)
    yield "no_reply_unsound", SOURCE + "write=2;0,1\nmaster=4098,0\n"
    yield "no_status_reply", SOURCE + master(15 * 4096)
    yield "source_fed_by_nobody", SOURCE + master(4098) + slave([5, 6])
    yield "codes_without_reply", SINK + "".join(master(4096 * c + 1) + slave([7]) for c in (5, 6, 7, 10, 11))
    yield "foreign_codes", SINK + "".join(master(4096 * c + 1) + slave([7] * SIZES[c]) for c in (8, 9, 12, 13, 14, 15))
    yield "reply_then_refused", SOURCE + "write=2;0,1\n" + master(4098) + "write=9;1\nquiet=1\n"
    yield "reply_then_malformed", SOURCE + "write=2;0,1\n" + master(4098) + "quiet\n" + master(4098)


def refusals():
    yield "address_4095", port(4095, 0, "sink", 1)
    yield "address_4096", port(4096, 0, "sink", 1)
    yield "address_65536", port(65536, 0, "sink", 1)
    yield "address_huge", "addr=%s\nfcode=0\ndir=sink\nindex=1\n" % ("9" * 40)
    yield "code_4", port(1, 4, "sink", 1)
    yield "code_5", port(1, 5, "sink", 1)
    yield "code_65536", port(1, 65536, "sink", 1)
    yield "port_255", port(1, 0, "sink", 255)
    yield "port_0", port(1, 0, "sink", 0)
    yield "port_256", port(1, 0, "sink", 256)
    yield "port_65537", port(1, 0, "sink", 65537)
    yield "same_address", SINK + port(1, 0, "sink", 2)
    yield "same_port", SINK + port(2, 0, "sink", 1)
    yield "range_before_taken", SINK + port(1, 9, "sink", 1)
    yield "refused_at_fourth_line", "addr=4096\nfcode=9\ndir=sink\n"
    yield "quiet_65536", "quiet=65536\n"
    yield "quiet_huge", "quiet=%s\n" % ("1" * 30)
    yield "words_17", slave([0] * 17, [255])
    yield "words_40", slave([0] * 40, [255])
    yield "checks_5", slave([0], [255] * 5)
    yield "checks_9", slave([0], [255] * 9)
    yield "write_no_port", "write=2;0\n"
    yield "write_address_4096", SOURCE + "write=4096;0,1\n"
    yield "write_address_65535", SOURCE + "write=65535;0,1\n"
    yield "write_address_65536", SOURCE + "write=65536;0,1\n"
    yield "write_address_65538", SOURCE + "write=65538;0,1\n"
    yield "write_address_huge", SOURCE + "write=%s;0,1\n" % ("9" * 40)
    yield "write_to_sink", SINK + "write=1;5\n"
    yield "write_side_before_size", SINK + "write=1;5,6\n"
    yield "write_too_few", SOURCE + "write=2;5\n"
    yield "write_too_many", SOURCE + "write=2;5,6,7\n"
    yield "write_none", SOURCE + "write=2;\n"
    yield "write_17_words", SOURCES + "write=24;%s\n" % commas([1] * 17)
    yield "write_33_words", SOURCES + "write=24;%s\n" % commas([1] * 33)
    yield "stops_at_refusal", SINK + "write=1;5\nnonsense\n" + master(1)


MALFORMED = [
    "", " ", "\t", "nonsense", "=", "addr", "addr=", "addr=-1", "addr=+1", "addr= 1", "addr=1 ", "addr=0x1", "addr=1,2", "addr==1",
    "addr=1;", "Addr=1", " addr=1", "addr =1", "address=1", "fcode=0", "dir=sink", "index=1", "master=", "master=1", "master=1,",
    "master=,52", "master=1;52", "master=1,52,3", "master=1,52;", "master=65536,52", "master=1,256", "master=70000,1",
    "master=1,99999999999999999999", "slave=", "slave=2", "slave=2,161", "slave=2;161;", "slave=2;161;1", "slave=,2;161", "slave=2,;161",
    "slave=2,,3;161", "slave=2;,161", "slave=2;161,", "slave=65536;161", "slave=2;256", "slave=a;161", "slave=2;-1", "slave= 2;161",
    "quiet", "quiet=", "quiet=x", "quiet=1,2", "quiet=1;", "quiet=-1", "quiet=1.0", "write=", "write=1", "write=;1", "write=1;a",
    "write=1;65536", "write=1;1,", "write=1,2;3", "write=1;2;3", "quiet=1\r", "read=1", "reply=1;1", "refused=0", "quiet=1\0",
    "qui\0et=1", "quiet=\u00e9",
]


def malformed():
    for i, line in enumerate(MALFORMED):
        yield "malformed_%02d" % i, line + "\nquiet=1\n"
    yield "dir_up", "addr=1\nfcode=0\ndir=up\nindex=1\n"
    yield "dir_long", "addr=1\nfcode=0\ndir=sinks\nindex=1\n"
    yield "dir_short", "addr=1\nfcode=0\ndir=sin\nindex=1\n"
    yield "setup_out_of_order", "addr=1\ndir=sink\nfcode=0\nindex=1\n"
    yield "setup_twice", "addr=1\naddr=1\nfcode=0\ndir=sink\nindex=1\n"
    yield "setup_in_part_1", "addr=1\n"
    yield "setup_in_part_3", SOURCE + "addr=1\nfcode=0\ndir=sink\n"
    yield "event_in_setup", "addr=1\nfcode=0\nquiet=1\ndir=sink\nindex=1\n"
    yield "write_in_setup", SOURCE + "addr=1\nwrite=2;0,1\n"
    yield "setup_after_event", "quiet=1\n" + SINK
    yield "setup_after_write", SOURCE + "write=2;0,1\n" + SINK
    yield "empty_line_between", SINK + "\n" + SOURCE
    yield "empty_line_at_end", FILLED + "\n"
    yield "carriage_returns", FILLED.replace("\n", "\r\n")


def long_runs():
    for seed in range(6):
        yield "run_%d" % seed, run_of(seed, 250 + 100 * seed)
    yield "fills_many", SINK + (master(1) + slave([2]) + master(1) + slave([3])) * 300
    yield "replies_many", SOURCE + "write=2;0,1\n" + master(4098) * 300
    yield "replies_of_65536_bytes", SOURCES + "write=24;%s\n" % commas([65535] * 16) + master(4 * 4096 + 24) * 600
    yield "input_of_65535_bytes", padded_to(65535)
    yield "input_of_65536_bytes", padded_to(65536)
    ports = [(4095 - 16 * p, p) for p in range(1, 256)]
    yield "ports_255_full", ("".join(port(a, 4, "source", p) for a, p in ports)
                             + "".join("write=%d;%s\n" % (a, commas([65535 - p] * 16)) for a, p in ports))


def longest_lines():
    for n in (LONGEST - 1, LONGEST, LONGEST + 1, LONGEST + 2, 4096, 20000):
        line = "quiet=%s1" % ("0" * (n - 7))
        yield "line_of_%d" % n, FILLED + line + "\n"
        yield "last_line_of_%d" % n, FILLED + line
    yield "long_line_first", "addr=%s1\nfcode=0\n" % ("0" * LONGEST)
    yield "long_line_after_reply", SOURCE + "write=2;0,1\n" + master(4098) + "9" * 1500 + "\n" + master(4098)


def cases():
    for kind in (good, held, blocks, replies, refusals, malformed, long_runs, longest_lines):
        for name, text in kind():
            yield name, text.encode()


def main():
    assert [check([w]) for w in range(4)] == [0xFF, 0x34, 0xA1, 0x6A] and check([0, 1]) == 0x34
    all_cases = list(cases())
    assert len({name for name, _ in all_cases}) == len(all_cases)
    outputs = [printed(text) for _, text in all_cases]
    files = {"args": "".join(name + "\n" for name, _ in all_cases).encode(), "stdout": "".join(o + "--\n" for o in outputs).encode()}
    for name, text in all_cases:
        files["data/" + name] = text
    if "--check" in sys.argv[1:]:
        there = {"data/" + f for f in os.listdir(os.path.join(HERE, "data"))} | {"args", "stdout"}
        wrong = there ^ set(files)
        wrong |= {f for f in there & set(files) if open(os.path.join(HERE, f), "rb").read() != files[f]}
        print("not as written: %s" % " ".join(sorted(wrong)) if wrong else "all as written")
        sys.exit(1 if wrong else 0)
    os.makedirs(os.path.join(HERE, "data"), exist_ok=True)
    for f, content in files.items():
        with open(os.path.join(HERE, f), "wb") as out:
            out.write(content)
    ends = {}
    for o in outputs:
        last = o.splitlines()[-1] if o else "nothing"
        end = last if last.startswith("refused") or last == "nothing" else "ports"
        ends[end] = ends.get(end, 0) + 1
    print("%d inputs: %s" % (len(all_cases), ", ".join("%s %d" % e for e in sorted(ends.items()))))


if __name__ == "__main__":
    main()
