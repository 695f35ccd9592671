#!/usr/bin/env python3
"""usage: port.py PROGRAM REFERENCE PEER: each over a file of a million lines, in turns, in an address space of 8 MB."""
import os
import resource
import subprocess
import sys
import time

ROUNDS = 9
SPACE = 8 << 20
EXCHANGES = 250000

SETUP = "addr=1\nfcode=0\ndir=sink\nindex=1\naddr=2\nfcode=1\ndir=source\nindex=2\nwrite=2;0,1\n"
# A sink is filled, time passes, and a source is asked for and replies.
LINES = "master=1,52\nslave=2;161\nquiet=30\nmaster=4098,96\n"


def limit():
    resource.setrlimit(resource.RLIMIT_AS, (SPACE, SPACE))


def seconds(program, path):
    with open(path, "rb") as text, open(os.devnull, "wb") as out:
        begin = time.perf_counter()
        subprocess.run([program], stdin=text, stdout=out, check=True, preexec_fn=limit)
        return time.perf_counter() - begin


def printed(program, path):
    with open(path, "rb") as text:
        return subprocess.run([program], stdin=text, capture_output=True, check=True).stdout


def main():
    programs = sys.argv[1:4]
    path = os.path.join(os.path.dirname(programs[1]), "million")
    with open(path, "w", encoding="ascii") as f:
        f.write(SETUP + LINES * EXCHANGES)
    texts = [printed(program, path) for program in programs]
    if any(text != texts[0] for text in texts) or texts[0].count(b"reply=") != EXCHANGES:
        sys.exit("the programs do not print the same")
    best = [min(times) for times in zip(*[[seconds(program, path) for program in programs] for _ in range(ROUNDS)])]
    program, reference, peer = [fastest * 1e9 / (4 * EXCHANGES) for fastest in best]
    print("ns a line: program %.0f; reference %.0f, ratio %.3f (bar 1.25)" % (program, reference, program / reference), end="; ")
    print("peer %.0f, ratio %.3f" % (peer, program / peer))


main()
