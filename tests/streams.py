#!/usr/bin/env python3
"""The port program over pipes, files and failures: what stands in no file of cases.

usage: streams.py PROGRAM

What must be printed is crates/port_cases/make.py's, which knows document 01 alone. Needs gcc; writes only below target/tests. The last line is
how many tests passed; the first that fails ends the run with a message and exit status 1.
"""
import array
import fcntl
import importlib.util
import os
import resource
import select
import subprocess
import sys
import termios
import time

sys.dont_write_bytecode = True  # nothing is left beside make.py

ROOT = os.path.dirname(os.path.dirname(os.path.abspath(__file__)))
PORT = os.path.abspath(sys.argv[1])
BUILT = os.path.join(ROOT, "target", "tests")
PATIENCE = 20  # seconds, for what should come at once

spec = importlib.util.spec_from_file_location("cases", os.path.join(ROOT, "crates", "port_cases", "make.py"))
cases = importlib.util.module_from_spec(spec)
spec.loader.exec_module(cases)

EXAMPLE = cases.FILLED.encode()
TALK = (cases.SOURCE + cases.SINK + "write=2;0,1\n" + cases.master(4098) + cases.master(1) + cases.slave([7]) + cases.master(4098)).encode()


def printed(text):
    return cases.printed(text).encode()


def run(text, **options):
    """The program over a whole input: what it prints, and what it says on standard error."""
    done = subprocess.run([PORT], input=text, capture_output=True, timeout=PATIENCE, **options)
    return done.stdout, done.stderr


def same(found, expected):
    assert found == expected, "printed %d bytes, %d expected; first: %r" % (len(found), len(expected), found[:200])


def wait_until_read(pipe):
    """Until the program has read all that is in the pipe."""
    left = array.array("i", [1])
    end = time.time() + PATIENCE
    while time.time() < end:
        fcntl.ioctl(pipe, termios.FIONREAD, left)
        if left[0] == 0:
            return
        time.sleep(0.0001)
    raise AssertionError("the program does not read")


def run_in_pieces(pieces):
    """The program over pieces, each of which is read before the next is written."""
    program = subprocess.Popen([PORT], stdin=subprocess.PIPE, stdout=subprocess.PIPE, stderr=subprocess.PIPE)
    for piece in pieces:
        program.stdin.write(piece)
        program.stdin.flush()
        wait_until_read(program.stdin)
    found, told = program.communicate(timeout=PATIENCE)
    same(told, b"")
    return found


def limited(kind, bytes_):
    return lambda: resource.setrlimit(kind, (bytes_, bytes_))


# ---- lengths

def hundred_thousand_lines():
    text = cases.run_of(7, 80000).encode()
    assert text.count(b"\n") > 100000
    expected = printed(text)
    assert len(expected) > 65536
    found, told = run(text, preexec_fn=limited(resource.RLIMIT_AS, 8 << 20))
    same(told, b"")
    same(found, expected)


def small_stack():
    for name, text in cases.cases():
        if name in ("example", "ports_255_full", "run_5", "reply_all_sizes"):
            found, told = run(text, preexec_fn=limited(resource.RLIMIT_STACK, 128 << 10))
            same(found + told, printed(text))


# ---- pieces

def split_at_every_place():
    for text in (EXAMPLE, TALK, TALK[:-1]):
        for i in range(1, len(text)):
            same(run_in_pieces([text[:i], text[i:]]), printed(text))


def byte_by_byte():
    same(run_in_pieces([TALK[i:i + 1] for i in range(len(TALK))]), printed(TALK))


def reply_before_the_input_ends():
    program = subprocess.Popen([PORT], stdin=subprocess.PIPE, stdout=subprocess.PIPE)
    turns = ["write=2;%d,1\n" % i + cases.master(4098) for i in range(5)]
    turns[0] = cases.SOURCE + turns[0]
    talk, found = b"", b""
    for turn in turns:
        talk += turn.encode()
        program.stdin.write(turn.encode())
        program.stdin.flush()
        assert select.select([program.stdout], [], [], PATIENCE)[0], "no reply while the input is open"
        found += os.read(program.stdout.fileno(), 4096)
        same(found, printed(talk).split(b"addr=")[0])
    found += program.communicate(timeout=PATIENCE)[0]
    same(found, printed(talk))


def stops_at_a_refusal():
    program = subprocess.Popen([PORT], stdin=subprocess.PIPE, stdout=subprocess.PIPE)
    program.stdin.write(b"quiet=1\nnonsense\n")
    program.stdin.flush()
    program.wait(timeout=PATIENCE)
    same(program.stdout.read(), b"refused=7\n")
    program.stdin.close()


# ---- reads that fail or wait

def input_closed():
    done = subprocess.run([PORT], preexec_fn=lambda: os.close(0), capture_output=True, timeout=PATIENCE)
    same(done.stdout, b"")
    assert b"standard input" in done.stderr, done.stderr


def input_is_a_directory():
    folder = os.open("/", os.O_RDONLY)
    done = subprocess.run([PORT], stdin=folder, capture_output=True, timeout=PATIENCE)
    os.close(folder)
    same(done.stdout, b"")
    assert b"standard input" in done.stderr, done.stderr


def input_not_ready():
    far, near = os.pipe()
    os.set_blocking(far, False)
    program = subprocess.Popen([PORT], stdin=far, stdout=subprocess.PIPE, stderr=subprocess.PIPE)
    os.close(far)
    half = len(EXAMPLE) - 5
    for piece in (EXAMPLE[:half], EXAMPLE[half:]):
        time.sleep(0.2)
        assert program.poll() is None, "what is not ready was taken for the end"
        os.write(near, piece)
    os.close(near)
    found, told = program.communicate(timeout=PATIENCE)
    same(found + told, printed(EXAMPLE))


# ---- writes that fail or wait

def output_closed():
    done = subprocess.run([PORT], input=EXAMPLE, preexec_fn=lambda: os.close(1), stderr=subprocess.PIPE, timeout=PATIENCE)
    assert b"standard output" in done.stderr, done.stderr


def output_full():
    with open("/dev/full", "wb") as full:
        done = subprocess.run([PORT], input=EXAMPLE, stdout=full, stderr=subprocess.PIPE, timeout=PATIENCE)
    assert b"standard output" in done.stderr, done.stderr


def output_full_at_a_reply():
    with open("/dev/full", "wb") as full:
        program = subprocess.Popen([PORT], stdin=subprocess.PIPE, stdout=full, stderr=subprocess.PIPE)
    program.stdin.write(TALK)
    program.stdin.flush()
    program.wait(timeout=PATIENCE)  # while the input is open
    assert program.stderr.read().count(b"standard output") == 1
    program.stdin.close()


def output_slow():
    far, near = os.pipe()
    fcntl.fcntl(near, 1031, 4096)  # F_SETPIPE_SZ
    os.set_blocking(near, False)
    text = dict(cases.cases())["ports_255_full"]
    program = subprocess.Popen([PORT], stdin=subprocess.PIPE, stdout=near, stderr=subprocess.PIPE)
    os.close(near)
    program.stdin.write(text)
    program.stdin.close()
    found = b""
    while True:
        time.sleep(0.002)
        piece = os.read(far, 3000)
        if not piece:
            break
        found += piece
    os.close(far)
    same(program.stderr.read(), b"")
    program.wait(timeout=PATIENCE)
    same(found, printed(text))


def moody_system():
    """Calls that are interrupted, are not ready, or move a few bytes: over all cases that are not long."""
    os.makedirs(BUILT, exist_ok=True)
    moody = os.path.join(BUILT, "moody.so")
    subprocess.run(["gcc", "-Wall", "-Werror", "-shared", "-fPIC", "-O1", "-o", moody, os.path.join(ROOT, "tests", "moody.c"), "-ldl"],
                   check=True)
    for name, text in cases.cases():
        if len(text) < 3000:
            found, told = run(text, env={"LD_PRELOAD": moody})
            same(found + told, printed(text))


# ---- arguments

def arguments():
    for words in (["input"], ["--help"], [""]):
        done = subprocess.run([PORT] + words, input=EXAMPLE, capture_output=True, timeout=PATIENCE)
        same(done.stdout, b"")
        assert b"argument" in done.stderr, done.stderr


TESTS = [
    hundred_thousand_lines, small_stack, split_at_every_place, byte_by_byte, reply_before_the_input_ends, stops_at_a_refusal, input_closed,
    input_is_a_directory, input_not_ready, output_closed, output_full, output_full_at_a_reply, output_slow, moody_system, arguments,
]

for test in TESTS:
    try:
        test()
    except (AssertionError, subprocess.SubprocessError) as e:
        sys.exit("streams: %s: %s" % (test.__name__, e))
print("streams: %d tests passed" % len(TESTS))
