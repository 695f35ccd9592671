#!/usr/bin/env python3
"""Writes stdin and stdout of this crate: a script of calls, and what must be printed of it.

usage: make.py            write both files, and say how many lines they have
       make.py --check    write nothing; exit with 1 where a file is not what would be written

The cases stand in py/: host.py, asking.py, quiet.py, ages.py, bus.py, lines.py, damage.py and interrupts.py. What is to be printed comes from
py/controller.py and py/world.py, which are written from documents 01 and 02 and from nothing of the crates that the program runs.
"""
import os
import re
import sys

sys.dont_write_bytecode = True
HERE = os.path.dirname(os.path.abspath(__file__))
sys.path.insert(0, os.path.join(HERE, "py"))

import ages
import asking
import bus
import damage
import host
import interrupts
import lines
import quiet
from script import Script


def room():
    """The length of the program's buffer, which the script must not fill."""
    with open(os.path.join(HERE, "src", "main.rt"), encoding="utf-8") as file:
        return int(re.search(r"^const ROOM: usize = (\d+);", file.read(), re.M).group(1))


def files():
    """The two files' contents."""
    script = Script()
    for subject in (host, asking, quiet, ages, bus, lines, damage, interrupts):
        subject.run(script)
    made = {name: "".join(line + "\n" for line in getattr(script, name)).encode("ascii") for name in ("stdin", "stdout")}
    assert len(made["stdin"]) < room(), "the script has %d bytes" % len(made["stdin"])
    return made


def on_disk(name):
    path = os.path.join(HERE, name)
    if not os.path.exists(path):
        return None
    with open(path, "rb") as file:
        return file.read()


def main(words):
    if words not in ([], ["--check"]):
        sys.exit(__doc__)
    made = files()
    if words == ["--check"]:
        wrong = [name for name in made if on_disk(name) != made[name]]
        if wrong:
            sys.exit("not what make.py writes: " + ", ".join(wrong))
        return
    for name in made:
        with open(os.path.join(HERE, name), "wb") as file:
            file.write(made[name])
    for name in made:
        print("%s: %d lines, %d bytes" % (name, made[name].count(b"\n"), len(made[name])))


if __name__ == "__main__":
    main(sys.argv[1:])
