#!/usr/bin/env python3
"""Draws the house into README.md: one row for each layer, one column for each group of crates.

usage: house.py            draw it anew
       house.py --check    write nothing; exit with 1 where the drawing is out of date, or a crate has no row in the README

A crate lies one layer above the highest crate that it uses: by the `use` lines of its files, which crates.txt must allow. Its group is the
word before the first `_`, where other crates (cases aside) share that word; all others stand in the group `base`. `=` marks a crate of
definitions and theorems alone, `*` a program; the others are code.
"""
import os
import re
import sys

ROOT = os.path.dirname(os.path.dirname(os.path.abspath(__file__)))
README = os.path.join(ROOT, "README.md")
BEGIN, END = "<!-- the house, drawn by docs/house.py -->\n", "<!-- end of the house -->\n"


def allowed():
    """What crates.txt lets each crate use, without the kit's own libraries."""
    lists = {}
    for line in open(os.path.join(ROOT, "crates.txt"), encoding="utf-8"):
        if not line.startswith("#") and ":" in line:
            head, rest = line.split(":")
            lists[head.split()[0]] = rest.split()
    return {name: [d for d in rest if d in lists] for name, rest in lists.items()}


def texts(name):
    """The texts of a crate's files, with the files' names."""
    for folder in ("src", "specs", "proofs"):
        for place, _, files in os.walk(os.path.join(ROOT, "crates", name, folder)):
            for file in files:
                with open(os.path.join(place, file), encoding="utf-8") as f:
                    yield file, f.read()


def brought(tree):
    """The names that a `use` of this tree brings in: `a::{b, c as d}` brings b and d."""
    inner = re.search(r"\{(.*)\}$", tree, re.S)
    if not inner:
        return {re.split(r"::|\bas\b", tree)[-1].strip()}
    depth, parts = 0, [""]
    for c in inner.group(1):
        depth += (c == "{") - (c == "}")
        if c == "," and depth == 0:
            parts.append("")
        else:
            parts[-1] += c
    return set().union(*(brought(part.strip()) for part in parts if part.strip()))


def used(name, others):
    """The crates that a crate's `use` lines name, or that its code calls by their path."""
    found = set()
    for file, text in texts(name):
        found.update(re.findall(r"^\s*(?:ghost |pub )*use Rattle\.(\w+)\.", text, re.M))
        if not file.endswith(".rt"):
            continue
        code = "\n".join(line for line in text.split("\n") if not line.lstrip().startswith("//"))
        trees = re.findall(r"^\s*(?:pub(?:\([^)]*\))? )?use ([^;]*);", code, re.M)
        found.update(tree.split("::")[0] for tree in trees)
        own = set(re.findall(r"^\s*(?:pub(?:\([^)]*\))? )?mod (\w+)", code, re.M)).union(*(brought(tree) for tree in trees))
        found.update(set(re.findall(r"(?<![\w:])(\w+)::\w", code)) - own)
    return found & set(others)


def kind(name):
    """'*' for a program, '=' where there is no function, '' for code."""
    src = os.path.join(ROOT, "crates", name, "src")
    if os.path.exists(os.path.join(src, "main.rt")):
        return "*"
    code = "".join(open(os.path.join(src, file), encoding="utf-8").read() for file in os.listdir(src))
    return "" if re.search(r"^\s*pub (extern \"C\" )?(fn|const) ", code, re.M) else "="


def group(name, names):
    """The word before the first `_`, where other crates share it; what no group has stands in `base`, and so do its cases."""
    word = name.split("_")[0]
    shared = [n for n in names if n.split("_")[0] == word and not n.endswith("_cases")]
    return word if len(shared) > 1 else "base"


def house():
    """The drawing, as lines."""
    lists = allowed()
    uses = {name: used(name, [n for n in lists if n != name]) for name in lists}
    for name, found in uses.items():
        if found - set(lists[name]):
            sys.exit("house.py: %s uses %s, which crates.txt does not list" % (name, ", ".join(sorted(found - set(lists[name])))))
    layer = {}

    def height(name):
        if name not in layer:
            layer[name] = 1 + max([height(d) for d in uses[name]], default=0)
        return layer[name]

    for name in lists:
        height(name)
    groups = []
    for name in lists:
        g = group(name, lists)
        if g not in groups:
            groups.append(g)
    cells = {}
    for name in lists:
        cells.setdefault((layer[name], group(name, lists)), []).append(name + kind(name))
    width = {g: max([len(g)] + [len(n) for (_, h), names in cells.items() if h == g for n in names]) for g in groups}
    lines = ["layer  " + "  ".join(g.ljust(width[g]) for g in groups)]
    for row in range(max(layer.values()), 0, -1):
        stack = [cells.get((row, g), []) for g in groups]
        for i in range(max(map(len, stack))):
            lines.append(("%3d    " % row if i == 0 else " " * 7)
                         + "  ".join((names[i] if i < len(names) else "").ljust(width[g]) for g, names in zip(groups, stack)))
    return [line.rstrip() for line in lines], lists


def main(words):
    if words not in ([], ["--check"]):
        sys.exit(__doc__)
    drawn, names = house()
    with open(README, encoding="utf-8") as f:
        text = f.read()
    head, rest = text.split(BEGIN)
    _, tail = rest.split(END)
    new = head + BEGIN + "```\n" + "\n".join(drawn) + "\n```\n" + END + tail
    for name in names:
        if not re.search(r"^\|.*`%s`.*\|" % name, tail, re.M):
            sys.exit("house.py: %s has no row in README.md" % name)
    if words == ["--check"]:
        if new != text:
            sys.exit("house.py: the house in README.md is out of date")
        print("house: as drawn, %d layers" % int(drawn[1].split()[0]))
        return
    with open(README, "w", encoding="utf-8") as f:
        f.write(new)


if __name__ == "__main__":
    main(sys.argv[1:])
