#!/usr/bin/env python3
"""Spells this repository's own definitions and lemmas as today's Rattle does: words in snake case, types and modules in camel case.

usage: python3 tools/respell.py [--names]      at the top of the repository, once, after the kit's port.py

A lemma's dashes become `_`, and the camel case of a definition does. Functions of src/, exported C names, strings, inputs and outputs keep
their names. --names only prints the renamings.
"""
import os
import re
import sys

DEF = re.compile(r"^ *(?:(?:abbrev|unfoldable|pub|data|record)\s+)*([^\s(){}:,;=◌]+)\s*(?:[({].*?)?:\s", re.M)
# constructors that share a line, and a name that an import gives
SHARED = re.compile(r"^ +((?:[\w'-]+ )+[\w'-]+) : ", re.M)
GIVEN = re.compile(r" as ([\w'-]+)")
IS_WORD = r"[\w'◌-]"


def files(root, ends):
    for folder, dirs, names in os.walk(root):
        dirs[:] = sorted(d for d in dirs if d not in (".git", "out", "target", "pending"))
        for n in sorted(names):
            if n.endswith(ends):
                yield os.path.join(folder, n)


def read(p):
    with open(p, encoding="utf-8") as f:
        return f.read()


def write(p, t):
    with open(p, "w", encoding="utf-8") as f:
        f.write(t)


def bare(t):
    return re.sub(r"--.*$", "", t, flags=re.M)


def snake(word):
    """`sinkOf` as `sink_of`; an acronym goes with the letters behind it; a capital at the head stays, as that of a fact."""
    if not re.search(r"[a-z0-9][A-Z]", word) or word[0].isupper():
        return word
    out = re.sub(r"([a-z0-9])([A-Z])", r"\1_\2", word)
    return out.lower()


def defined(root):
    """The names that begin a line with their type behind them (definitions, lemmas, members and constructors), outside the proofs of functions,
    whose names are made of the code's."""
    found = set()
    for p in files(os.path.join(root, "crates"), ".antt"):
        if os.path.basename(p) in ("Proof.antt", "Answers.antt", "Invariants.antt"):
            continue
        t = bare(read(p))
        found.update(m.group(1) for m in DEF.finditer(t))
        found.update(n for m in SHARED.finditer(t) for n in m.group(1).split() if "-" not in n)
        found.update(n for n in GIVEN.findall(t) if "-" not in n)
    for p in files(os.path.join(root, "crates"), ".rt"):
        found.update(GIVEN.findall(read(p)))
    return {n for n in found if re.fullmatch(r"\w[\w'-]*", n) and "--" not in n and not n.endswith("-")}


def respelled(name):
    return "_".join(snake(x) for x in name.split("-"))


# Names that would fall together with one of another meaning: a crate, a word of std, a member of a record. Of a definition and a lemma that would have one name
# the lemma gets `_lem`.
CHOSEN = {
    "portText": "text_of_port",
    "portTold": "told_of_port",
    "bit-and": "bit_and_lem",
    "bit-or": "bit_or_lem",
    "clearEC": "ec_clear",
    "lines-told": "lines_told_lem",
}


def mapping(root):
    own = defined(root)
    table = {}
    for n in sorted(own):
        new = CHOSEN.get(n, respelled(n))
        if new != n:
            table[n] = new
    # a definition beside a lemma of that name
    camel = {new for n, new in table.items() if "-" not in n}
    for n in sorted(own):
        if table.get(n, n) in BOTH:
            continue
        if "-" in n and (table[n] in camel or table[n] in own):
            table[n] += "_lem"
        elif n in camel and n not in table:
            table[n] = n + "_lem"
    taken = {}
    for n in sorted(own):
        new = table.get(n, n)
        if new in taken and new not in BOTH:
            raise SystemExit(f"{taken[new]} and {n} would both be {new}")
        taken[new] = n
    return table


# Names that two crates give to different things, and that no file knows both of.
BOTH = {"all_right", "read_status", "read_vector", "write_status", "write_vector", "write_pending", "write_mask"}


def replaced(t, table, before):
    if not table:
        return t
    names = "|".join(sorted(map(re.escape, table), key=len, reverse=True))
    pattern = re.compile(r"(?<!" + before + r")(?<!" + IS_WORD + ")(" + names + r")(?!" + IS_WORD + ")")
    return pattern.sub(lambda m: table[m.group(1)], t)


def changed(p, table, before=r"\0"):
    t = read(p)
    new = replaced(t, table, before)
    if new != t:
        write(p, new)


def within_quotes(t, table):
    """A page names a definition between backquotes."""
    return re.sub(r"`[^`\n]*`", lambda m: replaced(m.group(0), table, r"\0"), t)


def with_tactics(t):
    """The head of a crate's root file asks the check to try its tactics on what no file answers."""
    if "#![tactic(" in t:
        return t
    lines = t.split("\n")
    k = 0
    while k < len(lines) and lines[k].startswith("//"):
        k += 1
    return "\n".join(lines[:k] + ["#![tactic(auto)]", ""] + lines[k:])


def moved(root):
    """A file of specs/ may not be named as the modules that Rattle makes."""
    specs = os.path.join(root, "crates", "firmware_demands", "specs")
    if os.path.exists(os.path.join(specs, "Contracts.antt")):
        os.rename(os.path.join(specs, "Contracts.antt"), os.path.join(specs, "Clauses.antt"))
        for p in files(os.path.join(root, "crates"), (".antt", ".rt")):
            t = read(p)
            new = re.sub(r"firmware_demands\.specs\.Contracts\b", "firmware_demands.specs.Clauses", t)
            if p == os.path.join(specs, "Lib.antt"):
                new = re.sub(r"\bContracts\b", "Clauses", new)
            if new != t:
                write(p, new)


if __name__ == "__main__":
    root = os.getcwd()
    table = mapping(root)
    if "--names" in sys.argv:
        for a, b in table.items():
            print(a, b)
        raise SystemExit
    plain = {a: b for a, b in table.items() if re.search(r"-|[a-z0-9][A-Z]", a)}
    lemmas = {a: b for a, b in table.items() if a not in plain}
    for p in files(os.path.join(root, "crates"), ".antt"):
        changed(p, lemmas, r"\.")
        changed(p, plain)
    for p in files(os.path.join(root, "crates"), ".rt"):
        changed(p, plain)
        if os.path.basename(p) in ("lib.rt", "main.rt"):
            write(p, with_tactics(read(p)))
    moved(root)
    for p in files(root, ".md"):
        t = read(p)
        new = within_quotes(t, plain)
        if new != t:
            write(p, new)
