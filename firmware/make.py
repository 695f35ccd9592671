#!/usr/bin/env python3
"""Writes into tolvendrum.h and tolvendrum.rs what the crates say once: the structs, the numbers, the interrupt bits; and the modules of the
crate firmware_c, which exports the calls of the crate firmware.

usage: make.py            write all of these files anew
       make.py --check    write nothing; exit with 1 where a file is not what would be written, or declares a call otherwise

The structs are those that crates/firmware_layout and crates/firmware declare #[repr(C)], with their comments; the numbers are those of
crates/constants and crates/interrupts. They stand between a line with "from the crates: NAME" and one with "end". The calls are declared
by hand, for the sake of their words; their names and the types of their parameters are compared with the exported functions.

A module of firmware_c has a function for each `tolvendrum_..` of the module of firmware that has its name: it says what that one says, in the
same words, and calls it.
"""
import os
import re
import sys

HERE = os.path.dirname(os.path.abspath(__file__))
CRATES = os.path.join(HERE, "..", "crates")


def read(*path):
    with open(os.path.join(*path), encoding="utf-8") as f:
        return f.read()


# ---- the crates

def structs():
    """Each #[repr(C)] struct: its name, its comment, and its fields as (name, type, comment)."""
    text = read(CRATES, "firmware_layout", "src", "lib.rt") + read(CRATES, "firmware", "src", "lib.rt")
    declared = r"((?:^//[^\n]*\n)*)#\[repr\(C\)\]\n(?:#\[derive[^\n]*\n)*pub struct (\w+) \{\n(.*?)^\}"
    for comment, name, body in re.findall(declared, text, re.M | re.S):
        words = " ".join(line.lstrip("/ ") for line in comment.strip().split("\n"))
        yield name, words, re.findall(r"pub (\w+): ([^,]+),(?: // (.*))?", body)


def constants(names, *path):
    """These constants of a crate, as (name, value)."""
    found = dict(re.findall(r"^pub const (\w+): \w+ = ([^;]+);", read(CRATES, *path), re.M))
    return [(name, eval(found[name])) for name in names]


def refusals():
    """The refusals by name and number, in the order of their numbers: NoPort is NOPORT to C."""
    body = re.search(r"fn from\(refusal: Refusal\) -> u16 \{(.*?)^    \}", read(CRATES, "constants", "src", "refusals.rt"), re.M | re.S).group(1)
    return [(name.upper(), int(number)) for name, number in re.findall(r"Refusal::(\w+) => (\d+),", body)]


def group_names(group):
    """The names of a group's bits, from bit 15 down, as (name, word); a bit that is not used is left out."""
    text = read(CRATES, "interrupts", "src", "names.rt")
    body = re.search(r"pub fn group%d\(\).*?\[\n(.*?)\n    \]" % group, text, re.S).group(1)
    values = dict(re.findall(r"^pub const (\w+): u16 = ([^;]+);", text, re.M))
    entries = [entry.strip() for entry in body.split(",") if entry.strip()]
    assert len(entries) == 16
    for place, entry in enumerate(entries):
        name = re.sub(r"data_transfer\((\d)\)", r"DTI\1", entry)
        if name != "0":
            word = eval(values[name]) if name in values else 1 << 15 - place
            assert word == 1 << 15 - place, name
            yield name, word


def modules():
    """The modules of the crate firmware that have calls, in the order of their names: the name, the text and the calls, each as (comment,
    name, lifetime, parameters, result, clauses)."""
    call = r"((?:^//[^\n]*\n)*)^pub fn (tolvendrum_\w+)(<'a>)?\(([^)]*)\)(?: -> (\w+))?\n((?:^    [^\n]*\n)*)\{"
    for file in sorted(os.listdir(os.path.join(CRATES, "firmware", "src"))):
        text = read(CRATES, "firmware", "src", file)
        found = [(comment, name, life, [p.strip() for p in given.split(",") if p.strip()], result, clauses)
                 for comment, name, life, given, result, clauses in re.findall(call, text, re.M)]
        if len(found) != len(re.findall(r"\bfn tolvendrum_", text)):
            sys.exit("make.py: a call in crates/firmware/src/%s cannot be read" % file)
        if found:
            yield file[:-len(".rt")], text, found


def calls():
    """The exported functions: name, the types of the parameters, and the type of the result."""
    for _, _, found in modules():
        for _, name, _, given, result, _ in found:
            yield name, [re.sub(r"'a ", "", p.split(": ")[1]) for p in given], result


# ---- the crate firmware_c

# Where the types of the calls are declared, beside crates/firmware.
TYPES = {"FlatController": "firmware_layout", "FlatHearing": "firmware_layout", "GroupCall": "host_controller"}


def words_of(text):
    """The words of a clause, and the marks of its operators."""
    return set(re.findall(r"\w+'*|\[\]|[^\w\s(){}.]+", text))


def laid_out(head, items, tail, width):
    """`head(a, b)tail` as rt fmt lays it out: in one line where the items take so many columns at most and the line takes 100, else with the
    items below, in one line if all are short."""
    joined = ", ".join(items)
    line = "%s(%s)%s" % (head, joined, tail)
    if len(line) <= 100 and len(joined) <= width:
        return line
    indent = re.match(r" *", head).group(0)
    below = [joined] if max(map(len, items)) <= 10 else items
    return "%s(\n%s%s)%s" % (head, "".join("%s    %s,\n" % (indent, item) for item in below), indent, tail)


def exports(module, text, found):
    """The module of firmware_c for a module of firmware."""
    said = words_of("".join(clauses for *_, clauses in found))
    yield "// The calls of the module `%s` of `firmware`, for C. Written by firmware/make.py." % module
    for path, names in re.findall(r"^ghost use (Rattle\.[\w.]+)\.\{(.*)\};", text, re.M):
        cited = [name for name in names.split(", ") if name.replace("◌", "") in said]
        if cited:
            yield "ghost use %s.{%s};" % (path, ", ".join(cited))
    yield ""
    crates = {}
    for name in sorted(set(re.findall(r"\b[A-Z]\w+", " ".join(" ".join(given + [result]) for _, _, _, given, result, _ in found))) | said & {"GroupCall"}):
        crates.setdefault(TYPES.get(name, "firmware"), []).append(name)
    for crate, names in sorted(crates.items()):
        yield "use %s::%s;" % (crate, names[0] if len(names) == 1 else "{%s}" % ", ".join(names))
    for comment, name, life, given, result, clauses in found:
        yield "\n%s#[unsafe(no_mangle)]" % comment
        yield laid_out('pub extern "C" fn %s%s' % (name, life), given, " -> " + result, 100)
        yield clauses + "{"
        yield laid_out("    firmware::%s::%s" % (module, name), [p.split(":")[0] for p in given], "", 60)
        yield "}"


# ---- C

# Where a struct's name in C is not its own name in small letters: `tolvendrum_checks` is a call.
C_NAMES = {"FlatChecks": "tolvendrum_check_bytes"}
C_TYPES = {"u8": "uint8_t", "u16": "uint16_t", "u32": "uint32_t", "&[u16]": "const uint16_t *, size_t", "&mut [u16]": "uint16_t *, size_t"}


def c_name(name):
    return C_NAMES.get(name, "tolvendrum_" + name.replace("Flat", "").lower())


def c_field(name, kind):
    array = re.match(r"\[(\w+); (\d+)\]", kind)
    if array:
        return "%s %s[%s];" % (C_TYPES[array.group(1)], name, array.group(2))
    if name == "refusal":
        return "tolvendrum_refusal refusal;"
    return "%s %s;" % (C_TYPES.get(kind) or c_name(kind), name)


def size_of(kind, known):
    array = re.match(r"\[(\w+); (\d+)\]", kind)
    if array:
        return int(array.group(2)) * size_of(array.group(1), known)
    return {"u8": 1, "u16": 2}.get(kind) or known[kind]


def sizes():
    """The bytes of each struct; every struct is a whole number of words, so that nothing is padded."""
    known = {}
    for name, _, fields in structs():
        known[name] = sum(size_of(kind, known) for _, kind, _ in fields)
    return known


def c_structs():
    known = sizes()
    for name, words, fields in structs():
        yield "/* %s */" % words
        yield "typedef struct {"
        for field, kind, note in fields:
            yield "    " + c_field(field, kind) + (" /* %s */" % note if note else "")
        yield "} %s;" % c_name(name)
        yield ""
    yield "/* Where each field lies, in bytes. */"
    for name, _, fields in structs():
        at = 0
        for field, kind, _ in fields:
            yield 'TOLVENDRUM_ASSERT(offsetof(%s, %s) == %d, "%s");' % (c_name(name), field, at, field)
            at += size_of(kind, known)
        yield 'TOLVENDRUM_ASSERT(sizeof(%s) == %d, "%s");' % (c_name(name), at, c_name(name))


def c_enum(pairs, form="%d"):
    yield "enum {"
    yield ",\n".join("    TOLVENDRUM_%s = %s" % (name, form % value) for name, value in pairs)
    yield "};"


AREAS = ("INDEX", "PORTS", "PAGE")
FLAGS = ("VP", "EVER", "SRC", "SINK", "STO", "TERR", "CRC", "SQE", "ALO", "FIRST_BLOCK", "SECOND_BLOCK", "THIRD_BLOCK", "FOURTH_BLOCK")
WORDS_OF_PORT = ("PORT_WORDS",)
WORDS_WORDS = (
    "A port has so many words of `ports`, one port after the other: its master word, its flags, its transfer interrupt, its fills, its limit",
    "and its age in milliseconds, and two that are zero.",
)
TIMES = ("MILLISECOND",)
TIME_WORDS = "A millisecond in quiet bit times, at 1.5 Mbit/s."
FLAG_WORDS = (
    "The bits of a port's flags, the second of its words: the valid page, whether it was ever filled, its side, and the status bits.",
    "The last four say which blocks of an unsound reply had a wrong check byte, if its counts were right; CRC is set exactly if one is.",
)
STATUS = ("STATUS_LAA", "STATUS_RLD")
STATUS_WORDS = (
    "The bits of a status reply that are ours, whatever the host set there: LAA and RLD as they are before the poll switches the line and",
    "clears RLD; an RLD that the poll itself sets is told. Each other bit is that of the status word.",
)


def c_numbers():
    yield from c_enum(refusals())
    yield ""
    yield "/* The lengths of the areas, in words. All zero is a table of no ports. */"
    yield from c_enum([(name + "_LENGTH", value) for name, value in constants(AREAS, "constants", "src", "lib.rt")])
    yield ""
    yield "/* %s\n * %s */" % WORDS_WORDS
    yield from c_enum(constants(WORDS_OF_PORT, "constants", "src", "lib.rt"))
    yield ""
    yield "/* %s */" % TIME_WORDS
    yield from c_enum(constants(TIMES, "constants", "src", "lib.rt"))
    yield ""
    yield "/* %s\n * %s */" % FLAG_WORDS
    yield from c_enum([("PORT_" + name, value) for name, value in constants(FLAGS, "constants", "src", "lib.rt")], "0x%04x")
    yield ""
    yield "/* %s\n * %s */" % STATUS_WORDS
    yield from c_enum(constants(STATUS, "constants", "src", "lib.rt"), "0x%04x")


def c_bits():
    for group in (0, 1):
        names = list(group_names(group))
        yield "/* Interrupt group %d, from bit 15 down: the bits, and the vectors that reading gives of them. */" % group
        yield from c_enum(names, "0x%04x")
        yield from c_enum([("VECTOR_" + name, 256 + word.bit_length() - 1) for name, word in names])
        yield ""


def c_calls(text):
    """What a header declares, as `calls` has it."""
    text = re.sub(r"/\*.*?\*/", "", text, flags=re.S)
    for result, name, given in re.findall(r"^(\w+) (tolvendrum_\w+)\((.*?)\);", text, re.M | re.S):
        parameters = [] if given == "void" else [re.sub(r"\s*\w+$", "", p.strip()) for p in given.split(",")]
        yield name, parameters, result


def c_expected():
    for name, given, result in calls():
        types = ", ".join(C_TYPES.get(t) or c_name(t) for t in given)
        yield name, types.split(", ") if types else [], "tolvendrum_refusal" if result == "u16" else C_TYPES.get(result) or c_name(result)


# ---- Rust

def rust_name(name):
    return name.replace("Flat", "")


def rust_structs():
    known = sizes()
    yield "flat! {"
    for name, words, fields in structs():
        yield "    /// " + words
        yield "    %s {" % rust_name(name)
        for field, kind, note in fields:
            if note:
                yield "        /// " + note
            yield "        %s: %s," % (field, rust_name(kind))
        yield "    } %d" % known[name]
    yield "}"


def rust_numbers():
    for name, value in refusals():
        yield "pub const %s: u16 = %d;" % (name, value)
    yield ""
    for name, value in constants(AREAS, "constants", "src", "lib.rt"):
        yield "pub const %s_LENGTH: usize = %d;" % (name, value)
    yield ""
    yield "/// %s\n/// %s" % WORDS_WORDS
    for name, value in constants(WORDS_OF_PORT, "constants", "src", "lib.rt"):
        yield "pub const %s: usize = %d;" % (name, value)
    yield ""
    yield "/// %s" % TIME_WORDS
    for name, value in constants(TIMES, "constants", "src", "lib.rt"):
        yield "pub const %s: u32 = %d;" % (name, value)
    yield ""
    yield "/// %s\n/// %s" % FLAG_WORDS
    yield "pub mod port {"
    for name, value in constants(FLAGS, "constants", "src", "lib.rt"):
        yield "    pub const %s: u16 = 0x%04x;" % (name, value)
    yield "}"
    yield ""
    yield "/// %s\n/// %s" % STATUS_WORDS
    for name, value in constants(STATUS, "constants", "src", "lib.rt"):
        yield "pub const %s: u16 = 0x%04x;" % (name, value)


def rust_bits():
    for group in (0, 1):
        yield "/// The bits of interrupt group %d; reading the vector gives 256 + the number of a bit." % group
        yield "pub mod group%d {" % group
        for name, word in group_names(group):
            yield "    pub const %s: u16 = 0x%04x;" % (name, word)
        yield "}"


RUST_TYPES = {"&[u16]": "*const u16, usize", "&mut [u16]": "*mut u16, usize"}


def rust_calls(text):
    body = re.search(r'^extern "C" \{\n(.*?)^\}', text, re.M | re.S).group(1)
    for name, given, result in re.findall(r"fn (\w+)\((.*?)\) -> (\w+);", body, re.S):
        yield name, [re.sub(r"^\s*\w+: ", "", p).strip() for p in given.split(",")] if given else [], result


def rust_expected():
    for name, given, result in calls():
        types = ", ".join(RUST_TYPES.get(t) or rust_name(t) for t in given)
        yield name, types.split(", ") if types else [], rust_name(result)


# ---- both

def filled(text, parts):
    """The text with what stands between the marks written anew."""
    for name, lines in parts.items():
        body = "\n".join(lines).rstrip("\n")
        text, n = re.subn(r"(^[^\n]*from the crates: %s\b[^\n]*\n).*?(^[^\n]*\bend\b[^\n]*\n)" % name,
                          lambda m: m.group(1) + body + "\n" + m.group(2), text, flags=re.M | re.S)
        if n != 1:
            sys.exit("make.py: %d places for %s" % (n, name))
    return text


def compare(file, found, expected):
    """Every exported call is declared, each with its types."""
    found, expected = {c[0]: c for c in found}, {c[0]: c for c in expected}
    for name in sorted(set(found) | set(expected)):
        if found.get(name) != expected.get(name):
            sys.exit("make.py: %s declares %s as %s, and the crate has %s" % (file, name, found.get(name), expected.get(name)))


def main(words):
    if words not in ([], ["--check"]):
        sys.exit(__doc__)
    header, binding = read(HERE, "tolvendrum.h"), read(HERE, "tolvendrum.rs")
    new = {
        "firmware/tolvendrum.h": filled(header, {"numbers": c_numbers(), "bits": c_bits(), "structs": c_structs()}),
        "firmware/tolvendrum.rs": filled(binding, {"numbers": rust_numbers(), "bits": rust_bits(), "structs": rust_structs()}),
    }
    compare("tolvendrum.h", c_calls(new["firmware/tolvendrum.h"]), c_expected())
    compare("tolvendrum.rs", rust_calls(new["firmware/tolvendrum.rs"]), rust_expected())
    for module, text, found in modules():
        new["crates/firmware_c/src/%s.rt" % module] = "\n".join(exports(module, text, found)) + "\n"
    root = os.path.join(HERE, "..")
    beside = {"crates/firmware_c/src/" + file for file in os.listdir(os.path.join(CRATES, "firmware_c", "src"))} - set(new)
    if beside != {"crates/firmware_c/src/lib.rt"}:
        sys.exit("make.py: crates/firmware_c/src has %s beside the modules of calls" % (", ".join(sorted(beside)) or "no lib.rt"))
    for name, text in new.items():
        if words == ["--check"]:
            if not os.path.exists(os.path.join(root, name)) or text != read(root, name):
                sys.exit("make.py: %s is not what the crates say" % name)
        else:
            with open(os.path.join(root, name), "w", encoding="utf-8") as f:
                f.write(text)
    print("firmware: %d structs and %d calls, as the crates have them" % (len(list(structs())), len(list(calls()))))


if __name__ == "__main__":
    main(sys.argv[1:])
