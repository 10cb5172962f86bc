#!/usr/bin/env python3
"""Compares the types that `dwarf type` writes with the declarations in the sources.

Usage: scripts/explore/c_types.py PROGRAM DIR..

PROGRAM is the built `dwarf` (crates/dwarf/out/dwarf). Each DIR has the sections of a program, as scripts/sections.sh
writes them, and its C sources. `dwarf type` runs at each entry of all units and has to end well. What it writes at a
variable, a parameter or a member that says where it is declared has to stand in that line, apart from spaces, the
several names of the numbers of C, and how many elements an array has where the source leaves that to the compiler.
Where a compiler says a type in other words than the source, those stand in the line as a comment. The status is 0
where all agree, else 1.
"""

import os
import re
import subprocess
import sys

sys.path.insert(1, os.path.dirname(os.path.dirname(os.path.abspath(__file__))))

import section_names  # noqa: E402

DECLARED = {"DW_TAG_variable", "DW_TAG_formal_parameter", "DW_TAG_member"}

TOKEN = re.compile(r"[A-Za-z_]\w*|\d+|\.\.\.|\S")

# The words that together name a number of C.
NUMBERS = {"unsigned", "signed", "short", "long", "int", "char", "double"}


def run(program, command, folder):
    """The status of a run and the lines that it writes."""
    files = section_names.words_of(section_names.paths_in(folder))
    ran = subprocess.run([program, *command, "--v4", *files], stdout=subprocess.PIPE)
    return ran.returncode, ran.stdout.decode("latin-1").splitlines()


def entries(program, folder):
    """The entries as an offset, a tag and the texts of the attributes by their names."""
    found = []
    for line in run(program, ["show"], folder)[1]:
        entry = re.match(r"<\d+> (0x[0-9a-f]+) (\w+)$", line)
        if entry:
            found.append((entry[1], entry[2], {}))
        elif line.startswith("  "):
            name, _, value = line.strip().partition(" ")
            found[-1][2].setdefault(name, value)
    return found


def tokens(text):
    """The words and marks of a declaration, in which each number of C has one name."""
    out, number = [], []
    for token in [*TOKEN.findall(text), ""]:
        if token in NUMBERS:
            number.append(token)
            continue
        if number:
            words = [it for it in number if it not in ("int", "signed") or len(number) == 1]
            out.append(" ".join(sorted(words)) or "int")
            number = []
        out.append(token)
    return out[:-1]


def without_lengths(words, kept):
    """The same with a star for each length of an array that isn't kept."""
    out = []
    for word in words:
        if word == "]":
            begin = len(out) - 1 - out[::-1].index("[")
            if not kept(out[begin + 1 :]):
                out[begin + 1 :] = ["*"]
        out.append(word)
    return out


def stands(words, line):
    """Whether the words stand in the line, one behind the other."""
    line = without_lengths(line, lambda it: len(it) == 1 and it[0].isdigit())
    for at in range(len(line) - len(words) + 1):
        there = line[at : at + len(words)]
        same = all(a == b or b == "*" and a.isdigit() for a, b in zip(words, there))
        if same:
            return True
    return False


def declarations(folder, attributes):
    """The lines of the sources that have the number at which an entry says it is declared."""
    if "DW_AT_decl_line" not in attributes:
        return set()
    number = int(attributes["DW_AT_decl_line"], 0)
    lines = set()
    for name in sorted(os.listdir(folder)):
        if name.endswith((".c", ".cc")):
            with open(f"{folder}/{name}") as source:
                lines.add((source.read().split("\n") + [""] * number)[number - 1])
    return lines


def compare(program, folder):
    """Prints what differs, and how many were compared."""
    ran = same = bad = 0
    for offset, tag, attributes in entries(program, folder):
        status, text = run(program, ["type", offset], folder)
        ran += 1
        if status or len(text) != 1:
            print(f"{folder}: {offset} {tag}: status {status}")
            bad += 1
        lines = declarations(folder, attributes) if tag in DECLARED and "DW_AT_name" in attributes else set()
        if not lines or not text:
            continue
        if any(stands(tokens(text[0]), tokens(line)) for line in lines):
            same += 1
        else:
            print(f"{folder}: {offset} {text[0]!r}, declared as {lines}")
            bad += 1
    print(f"{folder}: {ran} entries, {same} declarations found in the sources, {bad} differences")
    return bad == 0 and ran > 0


if __name__ == "__main__":
    if len(sys.argv) < 3 or not os.access(sys.argv[1], os.X_OK):
        sys.exit("usage: scripts/explore/c_types.py PROGRAM DIR..")
    sys.exit(0 if all([compare(sys.argv[1], it) for it in sys.argv[2:]]) else 1)
