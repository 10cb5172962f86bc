#!/usr/bin/env python3
"""Compares what `dwarf show` says of the units of an ELF file with what readelf says of them.

Usage: scripts/explore/compare.py PROGRAM FILE..

PROGRAM is the built `dwarf` (crates/dwarf/out/dwarf). Each FILE is linked and little-endian. Of its units of
version 5, compared are the level, the offset and the tag of each entry, the names of its attributes in their
order, each value that readelf tells as the number that stands there, and each text that an attribute has or names.
A name that the program prints as a number is passed over. The status is 0 where all agree, else 1.
"""

import bisect
import os
import re
import subprocess
import sys
import tempfile
from dataclasses import dataclass, field

sys.path.insert(1, os.path.dirname(os.path.dirname(os.path.abspath(__file__))))

import section_names  # noqa: E402

SECTIONS = os.path.join(os.path.dirname(os.path.dirname(os.path.abspath(__file__))), "sections.sh")

# How readelf writes a number that stands in the unit.
NUMBER = re.compile(
    r"(?:\((?:indirect string, offset|indirect line string, offset|indexed string|index): (0x[0-9a-f]+|0)\)"
    r"|<(0x[0-9a-f]+)>|(0x[0-9a-f]+|-?[0-9]+)(?:\s+\(.*\))?\s*$)"
)

# How readelf writes a text that stands in another section, and how `dwarf show` writes any text.
NAMED_TEXT = re.compile(
    r"\((?:indirect string, offset|indirect line string, offset|indexed string): (?:0x[0-9a-f]+|0)\): (.*)$"
)
QUOTED = re.compile(r'(?:0x[0-9a-f]+ )?"(.*)"$')
ESCAPED = re.compile(r"\\(?:x([0-9a-f]{2})|(.))")

# The forms of references that count from their unit's first byte. readelf adds the unit's place to them.
WITHIN_ITS_UNIT = {"DW_FORM_ref1", "DW_FORM_ref2", "DW_FORM_ref4", "DW_FORM_ref8", "DW_FORM_ref_udata"}


@dataclass
class Attribute:
    """An attribute as one of the two tells it: a number and a text where it has them, and whether it is a reference
    that counts from its unit, to which readelf adds the unit's place."""

    name: str
    number: int
    text: str
    is_within: bool = False


@dataclass
class Entry:
    level: int
    offset: int
    tag: str
    attributes: list = field(default_factory=list)

    def head(self):
        return self.level, self.offset, self.tag


def number(text):
    """The number that a value's text tells, or None where it tells another thing."""
    found = NUMBER.match(text)
    return int(next(it for it in found.groups() if it is not None), 0) if found else None


def named_text(value, form):
    """The text that a value has or names as readelf tells it, or None."""
    named = NAMED_TEXT.match(value)
    return named[1] if named else value if form == "DW_FORM_string" else None


def quoted_text(value):
    """The same as `dwarf show` tells it: a byte that isn't printed is a character of its number."""
    quoted = QUOTED.match(value)
    return quoted and ESCAPED.sub(lambda it: chr(int(it[1], 16)) if it[1] else it[2], quoted[1])


def dumped(what, file):
    """The lines that readelf writes of a section."""
    words = ["readelf", f"--debug-dump={what}", file]
    told = subprocess.run(words, stdout=subprocess.PIPE, stderr=subprocess.DEVNULL, check=True)
    return told.stdout.decode("latin-1").split("\n")


def forms_by_readelf(file):
    """The forms of each declaration, by the offset of its table and its code."""
    forms, table, code = {}, 0, 0
    for line in dumped("abbrev", file):
        begins = re.match(r"  Number TAG \((0x[0-9a-f]+|0)\)", line)
        declares = re.match(r"   (\d+)      DW_TAG", line)
        pair = re.match(r"    DW_AT\S*.*\b(DW_FORM_\w+)", line)
        if begins:
            table = int(begins[1], 0)
        elif declares:
            code = int(declares[1])
            forms[table, code] = []
        elif pair:
            forms[table, code].append(pair[1])
    return forms


def by_readelf(file):
    """The entries as readelf tells them."""
    forms, table, entries, left = forms_by_readelf(file), 0, [], iter(())
    for line in dumped("info", file):
        unit = re.match(r"   Abbrev Offset: +(0x[0-9a-f]+|0)", line)
        entry = re.match(r" <(\d+)><([0-9a-f]+)>: Abbrev Number: (\d+) \((\w+)\)", line)
        attribute = re.match(r"    <[0-9a-f]+>   (\w+)\s*: ?(.*)", line)
        if unit:
            table = int(unit[1], 0)
        elif entry:
            entries.append(Entry(int(entry[1]) + 1, int(entry[2], 16), entry[4]))
            left = iter(forms.get((table, int(entry[3])), ()))
        elif attribute and entries:
            form = next(left, "")
            told = number(attribute[2].strip()), named_text(attribute[2], form)
            entries[-1].attributes.append(Attribute(attribute[1], *told, form in WITHIN_ITS_UNIT))
    return entries


def by_show(program, file):
    """The same as `dwarf show` tells them, and where the units lie."""
    with tempfile.TemporaryDirectory() as room:
        if subprocess.run(["sh", SECTIONS, file, room]).returncode:
            sys.exit(1)
        words = section_names.words_of(section_names.paths_in(room))
        told = subprocess.run([program, "show", *words], stdout=subprocess.PIPE, check=True)
    return shown(told.stdout.decode())


def shown(text):
    """The entries in the text of a section, and where its units lie."""
    entries, places = [], []
    for line in text.splitlines():
        unit = re.match(r"unit (0x[0-9a-f]+) \w+ \d+ size (\d+)", line)
        entry = re.match(r"<(\d+)> (0x[0-9a-f]+) (\w+)$", line)
        if unit:
            places.append(range(int(unit[1], 16), int(unit[1], 16) + int(unit[2])))
        elif entry:
            entries.append(Entry(int(entry[1]), int(entry[2], 16), entry[3]))
        elif line.startswith("  "):
            name, _, value = line.strip().partition(" ")
            told = number(value.partition(" -> ")[0].partition(' "')[0]), quoted_text(value)
            entries[-1].attributes.append(Attribute(name, *told))
    return entries, places


def place_of(places, offset):
    """Where the unit lies that has the offset, or None."""
    place = places[bisect.bisect(places, offset, key=lambda it: it.start) - 1]
    return place if offset in place else None


def same_name(ours, theirs):
    """Whether two names are one. A name that this project does not print is a number."""
    return ours == theirs or re.match(r"DW_(AT|TAG)_0x", ours)


def differences(ours, theirs, places):
    """What the two tell otherwise, and how many numbers and texts were compared."""
    lines, numbers, texts = [], 0, 0
    if len(ours) != len(theirs):
        lines.append(f"{len(ours)} entries, and {len(theirs)} by readelf")
    for own, other in zip(ours, theirs):
        same = own.head()[:2] == other.head()[:2] and same_name(own.tag, other.tag)
        if not same or len(own.attributes) != len(other.attributes):
            told = f"{own.head()} with {len(own.attributes)} attributes"
            lines.append(f"{told}, {other.head()} with {len(other.attributes)} by readelf")
        start = place_of(places, own.offset).start
        for mine, its in zip(own.attributes, other.attributes):
            if not same_name(mine.name, its.name):
                lines.append(f"{own.head()}: {mine.name}, {its.name} by readelf")
                continue
            if its.text is not None:
                texts += 1
                if mine.text != its.text:
                    lines.append(f"{own.head()}: {mine.name} {mine.text!r}, {its.text!r} by readelf")
            if mine.number is not None and its.number is not None:
                numbers += 1
                if mine.number + (start if its.is_within else 0) != its.number:
                    lines.append(f"{own.head()}: {mine.name} {mine.number:#x}, {its.number:#x} by readelf")
    return lines, numbers, texts


def main(program, files):
    status = 0
    for file in files:
        ours, places = by_show(program, file)
        theirs = [it for it in by_readelf(file) if places and place_of(places, it.offset)]
        lines, numbers, texts = differences(ours, theirs, places)
        for line in lines[:20]:
            print(f"{file}: {line}")
        attributes = sum(len(it.attributes) for it in ours)
        counts = f"{len(places)} units, {len(ours)} entries, {attributes} attributes"
        print(f"{file}: {counts}, {numbers} numbers and {texts} texts compared, {len(lines)} differences")
        status = 1 if lines or not ours else status
    return status


if __name__ == "__main__":
    if len(sys.argv) < 3 or not os.access(sys.argv[1], os.X_OK):
        sys.exit("usage: scripts/explore/compare.py PROGRAM FILE..")
    sys.exit(main(sys.argv[1], sys.argv[2:]))
