#!/usr/bin/env python3
"""Measures how the work and the memory of `dwarf` grow with the input, over sections of many shapes.

Usage: scripts/measure/growth.py PROGRAM [SHAPE..]

PROGRAM is the built `dwarf` (crates/dwarf/out/dwarf). Sections are made that grow in one way each, some as compilers
write them and most as a stranger would who means to cost us time or memory: deep and wide trees, nulls, entries that
have no bytes but their code, lengths that announce what isn't there, large tables, many units over one table and over
one each, references in rings and to one entry, texts without an end. Each is made in three sizes, of which the next is
twice the last, and handed to each of its commands. Valgrind counts the instructions of each run. Printed are the bytes
of the largest sections, the instructions for each of them, how many times as much the last doubling adds as the one
before it (linear growth gives 2), and, over sections of at least ENOUGH bytes, the most memory in bytes for each byte
of the sections, with what the program takes anyhow. The status is 1 where a run ends otherwise than it should, where
that number isn't between 1.4 and 2.2, nor over sections twice as large, though a byte takes FEW instructions or more,
where the memory is more than MOST bytes a byte, or where valgrind isn't there, else 0.
"""

import os
import random
import re
import shutil
import subprocess
import sys
import tempfile
from dataclasses import dataclass

sys.path.insert(1, os.path.dirname(os.path.dirname(os.path.abspath(__file__))))

import measured  # noqa: E402
import section_names  # noqa: E402
from spelled import declaration, four, uleb, unit  # noqa: E402

# The most levels that may stand below the root (docs/definitions.md).
DEEPEST = 4_095

# Memory is measured over sections so many times as large as the smallest, or larger ones.
LARGE = 64

# The most memory, in bytes for each byte of the sections.
MOST = 60

# So many bytes of sections tell of memory: beside what they take, the few megabytes that a run takes anyhow, or the
# process that starts it (scripts/measured.py), are little.
ENOUGH = 8_000_000

# How many times as much the last doubling may add as the one before it.
LEAST, GREATEST = 1.4, 2.2

# Where a run takes fewer instructions a byte, what it takes anyhow hides how they grow.
FEW = 10


# Code 1, a compile unit with children; code 2, a base type of one byte that tells its size.
ROOT = declaration(1, 0x11, 1, [])
LEAF = declaration(2, 0x24, 0, [(0x0B, 0x0B)])

# Where the first entry below a root of one byte begins.
FIRST = 13


@dataclass
class Made:
    """Sections by their names, the commands that are tried over them, and the status with which these end."""

    files: dict
    commands: list
    status: int

    def size(self):
        return sum(map(len, self.files.values()))


def made(table, info, *commands, status=0, **texts):
    files = {"abbrev": table + b"\0", "info": info, **{section_names.named(it): text for it, text in texts.items()}}
    return Made(files, [it.split() for it in commands], status)


def under_root(declared, entries, *commands, **texts):
    """One unit: below its root stand these entries of code 2 and more."""
    return made(ROOT + declared, unit(b"\x01" + entries + b"\0"), *commands, **texts)


# ---- trees


def entries(times):
    return under_root(LEAF, b"\x02\x04" * (4_000 * times), "copy", "show", "check")


def bare_entries(times):
    return under_root(declaration(2, 0x0A, 0, []), b"\x02" * (8_000 * times), "copy", "show", "check")


def childless_parents(times):
    """Each has a null for children that it doesn't have."""
    return under_root(declaration(2, 0x0B, 1, []), b"\x02\0" * (4_000 * times), "copy", "show", "check")


def within(most, times):
    """A number that grows up to its most, and how often what has it stands then."""
    return most * min(times, 8) // 8, 10 * max(1, times // 8)


def nesting(times):
    depth, count = within(DEEPEST, times)
    chain = b"\x01" * depth + b"\0" * depth
    return made(ROOT, unit(b"\x01" + chain * count + b"\0"), "copy", "show", "check")


def chains(times):
    """As deep as may be, one behind the other."""
    return made(ROOT, unit(b"\x01" + (b"\x01" * DEEPEST + b"\0" * DEEPEST) * times + b"\0"), "copy", "check")


def chains_with_entries_before(times):
    depth, count = within(DEEPEST, times)
    chain = b"\x02\x01" * depth + b"\0" * depth
    return under_root(declaration(2, 0x0A, 0, []), chain * count, "copy", "show", "check")


def chains_with_entries_behind(times):
    depth, count = within(DEEPEST - 1, times)
    chain = b"\x01" * depth + b"\x02\0" * depth
    return under_root(declaration(2, 0x0A, 0, []), chain * count, "copy", "show", "check")


def nulls(times):
    """Padding behind the root."""
    return made(ROOT, unit(b"\x01\0" + b"\0" * (8_000 * times)), "copy", "show", "check")


def wide_nulls(times):
    return made(ROOT, unit(b"\x01\0" + (b"\x80" * 15 + b"\0") * (1_000 * times)), "copy", "show")


# ---- attributes


def attributes(times):
    most, count = within(1_024, times)
    declared = declaration(2, 0x24, 0, [(0x0B, 0x0B)] * most)
    return under_root(declared, (b"\x02" + b"\x04" * most) * count, "copy", "show", "check")


def flags(times):
    """Entries of one byte, each with 1,024 attributes that have none."""
    declared = declaration(2, 0x34, 0, [(0x2000 + it, 0x19) for it in range(1_024)])
    return under_root(declared, b"\x02" * (10 * times), "copy", "check")


def flags_behind_a_number(times):
    pairs = [(0x0B, 0x0F)] + [(0x2000 + it, 0x19) for it in range(1_022)] + [(0x03, 0x08)]
    return under_root(declaration(2, 0x34, 0, pairs), b"\x02\x80\x01a\0" * (10 * times), "copy", "check")


def wide_numbers(times):
    """Each entry has 1,000 numbers of sixteen bytes."""
    declared = declaration(2, 0x34, 0, [(0x2000 + it, 0x0F) for it in range(1_000)])
    number = b"\x81" + b"\x80" * 14 + b"\0"
    return under_root(declared, (b"\x02" + number * 1_000) * times, "copy", "show", "check")


def numbers(times):
    declared = declaration(2, 0x34, 0, [(0x0B, 0x0F), (0x1C, 0x0D)])
    return under_root(declared, b"\x02\x85\x01\x7f" * (2_000 * times), "copy", "show", "check")


# ---- tables and units


def table_of(codes):
    return b"".join(declaration(it, 0x24, 0, [(0x0B, 0x0B)]) for it in codes)


def declarations(times):
    codes = range(2, 2 + 1_000 * times)
    return under_root(table_of(codes), b"".join(uleb(it) + b"\x04" for it in codes), "copy", "show", "check")


def declarations_falling(times):
    codes = range(2, 2 + 1_000 * times)
    return under_root(table_of(reversed(codes)), b"".join(uleb(it) + b"\x04" for it in codes), "copy", "show", "check")


def declarations_at_random(times):
    codes = random.Random(66).sample(range(2, 2**62), 1_000 * times)
    return under_root(table_of(codes), b"".join(uleb(it) + b"\x04" for it in codes), "copy", "show", "check")


def units_over_one_table(times):
    return made(ROOT, unit(b"\x01\0") * (500 * times), "copy", "show", "check")


def units_over_a_table_each(times):
    table, count = declaration(1, 0x11, 0, [(0x13, 0x0B)]) + b"\0", 500 * times
    units = b"".join(unit(b"\x01\x04", len(table) * it) for it in range(count))
    return made(table * count, units, "copy", "show", "check")


def tables_of_many_pairs(times):
    """Each unit has one entry, over a table of its own of 1,024 pairs."""
    table, count = declaration(1, 0x11, 0, [(0x2000 + it, 0x19) for it in range(1_024)]) + b"\0", 8 * times
    units = b"".join(unit(b"\x01", len(table) * it) for it in range(count))
    return made(table * count, units, "copy", "check")


def other_items(times):
    """Items of a version that isn't read."""
    return made(ROOT, (four(6) + b"\x03\0\0\0\0\0") * (1_000 * times), "copy", "show", "check")


# ---- lengths that announce what isn't there


def announced_unit(times):
    wide = b"\xff\xff\xff\xff" + (2**62).to_bytes(8, "little") + b"\x05\0\x01\x08" + bytes(8)
    return made(ROOT, wide + b"\x01" * 1_000 + bytes(8_000 * times), "copy", status=1)


def announced_item(times):
    wide = b"\xff\xff\xff\xff" + (2**62).to_bytes(8, "little") + b"\x03\0"
    return made(ROOT, wide + bytes(20_000 * times), "copy", status=1)


def announced_block(times):
    rest = b"\x05\0\x01\x08" + bytes(8) + b"\x01\x02" + uleb(2**62)
    info = b"\xff\xff\xff\xff" + (2**62 + 2**32).to_bytes(8, "little") + rest
    return made(ROOT + declaration(2, 0x34, 0, [(0x1C, 0x09)]), info + bytes(20_000 * times), "copy", status=1)


# ---- references


def references(times, target):
    """Each entry has a reference of four bytes in its unit; `target` tells from its number and their count which entry
    it names."""
    count = 1_000 * times
    named = b"".join(b"\x02" + four(target(it, count)) for it in range(count))
    return under_root(declaration(2, 0x34, 0, [(0x49, 0x13)]), named, "check", "show")


def place(number):
    return FIRST + 5 * number


def ring(times):
    return references(times, lambda it, count: place((it + 1) % count))


def to_one_entry(times):
    return references(times, lambda it, count: place(count - 1))


def to_none(times):
    return references(times, lambda it, count: place(count - 1) + 1)


def backwards(times):
    return references(times, lambda it, count: place(count - 1 - it))


def between_units(times):
    """Each unit has 100 entries, with references to entries of other units."""
    chance, count, size = random.Random(66), 20 * times, 14 + 100 * 5
    starts = [it * size for it in range(count)]

    def entry():
        return b"\x02" + four(chance.choice(starts) + place(chance.randrange(100)))

    units = [unit(b"\x01" + b"".join(entry() for _ in range(100)) + b"\0") for _ in range(count)]
    return made(ROOT + declaration(2, 0x34, 0, [(0x49, 0x10)]), b"".join(units), "check", "show")


def type_units(times, signature):
    """Type units, and behind them a unit with a reference to each by its signature, which `signature` tells from its
    number."""
    count = 200 * times
    signed = [signature(it).to_bytes(8, "little") for it in range(count)]
    typed = b"".join(unit(it + four(25) + b"\x03\x02\x04\0", 0, b"\x02\x08") for it in signed)
    named = b"".join(b"\x04" + it for it in signed)
    table = ROOT + LEAF + declaration(3, 0x41, 1, []) + declaration(4, 0x34, 0, [(0x49, 0x20)])
    return made(table, typed + unit(b"\x01" + named + b"\0"), "check", "show", "copy")


def signatures(times):
    return type_units(times, lambda it: it * 0x9E3779B97F4A7C15 % 2**64)


def signatures_that_collide(times):
    return type_units(times, lambda it: 7)


# ---- texts


def texts(times):
    # (a byte of a text costs so little that what a run costs anyhow hides it in a short one)
    text = b"a" * (131_072 * times) + b"\0"
    return made(declaration(1, 0x11, 0, [(0x03, 0x08)]), unit(b"\x01" + text), "copy", "show", "check")


def texts_without_an_end(times):
    count = 1_000 * times
    named = b"".join(b"\x02" + four(it) for it in range(count))
    return under_root(declaration(2, 0x34, 0, [(0x03, 0x0E)]), named, "check", str=b"a" * count)


def names_of_one_long_text(times):
    """All entries are named by one text, and what is looked for is its first byte."""
    count = 1_000 * times
    named, text = (b"\x02" + four(0)) * count, b"a" * count + b"\0"
    return under_root(declaration(2, 0x34, 0, [(0x03, 0x0E)]), named, "find a", "find aa", str=text)


def indices_at_the_edge(times):
    """Texts by an index that leads past 64 bits."""
    root = declaration(1, 0x11, 1, [(0x72, 0x17)])
    body = b"\x01" + b"\xff" * 4 + (b"\x02" + b"\xff" * 9 + b"\x01") * (1_000 * times) + b"\0"
    table = root + declaration(2, 0x34, 0, [(0x03, 0x1A)])
    return made(table, unit(body), "check", "show", str_offsets=bytes(64), str=b"a\0")


# ---- types


def functions_of_arrays(times):
    """Functions of 190 parameters, each of which points to an array."""
    table = ROOT + LEAF + declaration(3, 0x01, 1, [(0x49, 0x13)]) + declaration(4, 0x21, 0, [(0x37, 0x0B)])
    table += declaration(5, 0x0F, 0, [(0x49, 0x13)]) + declaration(6, 0x15, 1, [])
    table += declaration(7, 0x05, 0, [(0x49, 0x13)])
    leaf, array, pointer = FIRST, FIRST + 2, FIRST + 2 + 5 + 3
    shared = b"\x02\x04" + b"\x03" + four(leaf) + b"\x04\x08\0" + b"\x05" + four(array)
    function = b"\x06" + (b"\x07" + four(pointer)) * 190 + b"\0"
    at = FIRST + len(shared)
    return made(table, unit(b"\x01" + shared + function * (16 * times) + b"\0"), f"type {at}", "show", "check")


SHAPES = [
    *(entries, bare_entries, childless_parents, nesting, chains),
    *(chains_with_entries_before, chains_with_entries_behind, nulls, wide_nulls),
    *(attributes, flags, flags_behind_a_number, wide_numbers, numbers),
    *(declarations, declarations_falling, declarations_at_random),
    *(units_over_one_table, units_over_a_table_each, tables_of_many_pairs, other_items),
    *(announced_unit, announced_item, announced_block),
    *(ring, to_one_entry, to_none, backwards, between_units, signatures, signatures_that_collide),
    *(texts, texts_without_an_end, names_of_one_long_text, indices_at_the_edge, functions_of_arrays),
]


class Meter:
    """Measures runs of the program over sections that lie in a folder."""

    def __init__(self, program, room, runner):
        self.program, self.room, self.runner = program, room, runner

    def words(self, given, number):
        """The words of a run of this command, for which the sections are written."""
        paths = {name: f"{self.room}/{name}" for name in given.files}
        for name, path in paths.items():
            with open(path, "wb") as out:
                out.write(given.files[name])
        return [self.program, *given.commands[number], *section_names.words_of(paths)]

    def instructions(self, given, number):
        """The status of a run, and how many instructions it takes."""
        counted = ["valgrind", "--tool=callgrind", f"--callgrind-out-file={self.room}/counted"]
        words = [*counted, *self.words(given, number)]
        ran = subprocess.run(words, stdout=subprocess.DEVNULL, stderr=subprocess.PIPE)
        told = re.search(rb"Collected : (\d+)", ran.stderr)
        return ran.returncode, int(told[1]) if told else 0

    def memory(self, shape, number):
        """How many bytes the sections have over which memory is measured, and how many a run takes for each of them."""
        times, large = LARGE, 0
        while large < ENOUGH:
            given = shape(times)
            before, large, times = large, given.size(), 4 * times
            if large == before:
                break
        return large, self.runner.run(self.words(given, number)).peak / large

    def row(self, shape, number):
        """Of a command of a shape, by its number: a row of the table, and whether it is well."""
        took = []
        for times in (2, 4, 8, 16):
            # (lists that double their room make steps, so a factor past the bounds is looked at once more over larger
            # sections)
            if times == 16 and LEAST <= factor_of(took) <= GREATEST:
                break
            given = shape(times)
            front = f"| {shape.__name__} | `{given.commands[number][0]}` |"
            ended, count = self.instructions(given, number)
            if ended > 1 or given.status == 1 and ended != 1 or not count:
                return f"{front} ended with {ended} | | | |", False
            took.append(count)
        factor, size = factor_of(took), given.size()
        large, each = self.memory(shape, number)
        well = (LEAST <= factor <= GREATEST or took[-1] < FEW * size) and each <= MOST
        told = f"{front} {size:,} | {took[-1] / size:,.0f} | {factor:.2f} | {each:.1f} |"
        return told if well else f"{told} past its bounds, over {large:,} bytes", well


def factor_of(took):
    return (took[-1] - took[-2]) / (took[-2] - took[-3])


def main(program, wanted):
    if not shutil.which("valgrind"):
        sys.exit("growth.py: valgrind is not there")
    passed = failed = 0
    heads = "| Shape | Command | Bytes | Instructions a byte | Last doubling by the one before | Memory, bytes a byte |"
    print(f"{heads}\n|---|---|--:|--:|--:|--:|")
    with tempfile.TemporaryDirectory() as room, measured.Runner() as runner:
        meter = Meter(program, room, runner)
        for shape in SHAPES:
            if wanted and shape.__name__ not in wanted:
                continue
            for number in range(len(shape(2).commands)):
                row, well = meter.row(shape, number)
                print(row, flush=True)
                passed, failed = passed + well, failed + (not well)
    print(f"{passed} passed, {failed} failed")
    return 1 if failed or not passed else 0


if __name__ == "__main__":
    if len(sys.argv) < 2 or not os.access(sys.argv[1], os.X_OK):
        sys.exit("usage: scripts/measure/growth.py PROGRAM [SHAPE..]")
    sys.exit(main(sys.argv[1], sys.argv[2:]))
