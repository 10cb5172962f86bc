#!/usr/bin/env python3
"""Makes sections over which a change for speed can make calls dearer: bare entries, tables, long rows, look-ups, types,
values one by one, small units.

usage: bench/inputs.py OUT [NAME..]

Each is a folder OUT/NAME with the files `info` and `abbrev`, and where texts are named `str` and `str-offsets`.
bench/dearer times two builds over them. The tables of `tables` are those of the units in this folder.
"""

import os
import random
import struct
import sys

HERE = os.path.dirname(os.path.abspath(__file__))


def uleb(value):
    spelled = bytearray()
    while value > 0x7F:
        spelled.append(value & 0x7F | 0x80)
        value >>= 7
    return bytes([*spelled, value])


def declaration(code, tag, children, *pairs):
    spelled = b"".join(uleb(name) + uleb(form) for name, form in pairs)
    return uleb(code) + uleb(tag) + bytes([children]) + spelled + b"\0\0"


def unit(body, table=0):
    return struct.pack("<IHBBI", len(body) + 8, 5, 1, 8, table) + body


def four(number):
    return struct.pack("<I", number)


# Code 1, a root with children.
ROOT = declaration(1, 0x11, 1)

# Where the first entry below such a root begins.
FIRST = 13


def rows(row, count, *pairs):
    """A unit of so many entries of one declaration below the root."""
    return {"info": unit(b"\1" + row * count + b"\0"), "abbrev": ROOT + declaration(2, 0x34, 0, *pairs) + b"\0"}


def names(count, form):
    return [(0x2000 + at, form) for at in range(count)]


def bare():
    return rows(b"\2", 6_000_000)


def chains():
    """Branches without values, one in the other, 250 deep."""
    deep = 250
    body = b"\1" + (b"\2" * deep + b"\0" * deep) * 8_000 + b"\0"
    return {"info": unit(body), "abbrev": ROOT + declaration(2, 0x0B, 1) + b"\0"}


def tables_in(abbrev):
    """The tables of a section that have a declaration."""
    at = 0

    def number():
        nonlocal at
        value = shift = 0
        while True:
            byte = abbrev[at]
            at += 1
            value |= (byte & 0x7F) << shift
            shift += 7
            if byte < 0x80:
                return value

    while at < len(abbrev):
        start = at
        while number():
            number()
            at += 1
            while (pair := (number(), number())) != (0, 0):
                if pair[1] == 0x21:
                    number()
        if at > start + 1:
            yield abbrev[start:at]


def behind_roots(tables):
    """A unit of a root alone for each of these tables, of whose declarations it needs none."""
    info, abbrev = bytearray(), bytearray()
    for table in tables:
        info += unit(uleb(0x7FFF), len(abbrev))
        abbrev += uleb(0x7FFF) + b"\x11\0\0\0" + table
    return {"info": bytes(info), "abbrev": bytes(abbrev)}


def tables():
    found = []
    for folder in ("gcc", "clang", "dwz"):
        with open(os.path.join(HERE, folder, "debug_abbrev"), "rb") as file:
            found += tables_in(file.read())
    return behind_roots(found * 120)


def declarations(count, pairs, form):
    """Tables of declarations with so many pairs of a form."""
    table = b"".join(declaration(code + 1, 0x34, 0, *names(pairs, form)) for code in range(count)) + b"\0"
    return behind_roots([table] * (3_000_000 // len(table)))


def lebflags():
    return rows(b"\2\0\0", 8_000, (0x3E, 0x0F), *names(1022, 0x19), (0x03, 0x08))


def textflags():
    return rows(b"\2\0", 8_000, (0x03, 0x08), *names(1022, 0x19))


def leb16():
    return rows(b"\2" + (b"\x80" * 15 + b"\0") * 1000, 600, *names(1000, 0x0F))


def fixed():
    return rows(b"\2" + bytes(15), 300_000, (0x2000, 0x0B), (0x2001, 0x05), (0x2002, 0x06), (0x2003, 0x07))


def indirect():
    return rows(b"\2" + b"\x0b\x07" * 8, 100_000, *names(8, 0x16))


def blocks():
    return rows(b"\2" + b"\x03\x01\x02\x03" * 6, 100_000, *names(6, 0x0A))


def texts():
    return rows(b"\2" + b"abc\0" * 6, 100_000, *names(6, 0x08))


def numbers():
    return rows(b"\2" + b"\x80" * 15 + b"\0", 150_000, (0x0B, 0x0F))


def indexed():
    made = rows(b"\2\1", 2_000_000, (0x03, 0x25))
    base = declaration(1, 0x11, 1, (0x72, 0x17))
    made["info"] = unit(b"\1" + four(8) + b"\2\1" * 2_000_000 + b"\0")
    made["abbrev"] = base + declaration(2, 0x34, 0, (0x03, 0x25)) + b"\0"
    return {**made, "str": b"ab\0c\0", "str-offsets": bytes.fromhex("0c00000005000000") + four(0) + four(3)}


def looked_up(trees, many):
    return {"info": unit(b"\1" + b"\2" * many + b"\0") * trees, "abbrev": ROOT + declaration(2, 0x34, 0) + b"\0"}


# Of types: 2 a base type, 3 a pointer, 4 an array with its children, 5 a subrange, 6 a subprogram with its children,
# 7 a parameter, 8 a label.
OF_A_TYPE = (0x49, 0x13)
TYPES = ROOT + declaration(2, 0x24, 0, (0x03, 0x08)) + declaration(3, 0x0F, 0, OF_A_TYPE)
TYPES += declaration(4, 0x01, 1, OF_A_TYPE) + declaration(5, 0x21, 0, (0x2F, 0x0B))
TYPES += declaration(6, 0x2E, 1, OF_A_TYPE) + declaration(7, 0x05, 0, OF_A_TYPE)
TYPES += declaration(8, 0x0A, 0) + b"\0"
BASE, POINTER, ARRAY, TO_ARRAY = FIRST, FIRST + 5, FIRST + 10, FIRST + 18


def functions(count, *children):
    """Units of subprograms with these children, each a code and an offset, or a code alone."""
    front = b"\2int\0" + b"\3" + four(BASE) + b"\4" + four(BASE) + b"\5\2\0" + b"\3" + four(ARRAY)
    below = b"".join(bytes([code]) + b"".join(map(four, at)) for code, *at in children)
    function = b"\6" + four(BASE) + below + b"\0"
    body = b"\1" + front + function * (count // 50) + b"\0"
    return {"info": unit(body) * 50, "abbrev": TYPES}


# A root without children of a language, a table of 12 bytes for it with two numbers more, and that of a type unit: its
# root, a structure and a member.
LEAF = declaration(1, 0x11, 0, (0x13, 0x0B)) + b"\0"
LEAF_OF_THREE = declaration(1, 0x11, 0, (0x13, 0x05), (0x36, 0x0B), (0x17, 0x0B)) + b"\0"
TYPE_UNIT = declaration(1, 0x41, 1, (0x13, 0x05)) + declaration(2, 0x13, 1, (0x03, 0x08), (0x0B, 0x0B))
TYPE_UNIT += declaration(3, 0x0D, 0, (0x03, 0x08), OF_A_TYPE) + b"\0"


def small():
    """Units of 14 bytes over one table."""
    return {"info": unit(b"\1\x1d") * 300_000, "abbrev": LEAF}


def small_tables():
    """Units of 17 bytes with a table each."""
    count, size = 147_000, len(LEAF_OF_THREE)
    return {"info": b"".join(unit(b"\1\x1d\0\1\2", at * size) for at in range(count)), "abbrev": LEAF_OF_THREE * count}


def small_types():
    """Type units of 56 bytes: a structure whose two members are of it."""
    at = 27
    members = b"".join(b"\3" + name + b"\0" + four(at) for name in (b"a", b"b"))

    def one(number):
        body = b"\1\x1d\0" + b"\2S%09d\0\x08" % number + members + b"\0\0"
        return struct.pack("<IHBBIQI", len(body) + 20, 5, 2, 8, 0, 0x1234567800000000 + number, at) + body

    return {"info": b"".join(map(one, range(80_000))), "abbrev": TYPE_UNIT}


def leb_rows():
    """Rows of six numbers of one to five bytes, four without and two with a sign, in units of 100,000 bytes."""
    chance = random.Random(1)

    def number():
        return uleb(chance.getrandbits(chance.choice([3, 7, 10, 14, 20, 30])))

    body = b"\1"
    while len(body) < 100_000:
        body += b"\2" + b"".join(number() for _ in range(6))
    pairs = [(0x3A, 0x0F), (0x3B, 0x0F), (0x39, 0x0F), (0x0B, 0x0F), (0x38, 0x0D), (0x1C, 0x0D)]
    return {"info": unit(body + b"\0") * 40, "abbrev": ROOT + declaration(2, 0x34, 0, *pairs) + b"\0"}


# How many units of how many entries are looked up in.
LOOKED_UP = ((2_000, 1_000), (200, 10_000), (20_000, 100))

MADE = {
    "bare": bare,
    "chains": chains,
    "tables": tables,
    "pairs-1024": lambda: declarations(4, 1024, 0x0B),
    "pairs-10": lambda: declarations(100, 10, 0x0B),
    "texts-10": lambda: declarations(100, 10, 0x08),
    "lebflags": lebflags,
    "textflags": textflags,
    "leb16": leb16,
    "numbers": numbers,
    "fixed": fixed,
    "indirect": indirect,
    "blocks": blocks,
    "texts": texts,
    "indexed": indexed,
    "labels": lambda: functions(20_000, (7, POINTER), *[(8,)] * 35),
    "many": lambda: functions(3_000, *[(7, BASE)] * 187, *[(7, TO_ARRAY)] * 3),
    "arrays": lambda: functions(20_000, *[(7, TO_ARRAY)] * 10),
    "small": small,
    "small-tables": small_tables,
    "small-types": small_types,
    "leb-rows": leb_rows,
    **{f"look-{many}": lambda many=many: looked_up(1, many) for many in (300, 8_000, 32_768, 65_534, 300_000)},
    **{f"look-{trees}x{many}": lambda trees=trees, many=many: looked_up(trees, many) for trees, many in LOOKED_UP},
}


def main(out, *wanted):
    for name in wanted or MADE:
        if name not in MADE:
            sys.exit(f"bench/inputs.py: there is no input {name}")
        os.makedirs(os.path.join(out, name), exist_ok=True)
        for part, content in MADE[name]().items():
            with open(os.path.join(out, name, part), "wb") as file:
                file.write(content)


if __name__ == "__main__":
    if len(sys.argv) < 2:
        sys.exit("usage: bench/inputs.py OUT [NAME..]")
    main(*sys.argv[1:])
