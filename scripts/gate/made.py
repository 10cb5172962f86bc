"""Sections of debugging entries made at random by the grammar (chapter 7 of the DWARF 5 standard): valid ones, of every
form, kind, format and order, with numbers that are longer than they need be. scripts/gate/sweep.py hands them to the
program."""

from dataclasses import dataclass

import reference
from reference import ADDRESS, ATTRIBUTES, BY_SIGNATURE, COUNTED, FIXED, IMPLICIT, IN_SECTION, IN_UNIT, INDIRECT
from reference import OFFSET, PRESENT, SLEB, STRING, STRX, TAGS, ULEB, Pair

FORMS = (*FIXED, *ULEB, *SLEB, *COUNTED, STRING, PRESENT, IMPLICIT, INDIRECT)
STRING_BASE = 0x72
KINDS = {"compile": 1, "type": 2, "partial": 3, "skeleton": 4}

# Attributes that mean something to a command stand more often.
NAMES = (0x03, 0x03, 0x03, 0x49, 0x49, 0x01, 0x37, 0x2F, 0x27, 0x72, *ATTRIBUTES)
TYPES = (0x0F, 0x10, 0x26, 0x35, 0x01, 0x21, 0x15, 0x05, 0x18, 0x24, 0x16, 0x34, 0x2E, 0x0D, *TAGS)


@dataclass
class Made:
    """Files of sections by their names, and how they are read: big-endian, and units of version 4 too."""

    files: dict
    is_big: bool
    is_four: bool

    def flags(self):
        """The program's options that say so."""
        return ["--big"] * self.is_big + ["--v4"] * self.is_four

    def read(self):
        """The section as the independent reader reads it."""
        versions = (4, 5) if self.is_four else (5,)
        return reference.read_section(self.files["info"], self.files["abbrev"], self.is_big, versions, self.files)


@dataclass
class Hole:
    """Where a number stands that is to refer to an entry: its offset in the unit and its width, whether it is in
    LEB128, and whether it counts from the front of the section."""

    at: int
    width: int
    is_leb: bool
    is_global: bool


class Maker:
    """Makes one section. `chance` is a random.Random."""

    def __init__(self, chance):
        self.chance = chance
        self.big, self.four = chance.random() < 0.4, chance.random() < 0.4
        self.strings = b"".join(self.text() + b"\0" for _ in range(3)) + self.chance.choice([b"", b"no end"])
        self.info, self.tables = b"", b""
        # Where the tables begin, and those within them that begin with a later declaration; the declarations of each.
        self.decls, self.tails = [], []

    def section(self):
        for _ in range(self.chance.randint(1, 3)):
            self.add_table()
        for _ in range(self.chance.randint(1, 4)):
            self.info += self.other() if self.chance.random() < 0.2 else self.unit()
        files = {"info": self.info, "abbrev": self.tables, "str": self.strings, "line-str": self.strings[::-1] + b"\0"}
        offsets = (self.fixed(self.chance.randrange(len(self.strings) + 3), 4) for _ in range(5))
        return Made({**files, "str-offsets": bytes(8) + b"".join(offsets)}, self.big, self.four)

    # ---- numbers and texts

    def fixed(self, value, size):
        return (value % 256**size).to_bytes(size, "big" if self.big else "little")

    def leb(self, value, signed=False):
        """A number, sometimes longer than it need be."""
        groups = [value & 0x7F]
        while not (-64 <= value < 64 if signed else value < 128):
            value >>= 7
            groups.append(value & 0x7F)
        longer = min(self.chance.choice([0] * 9 + [1, 2, 15]), 16 - len(groups))
        groups += [0x7F if signed and value < 0 else 0] * longer
        return bytes([*(it | 0x80 for it in groups[:-1]), groups[-1]])

    def number(self):
        return self.chance.choice([0, 1, 2, 127, 128, 2**32 - 1, 2**63, 2**64 - 1, self.chance.randrange(300)])

    def text(self):
        return bytes(self.chance.choice(b'ab"\\\x01\xff') for _ in range(self.chance.randrange(4)))

    # ---- tables

    def add_table(self):
        starts, decls = [], {}
        for code in self.chance.sample([1, 2, 3, 4, 200, 70_000, 2**64 - 1], self.chance.randint(1, 5)):
            pairs = [self.pair() for _ in range(self.chance.randrange(5))]
            if self.chance.random() < 0.4:
                pairs.insert(0, Pair(STRING_BASE, 0x17, 0))
            decls[code] = self.chance.random() < 0.5, pairs
            starts.append(len(self.tables))
            self.tables += self.leb(code) + self.leb(self.chance.choice([*TYPES, 0x4081])) + bytes([decls[code][0]])
            for it in pairs:
                self.tables += self.leb(it.name) + self.leb(it.form)
                self.tables += self.leb(it.constant, signed=True) if it.form == IMPLICIT else b""
            self.tables += self.leb(0) + self.leb(0)
        self.tables += self.leb(0)
        self.decls.append((starts[0], decls))
        self.tails += [(start, dict([*decls.items()][at:])) for at, start in enumerate(starts)]

    def pair(self):
        form = self.chance.choice([*FORMS, *IN_UNIT, *STRX, STRING])
        name = self.chance.choice([*NAMES, 0x2001])
        return Pair(name, form, self.chance.choice([-1, 0, 1, -(2**63), 2**63 - 1]))

    # ---- items

    def other(self):
        """An item of a version or a type that isn't read."""
        rest = self.chance.choice([b"", self.fixed(2, 2), self.fixed(5, 2) + b"\x07", self.fixed(6, 2) + self.text()])
        is_wide = self.chance.random() >= 0.7
        return (b"\xff" * 4 + self.fixed(len(rest), 8) if is_wide else self.fixed(len(rest), 4)) + rest

    def unit(self):
        wide, size = (True, 8) if self.chance.random() < 0.3 else (False, 4)
        offset, decls = self.chance.choice(self.decls if self.chance.random() < 0.6 else self.tails)
        header, address = self.header(offset, size)
        start = (12 if wide else 4) + len(header)
        body, offsets, holes = self.tree(decls, start, address, size)
        body += b"".join(self.leb(0) for _ in range(self.chance.choice([0, 0, 0, 1, 3])))
        whole = bytearray((b"\xff" * 4 if wide else b"") + self.fixed(len(header) + len(body), size) + header + body)
        for it in holes:
            is_entry = self.chance.random() < 0.8
            target = self.chance.choice(offsets) if is_entry else self.chance.randrange(len(whole) + 5)
            target += len(self.info) if it.is_global else 0
            spelled = self.padded(target, it.width) if it.is_leb else self.fixed(target, it.width)
            whole[it.at : it.at + it.width] = spelled
        return bytes(whole)

    def padded(self, value, width):
        return bytes([value >> 7 * i & 0x7F | (0x80 if i < width - 1 else 0) for i in range(width)])

    def header(self, offset, size):
        """The fields behind the initial length, and the size of an address."""
        address = self.chance.choice([1, 2, 4, 8, 8, 3])
        if self.four and self.chance.random() < 0.4:
            return self.fixed(4, 2) + self.fixed(offset, size) + bytes([address]), address
        kind = self.chance.choice(list(KINDS))
        header = self.fixed(5, 2) + bytes([KINDS[kind], address]) + self.fixed(offset, size)
        if kind == "type":
            header += self.fixed(self.chance.randrange(3), 8) + self.fixed(self.chance.randrange(20, 40), size)
        return header + (self.fixed(self.number(), 8) if kind == "skeleton" else b""), address

    def tree(self, decls, start, address, size):
        """The bytes of a tree, the offsets of its entries, and the holes for numbers that are to refer to one."""
        body, offsets, holes, open_entries = b"", [], [], 0
        while True:
            code = self.chance.choice(list(decls))
            has_children, pairs = decls[code]
            if offsets and (self.chance.random() < 0.4 or open_entries > 4):
                body += self.leb(0)
                open_entries -= 1
            else:
                offsets.append(start + len(body))
                body += self.leb(code)
                for it in pairs:
                    at = start + len(body)
                    value = self.value(it.form, address, size, it.name)
                    body += value
                    if it.form in IN_UNIT or it.form == IN_SECTION:
                        holes.append(Hole(at, len(value), it.form == 0x15, it.form == IN_SECTION))
                open_entries += has_children
            if not open_entries:
                return body, offsets, holes

    def value(self, form, address, size, name):
        if form == INDIRECT:
            inner = self.chance.choice([it for it in FORMS if it not in (INDIRECT, IMPLICIT)])
            return self.leb(inner) + self.value(inner, address, size, name)
        if form in FIXED:
            width = {ADDRESS: address, OFFSET: size}.get(FIXED[form], FIXED[form])
            if name == STRING_BASE or form == BY_SIGNATURE:
                return self.fixed(8 if name == STRING_BASE else self.chance.randrange(4), width)
            few = 6 if form in STRX else len(self.strings) + 2 if FIXED[form] == OFFSET else None
            return self.fixed(self.chance.randrange(few) if few else self.number(), width)
        if form == 0x15:
            return self.padded(0, self.chance.randint(2, 4))
        if form in ULEB:
            return self.leb(self.chance.randrange(6) if form in STRX else self.number())
        if form in SLEB:
            return self.leb(self.chance.choice([-1, 0, 63, 64, -64, -65, -(2**63), 2**63 - 1]), signed=True)
        if form in COUNTED:
            content = self.text()
            return (self.fixed(len(content), COUNTED[form]) if COUNTED[form] else self.leb(len(content))) + content
        return self.text().replace(b"\0", b"") + b"\0" if form == STRING else b""
