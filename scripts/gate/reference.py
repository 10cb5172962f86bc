#!/usr/bin/env python3
"""Debugging entries of DWARF read by a program that is slow and simple: a yardstick for readers that are neither.

Usage: scripts/gate/reference.py SUBCOMMAND --info FILE --abbrev FILE [--str FILE] [--line-str FILE]
       [--str-offsets FILE] [--big] [--v4] WORD..

It takes the words of `dwarf` and writes what `dwarf` has to write, with the same lines on standard error and the same
status; only the texts about words that aren't taken are its own. It follows the definitions in words
(docs/definitions.md) and the standard, and shares nothing with the sources of the program: so
`scripts/gate/cases.py scripts/gate/reference.py cases/show ..` tries it by the cases of the program, and whoever writes
a reader of their own can compare with it. As a module it has `read_section`, `resolve`, `text_of`, `findings`,
`type_text` and `set_number`.
"""

import os
import sys
from dataclasses import dataclass, field

sys.path.insert(1, os.path.dirname(os.path.dirname(os.path.abspath(__file__))))

import section_names  # noqa: E402

# The limits that the standard leaves open (docs/definitions.md).
NESTING = 4096
MOST_PAIRS = 1024
LEB_WIDTH = 16
LAST_END = 2**63 - 1
TYPE_DEPTH = 64
TYPE_VISITS = 1024

# ---- the numbers of section 7.5


def numbers(text):
    """Names by their numbers, of lines `NUMBER NAME, NUMBER NAME`."""
    return {int(number, 16): name for number, name in (it.split() for it in text.replace("\n", " ").split(","))}


TAGS = numbers("""01 array_type, 02 class_type, 04 enumeration_type, 05 formal_parameter, 0a label, 0b lexical_block,
0d member, 0f pointer_type, 10 reference_type, 11 compile_unit, 13 structure_type, 15 subroutine_type, 16 typedef,
17 union_type, 18 unspecified_parameters, 1c inheritance, 1d inlined_subroutine, 21 subrange_type, 24 base_type,
26 const_type, 28 enumerator, 2e subprogram, 34 variable, 35 volatile_type, 37 restrict_type, 39 namespace,
3b unspecified_type, 3c partial_unit, 41 type_unit, 42 rvalue_reference_type, 47 atomic_type, 48 call_site,
49 call_site_parameter, 4a skeleton_unit""")
ATTRIBUTES = numbers("""01 sibling, 02 location, 03 name, 0b byte_size, 0d bit_size, 10 stmt_list, 11 low_pc,
12 high_pc, 13 language, 1b comp_dir, 1c const_value, 20 inline, 22 lower_bound, 25 producer, 27 prototyped,
2f upper_bound, 31 abstract_origin, 32 accessibility, 34 artificial, 37 count, 38 data_member_location, 39 decl_column,
3a decl_file, 3b decl_line, 3c declaration, 3e encoding, 3f external, 40 frame_base, 47 specification, 49 type,
55 ranges, 57 call_column, 58 call_file, 59 call_line, 69 signature, 6b data_bit_offset, 6e linkage_name,
72 str_offsets_base, 73 addr_base, 74 rnglists_base, 7a call_all_calls, 7d call_return_pc, 7e call_value,
7f call_origin, 87 noreturn, 88 alignment, 8c loclists_base""")
NUMBER_OF_ATTRIBUTE = {name: number for number, name in ATTRIBUTES.items()}
TAG = {name: number for number, name in TAGS.items()}

# How many bytes the values of a form have (section 7.5.6): a number, an address or an offset of the unit.
ADDRESS, OFFSET = "address", "offset"
FIXED = {0x01: ADDRESS} | dict.fromkeys((0x0E, 0x10, 0x17, 0x1D, 0x1F, 0x1F20, 0x1F21), OFFSET)
FIXED |= dict.fromkeys((0x0B, 0x0C, 0x11, 0x25, 0x29), 1) | dict.fromkeys((0x05, 0x12, 0x26, 0x2A), 2)
FIXED |= dict.fromkeys((0x27, 0x2B), 3) | dict.fromkeys((0x06, 0x13, 0x1C, 0x28, 0x2C), 4)
FIXED |= dict.fromkeys((0x07, 0x14, 0x20, 0x24), 8) | {0x1E: 16}
ULEB, SLEB, STRING, PRESENT, INDIRECT, IMPLICIT = (0x0F, 0x15, 0x1A, 0x1B, 0x22, 0x23), (0x0D,), 0x08, 0x19, 0x16, 0x21
# The length of a block has so many bytes, or is in ULEB128.
COUNTED = {0x03: 2, 0x04: 4, 0x0A: 1, 0x09: None, 0x18: None}

IN_UNIT, IN_SECTION, BY_SIGNATURE = (0x11, 0x12, 0x13, 0x14, 0x15), 0x10, 0x20
REFERENCES_ELSEWHERE, TEXTS_ELSEWHERE = (0x1C, 0x24, 0x1F20), (0x1D, 0x1F21)
REFERENCES = (*IN_UNIT, IN_SECTION, BY_SIGNATURE, *REFERENCES_ELSEWHERE)
STRP, LINE_STRP, STRX = 0x0E, 0x1F, (0x1A, 0x25, 0x26, 0x27, 0x28)
TEXTS = (STRING, STRP, LINE_STRP, *TEXTS_ELSEWHERE, *STRX)

KINDS = {1: "compile", 2: "type", 3: "partial", 4: "skeleton"}


class Fault(Exception):
    """The first field that breaks: its section, its offset there, and why."""

    def __init__(self, section, offset, reason):
        super().__init__(f"{section} {offset:#x} {reason}")
        self.section, self.offset, self.reason = section, offset, reason


class Refused(Exception):
    """Why a question has no answer, by name."""


# ---- fields


class Bad(Exception):
    """Why a field can't be spelled where it should stand."""


@dataclass
class Place:
    """Where the next field stands. `end` is that of the unit, or None where nothing bounds it but the bytes."""

    data: bytes
    at: int
    end: int = None
    big: bool = False
    section: str = "info"

    def bounds(self, needed):
        """There are so many bytes, in the unit first."""
        if self.end is not None and needed > self.end - self.at:
            raise Bad("PastUnit")
        if needed > len(self.data) - self.at:
            raise Bad("Truncated")

    def take(self, count):
        self.bounds(count)
        self.at += count
        return self.data[self.at - count : self.at]

    def fixed(self, count):
        return int.from_bytes(self.take(count), "big" if self.big else "little")

    def last(self):
        """Where a field without a size has to end, and whether the unit ends there."""
        end = len(self.data) if self.end is None else min(len(self.data), self.end)
        return end, end == self.end

    def leb(self, signed=False):
        """A number and its width (section 7.6)."""
        end, is_units = self.last()
        seen = self.data[self.at : min(end, self.at + LEB_WIDTH)]
        last = next((i for i, byte in enumerate(seen) if byte < 0x80), None)
        if last is None:
            raise Bad("LebTooLong" if len(seen) == LEB_WIDTH else "PastUnit" if is_units else "Truncated")
        width = last + 1
        value = sum((byte & 0x7F) << 7 * i for i, byte in enumerate(seen[:width]))
        if signed and seen[last] & 0x40:
            value -= 1 << 7 * width
        if not (-(2**63) <= value < 2**63 if signed else value < 2**64):
            raise Bad("LebTooBig")
        self.at += width
        return value, width

    def string(self):
        end, is_units = self.last()
        zero = self.data.find(b"\0", self.at, end)
        if zero < 0:
            raise Bad("PastUnit" if is_units else "Truncated")
        self.at, at = zero + 1, self.at
        return self.data[at:zero]

    def field(self, read, judge=lambda value: None):
        """One field: spelled, and then judged; what is wrong with it stands at its first byte."""
        at = self.at
        try:
            value = read()
            reason = judge(value)
            if reason:
                raise Bad(reason)
        except Bad as bad:
            raise Fault(self.section, at, str(bad)) from None
        return value


# ---- abbreviation tables (section 7.5.3)


@dataclass
class Pair:
    """The name and the form of an attribute, and the constant of implicit_const."""

    name: int
    form: int
    constant: int = None


@dataclass
class Declaration:
    tag: int
    has_children: bool
    pairs: list


def read_table(abbrev, offset):
    """The declarations by their codes."""
    if offset >= len(abbrev):
        raise Fault("abbrev", offset, "AbbrevOffset")
    place, table = Place(abbrev, offset, section="abbrev"), {}
    while True:
        code, _ = place.field(place.leb, lambda it: "DuplicateCode" if it[0] in table else None)
        if code == 0:
            return table
        tag, _ = place.field(place.leb)
        children = place.field(lambda: place.fixed(1), lambda it: "BadChildren" if it > 1 else None)
        table[code] = Declaration(tag, children == 1, read_pairs(place))


def read_pairs(place):
    pairs = []
    while True:
        at = place.at
        (name, _), (form, _) = place.field(place.leb), place.field(place.leb)
        if (name == 0) != (form == 0):
            raise Fault("abbrev", at, "HalfPair")
        if name == 0:
            return pairs
        if len(pairs) == MOST_PAIRS:
            raise Fault("abbrev", at, "TooManyPairs")
        constant = place.field(lambda: place.leb(signed=True))[0] if form == IMPLICIT else None
        pairs.append(Pair(name, form, constant))


# ---- headers and units (sections 7.4 and 7.5.1)


@dataclass
class Header:
    kind: str
    wide: bool
    address_size: int = 0
    abbrev_offset: int = 0
    signature: int = 0
    type_offset: int = 0
    dwo_id: int = 0

    def offset_size(self):
        return 8 if self.wide else 4


@dataclass
class Value:
    """What an attribute holds. `kind` is number, wide, uleb, sleb, block, text, present or implicit; `width` that of
    its number, whose first byte is at `at`."""

    name: int
    form: int
    kind: str
    held: object
    at: int
    width: int = 0

    def number(self):
        """Its number, where it is one of fixed size or in ULEB128."""
        return self.held if self.kind in ("number", "uleb") else None


@dataclass(eq=False)
class Entry:
    offset: int
    tag: int
    depth: int
    values: list
    children: list = field(default_factory=list)
    # Where its tree ends, its own null included.
    end: int = 0

    def first(self, name):
        return next((it for it in self.values if it.name == name), None)


@dataclass(eq=False)
class Unit:
    """A unit at `start` of the section. Its entries are in preorder; offsets count in the section."""

    start: int
    end: int
    header: Header
    entries: list
    at_offset: dict


@dataclass(eq=False)
class Other:
    """An item of another version or unit type."""

    start: int
    end: int


def read_length(place, start):
    """The initial length: whether the format is the 64-bit one, and the unit's length."""

    def read():
        length = place.fixed(4)
        return (True, place.fixed(8)) if length == 0xFFFFFFFF else (False, length)

    def judge(it):
        wide, length = it
        if not wide and length >= 0xFFFFFFF0:
            return "ReservedLength"
        return "LengthTooBig" if start + (12 if wide else 4) + length > LAST_END else None

    return place.field(read, judge)


def read_header(place, wide, versions):
    """The fields behind the initial length."""
    size = 8 if wide else 4
    version = place.field(lambda: place.fixed(2), lambda it: None if it in versions else "BadVersion")
    if version == 4:
        header = Header("four", wide, abbrev_offset=place.field(lambda: place.fixed(size)))
        header.address_size = read_address_size(place)
        return header
    kind = place.field(lambda: place.fixed(1), lambda it: None if it in KINDS else "BadUnitType")
    header = Header(KINDS[kind], wide, read_address_size(place), place.field(lambda: place.fixed(size)))
    if header.kind == "type":
        header.signature = place.field(lambda: place.fixed(8))
        header.type_offset = place.field(lambda: place.fixed(size))
    if header.kind == "skeleton":
        header.dwo_id = place.field(lambda: place.fixed(8))
    return header


def read_address_size(place):
    return place.field(lambda: place.fixed(1), lambda it: None if 1 <= it <= 8 else "BadAddressSize")


def read_value(place, header, pair):
    """The value of an attribute, as one field."""

    def read():
        if pair.form != INDIRECT:
            return read_by_form(place, header, pair)
        form, _ = place.leb()
        if form in (INDIRECT, IMPLICIT):
            raise Bad("BadIndirect")
        return read_by_form(place, header, Pair(pair.name, form))

    return place.field(read)


def read_by_form(place, header, pair):
    """The value where its form is told."""
    form, at = pair.form, place.at

    def value(kind, held, width=0):
        return Value(pair.name, form, kind, held, at, width)

    if form in FIXED:
        size = {ADDRESS: header.address_size, OFFSET: header.offset_size()}.get(FIXED[form], FIXED[form])
        return value("wide" if size == 16 else "number", place.fixed(size), size)
    if form in ULEB or form in SLEB:
        return value("sleb" if form in SLEB else "uleb", *place.leb(signed=form in SLEB))
    if form in COUNTED:
        length = place.fixed(COUNTED[form]) if COUNTED[form] else place.leb()[0]
        return value("block", place.take(length))
    if form == STRING:
        return value("text", place.string())
    if form == PRESENT:
        return value("present", None)
    if form == IMPLICIT:
        return value("implicit", pair.constant)
    raise Bad("UnknownForm")


def read_unit(place, start, wide, length, versions, tables, abbrev):
    """The unit at `start`, where `place` is behind its initial length."""
    place.end = place.at + length
    header = read_header(place, wide, versions)
    if header.abbrev_offset not in tables:
        tables[header.abbrev_offset] = read_table(abbrev, header.abbrev_offset)
    entries = read_entries(place, header, tables[header.abbrev_offset])
    return Unit(start, place.end, header, entries, {it.offset: it for it in entries})


def read_entries(place, header, table):
    """One tree, and nulls behind it up to the unit's end (sections 2.3 and 7.5.2)."""
    entries, above = [], []
    while not entries or above or place.at < place.end:
        at = place.at

        def judge(it):
            if it[0] == 0:
                return None if entries else "NoRoot"
            if entries and not above:
                return "SecondRoot"
            return "TooDeep" if len(above) == NESTING else None if it[0] in table else "UnknownCode"

        code, _ = place.field(place.leb, judge)
        if code == 0:
            if above:
                above.pop().end = place.at
            continue
        declared = table[code]
        entry = Entry(at, declared.tag, len(above) + 1, [])
        for pair in declared.pairs:
            entry.values.append(read_value(place, header, pair))
        entry.end = place.at
        if above:
            above[-1].children.append(entry)
        entries.append(entry)
        if declared.has_children:
            above.append(entry)
    return entries


# ---- sections


@dataclass(eq=False)
class Section:
    """The items of a section, and the sections of texts."""

    info: bytes
    items: list
    big: bool
    texts: dict

    def units(self):
        return [it for it in self.items if isinstance(it, Unit)]

    def find(self, offset):
        """The unit and the entry that begins at an offset of the section."""
        return next(((unit, unit.at_offset[offset]) for unit in self.units() if offset in unit.at_offset), None)


def read_section(info, abbrev, big=False, versions=(5,), texts=None):
    """The items, or the first fault. `texts` has the bytes of `str`, `line-str` and `str-offsets`."""
    items, tables, at = [], {}, 0
    while at < len(info):
        place = Place(info, at, big=big)
        wide, length = read_length(place, at)
        if is_known(info, place.at, length, big, versions):
            items.append(read_unit(place, at, wide, length, versions, tables, abbrev))
        elif length > len(info) - place.at:
            raise Fault("info", place.at, "Truncated")
        else:
            items.append(Other(at, place.at + length))
        at = items[-1].end
    return Section(info, items, big, texts or {})


def is_known(info, at, length, big, versions):
    """Whether an item of this length, whose fields are at this offset, is of a kind that is read."""
    place = Place(info, at, big=big)
    if length < (2 if 4 in versions else 3):
        return False
    version = place.field(lambda: place.fixed(2))
    if version == 4 and 4 in versions:
        return True
    return version == 5 and length >= 3 and place.field(lambda: place.fixed(1)) in KINDS


# ---- what values name (sections 2.2, 7.5.5 and 7.26)


def resolve(section, unit, value):
    """The unit and the entry that a reference names; Refused where it names none."""
    if value.form not in REFERENCES or value.number() is None:
        raise Refused("NotReference")
    if value.form in REFERENCES_ELSEWHERE:
        raise Refused("Supplementary")
    if value.form == BY_SIGNATURE:
        return by_signature(section, value.held)
    offset = value.held
    if value.form in IN_UNIT:
        if offset >= unit.end - unit.start:
            raise Refused("OutsideUnit")
        offset += unit.start
    elif offset >= len(section.info):
        raise Refused("OutsideSection")
    item = next(it for it in section.items if it.start <= offset < it.end)
    if isinstance(item, Other):
        raise Refused("InOther")
    if offset not in item.at_offset:
        raise Refused("NotAnEntry")
    return item, item.at_offset[offset]


def by_signature(section, signature):
    for unit in section.units():
        if unit.header.kind == "type" and unit.header.signature == signature:
            entry = unit.at_offset.get(unit.start + unit.header.type_offset)
            if entry is None:
                raise Refused("BadTypeOffset")
            return unit, entry
    raise Refused("NoSignature")


def text_of(section, unit, value):
    """The text that a value names; Refused where it names none."""
    if value.form not in TEXTS:
        raise Refused("NotText")
    if value.form == STRING:
        return value.held
    if value.form in TEXTS_ELSEWHERE:
        raise Refused("Supplementary")
    offset = string_offset(section, unit, value.held) if value.form in STRX else value.held
    strings = section.texts.get("line-str" if value.form == LINE_STRP else "str", b"")
    if offset >= len(strings):
        raise Refused("PastSection")
    zero = strings.find(b"\0", offset)
    if zero < 0:
        raise Refused("NoZero")
    return strings[offset:zero]


def string_offset(section, unit, index):
    """The entry of this index in the unit's part of `.debug_str_offsets`."""
    base = unit.entries[0].first(NUMBER_OF_ATTRIBUTE["str_offsets_base"])
    if base is None or base.number() is None:
        raise Refused("NoBase")
    size = unit.header.offset_size()
    place = base.number() + index * size
    offsets = section.texts.get("str-offsets", b"")
    if place + size > len(offsets):
        raise Refused("PastOffsets")
    return int.from_bytes(offsets[place : place + size], "big" if section.big else "little")


def name_of(section, unit, entry):
    """The text of the first DW_AT_name, or None."""
    value = entry.first(NUMBER_OF_ATTRIBUTE["name"])
    try:
        return text_of(section, unit, value) if value else None
    except Refused:
        return None


# ---- the text of a section


def quoted(text):
    def shown(byte):
        if byte in b'"\\':
            return "\\" + chr(byte)
        return chr(byte) if 0x20 <= byte <= 0x7E else f"\\x{byte:02x}"

    return '"' + "".join(map(shown, text)) + '"'


def tag_name(tag):
    return f"DW_TAG_{TAGS.get(tag, hex(tag))}"


def shown_value(section, unit, value):
    if value.kind == "block":
        return f"[{len(value.held)}]" + (" " + value.held.hex() if value.held else "")
    if value.kind == "text":
        return quoted(value.held)
    if value.kind == "present":
        return "present"
    if value.kind in ("sleb", "implicit"):
        return str(value.held)
    text = hex(value.held)
    try:
        if value.form in REFERENCES:
            return f"{text} -> {resolve(section, unit, value)[1].offset:#x}"
        if value.form in TEXTS:
            return f"{text} {quoted(text_of(section, unit, value))}"
    except Refused as why:
        return f"{text} {'-> ' if value.form in REFERENCES else ''}{why}"
    return text


def shown_unit(unit):
    header = unit.header
    line = f"unit {unit.start:#x} {header.kind} {64 if header.wide else 32} size {unit.end - unit.start}"
    line += f" abbrev {header.abbrev_offset:#x} addr {header.address_size}"
    if header.kind == "type":
        line += f" signature {header.signature:#x} type {header.type_offset:#x}"
    return line + (f" dwo {header.dwo_id:#x}" if header.kind == "skeleton" else "")


def show(section):
    for item in section.items:
        if isinstance(item, Other):
            yield f"other {item.start:#x} size {item.end - item.start}"
            continue
        yield shown_unit(item)
        for entry in item.entries:
            yield f"<{entry.depth}> {entry.offset:#x} {tag_name(entry.tag)}"
            for value in entry.values:
                yield f"  DW_AT_{ATTRIBUTES.get(value.name, hex(value.name))} {shown_value(section, item, value)}"


def find(section, name):
    for unit in section.units():
        for entry in unit.entries:
            if name_of(section, unit, entry) == name:
                yield f"{entry.offset:#x} {tag_name(entry.tag)}"


# ---- findings


@dataclass(order=True)
class Finding:
    """What is wrong: the offset of the entry, the position of the attribute (0 is the whole entry), and the number of
    its kind."""

    offset: int
    position: int
    kind: int


FINDINGS = {1: "BadReference", 2: "BadSibling", 3: "RootTag", 4: "TypeOffset", 5: "BadText", 6: "RepeatedName"}
ROOTS = dict.fromkeys(("compile", "partial", "four"), (0x11, 0x3C)) | {"type": (0x41,), "skeleton": (0x4A, 0x11)}
SIBLING = NUMBER_OF_ATTRIBUTE["sibling"]


def is_bad_sibling(unit, entry, value):
    """Whether a DW_AT_sibling says another place than that just behind the entry's tree."""
    if value.form in IN_UNIT:
        return unit.start + value.held != entry.end
    return value.form != IN_SECTION or value.held != entry.end


def is_refused(ask, *given):
    """Whether there is no answer, in this file or another."""
    try:
        ask(*given)
    except Refused as why:
        return str(why) != "Supplementary"
    return False


def findings(section):
    """What is wrong, in order."""
    for unit in section.units():
        for entry in unit.entries:
            yield from sorted(found_at(section, unit, entry))


def found_at(section, unit, entry):
    header = unit.header
    if entry is unit.entries[0]:
        if entry.tag not in ROOTS[header.kind]:
            yield Finding(entry.offset, 0, 3)
        if header.kind == "type" and unit.start + header.type_offset not in unit.at_offset:
            yield Finding(entry.offset, 0, 4)
    for position, value in enumerate(entry.values, 1):
        if value.name == SIBLING:
            if is_bad_sibling(unit, entry, value):
                yield Finding(entry.offset, position, 2)
        elif value.form in REFERENCES and is_refused(resolve, section, unit, value):
            yield Finding(entry.offset, position, 1)
        if value.form in TEXTS and is_refused(text_of, section, unit, value):
            yield Finding(entry.offset, position, 5)
        if any(it.name == value.name for it in entry.values[: position - 1]):
            yield Finding(entry.offset, position, 6)


# ---- types in C notation

# What the type of an entry is where it is no entry.
NONE, BAD = "void", "<bad>"

NAMED = {TAG["base_type"]: b"", TAG["typedef"]: b"", TAG["unspecified_type"]: b""}
TAGGED = {
    TAG["structure_type"]: b"struct ",
    TAG["union_type"]: b"union ",
    TAG["enumeration_type"]: b"enum ",
    TAG["class_type"]: b"class ",
}
POINTERS = {TAG["pointer_type"]: b"*", TAG["reference_type"]: b"&", TAG["rvalue_reference_type"]: b"&&"}
QUALIFIERS = {
    TAG["const_type"]: b"const",
    TAG["volatile_type"]: b"volatile",
    TAG["restrict_type"]: b"restrict",
    TAG["atomic_type"]: b"_Atomic",
}
# What has a type, and a name for it.
DECLARED = (TAG["variable"], TAG["formal_parameter"], TAG["member"])
FUNCTIONS = (TAG["subroutine_type"], TAG["subprogram"])
ARRAY = TAG["array_type"]
UNSIGNED, SIGNED = (0x0B, 0x05, 0x06, 0x07, 0x0F), (0x0D, 0x21)


class Types:
    """The types of a section: a type is a unit with an entry, NONE or BAD."""

    def __init__(self, section):
        self.section, self.counted = section, {}

    def of(self, place):
        unit, entry = place
        value = entry.first(NUMBER_OF_ATTRIBUTE["type"])
        try:
            return resolve(self.section, unit, value) if value else NONE
        except Refused:
            return BAD

    def tag(self, place):
        return None if place in (NONE, BAD) else place[1].tag

    def under(self, place):
        """The tag of what stands under qualifiers, at most so many."""
        for _ in range(TYPE_DEPTH + 1):
            if self.tag(place) not in QUALIFIERS:
                return self.tag(place)
            place = self.of(place)
        return None

    def below(self, place):
        """The types that the text of this one goes on to: its own and those of its parameters."""
        tag = self.tag(place)
        if tag not in (*POINTERS, *QUALIFIERS, *FUNCTIONS, ARRAY):
            return []
        parameters = [it for it in place[1].children if it.tag == TAG["formal_parameter"]] if tag in FUNCTIONS else []
        return [self.of(place), *(self.of((place[0], it)) for it in parameters)]

    def visits(self, depth, place):
        """How many texts of types this one needs, itself included."""
        if depth == 0 or place in (NONE, BAD):
            return 1
        key = depth, place[1]
        if key not in self.counted:
            # (the levels below are counted first, since calls of calls would be too many)
            self.counted[key] = 1 + sum(self.visits(depth - 1, it) for it in self.below(place))
        return self.counted[key]

    def say(self, depth, place, declarator):
        if depth == 0:
            return b"..."
        tag = self.tag(place)
        if tag in NAMED or tag in TAGGED:
            name = name_of(self.section, *place)
            word = (NAMED | TAGGED)[tag] + (name if name is not None else b"<noname>" if tag in NAMED else b"{...}")
            return word + (b" " + declarator if declarator else b"")
        if tag in POINTERS:
            marked = POINTERS[tag] + declarator
            own = self.of(place)
            return self.say(depth - 1, own, b"(" + marked + b")" if self.under(own) in (ARRAY, *FUNCTIONS) else marked)
        if tag in QUALIFIERS:
            word = QUALIFIERS[tag]
            if self.under(place) == TAG["pointer_type"]:
                return self.say(depth - 1, self.of(place), word + (b" " + declarator if declarator else b""))
            return word + b" " + self.say(depth - 1, self.of(place), declarator)
        if tag == ARRAY:
            return self.say(depth - 1, self.of(place), declarator + dimensions(place[1]))
        if tag in FUNCTIONS:
            return self.say(depth - 1, self.of(place), declarator + b"(" + self.parameters(depth, place) + b")")
        word = place.encode() if place in (NONE, BAD) else b"<tag>"
        return word + (b" " + declarator if declarator else b"")

    def parameters(self, depth, place):
        said = []
        for child in place[1].children:
            if child.tag == TAG["formal_parameter"]:
                said.append(self.say(depth - 1, self.of((place[0], child)), b""))
            elif child.tag == TAG["unspecified_parameters"]:
                said.append(b"...")
        prototyped = place[1].first(NUMBER_OF_ATTRIBUTE["prototyped"])
        if not said and prototyped and not (prototyped.kind == "number" and prototyped.held == 0):
            return b"void"
        return b", ".join(said)


def dimensions(entry):
    def dimension(child):
        count, upper = bound(child, "count"), bound(child, "upper_bound")
        size = count if count is not None else None if upper is None else upper + 1
        return b"[]" if size is None or size < 0 else b"[%d]" % size

    return b"".join(dimension(it) for it in entry.children if it.tag == TAG["subrange_type"]) or b"[]"


def bound(entry, name):
    value = entry.first(NUMBER_OF_ATTRIBUTE[name])
    return value.held if value and value.form in (*UNSIGNED, *SIGNED) else None


def type_text(section, unit, entry, name):
    """The text of an entry's type with a name."""
    types = Types(section)
    place = types.of((unit, entry)) if entry.tag in DECLARED else (unit, entry)
    if types.visits(TYPE_DEPTH, place) > TYPE_VISITS:
        raise Refused("TypeTooBig")
    return types.say(TYPE_DEPTH, place, name)


def type_line(section, offset):
    found = section.find(offset)
    if not found:
        raise Refused("NoEntry")
    unit, entry = found
    has_own = entry.tag in (*DECLARED, TAG["subprogram"])
    return type_text(section, unit, entry, (name_of(section, unit, entry) or b"") if has_own else b"")


# ---- a number in the place of another


def spelled(section, value, number):
    """The number in as many bytes as the value's has."""
    if value.kind == "number":
        if not 0 <= number < 256**value.width:
            raise Refused("DoesNotFit")
        return number.to_bytes(value.width, "big" if section.big else "little")
    # (the numbers of 64 bits, and those that so many groups of seven bits spell)
    least, most, low, high = 0, 2**64, 0, 128**value.width
    if value.kind != "uleb":
        least, most, low, high = -(2**63), 2**63, -(high // 2), high // 2
    if not max(least, low) <= number < min(most, high):
        raise Refused("DoesNotFit")
    groups = [number >> 7 * i & 0x7F for i in range(value.width)]
    return bytes([*(it | 0x80 for it in groups[:-1]), groups[-1]])


def set_number(section, offset, name, number):
    """The bytes of the section with this number in the entry's first attribute of the name."""
    found = section.find(offset)
    if not found:
        raise Refused("NoEntry")
    unit, entry = found
    value = entry.first(name)
    if value is None:
        raise Refused("NoAttribute")
    if value.kind in ("block", "text", "present", "wide"):
        raise Refused("NotANumber")
    if value.kind == "implicit":
        raise Refused("InTable")
    spelling = spelled(section, value, number)
    new = Value(value.name, value.form, value.kind, number, value.at, value.width)
    if name == SIBLING:
        if is_bad_sibling(unit, entry, new):
            raise Refused("BadTarget")
    elif value.form in REFERENCES:
        try:
            resolve(section, unit, new)
        except Refused:
            raise Refused("BadTarget") from None
    return section.info[: value.at] + spelling + section.info[value.at + value.width :]


# ---- the program


class Usage(Exception):
    """Words that aren't taken."""


OPTIONS = {section_names.option_of(it): it for it in section_names.NAMES}
WORDS = {"show": 0, "find": 1, "type": 1, "check": 0, "set": 3, "copy": 0}


def number_in(word, limit):
    digits, allowed, base = word, "0123456789", 10
    if word.startswith("0x"):
        digits, allowed, base = word[2:], "0123456789abcdefABCDEF", 16
    if not digits or any(it not in allowed for it in digits) or int(digits, base) >= limit:
        raise Usage(f"{word!r} is no number that may stand here")
    return int(digits, base)


def attribute_in(word):
    if word.startswith("DW_AT_") and word[6:] in NUMBER_OF_ATTRIBUTE:
        return NUMBER_OF_ATTRIBUTE[word[6:]]
    return number_in(word, 2**64)


@dataclass
class Line:
    """What the words of a line ask for: a subcommand, over files by the names of their sections, with flags and other
    words."""

    command: str
    files: dict
    flags: set
    others: list

    def is_wanting(self):
        return len(self.others) != WORDS[self.command] or not {"info", "abbrev"} <= self.files.keys()


def line_of(words):
    if not words or words[0] not in WORDS:
        raise Usage("a subcommand is wanted: " + ", ".join(WORDS))
    line, left = Line(words[0], {}, set(), []), list(words[1:])
    while left:
        word = left.pop(0)
        option, equals, path = word.partition("=")
        if option in OPTIONS:
            if OPTIONS[option] in line.files or not (equals or left):
                raise Usage(f"{option} wants one file")
            line.files[OPTIONS[option]] = path if equals else left.pop(0)
        elif word in ("--big", "--v4") or word == "--minus" and line.command == "set":
            if word in line.flags:
                raise Usage(f"{word} stands twice")
            line.flags.add(word)
        elif word.startswith("-") and word != "-":
            raise Usage(f"{word} is no option of {line.command}")
        else:
            line.others.append(word)
    if line.is_wanting():
        raise Usage(f"{line.command} wants --info, --abbrev and {WORDS[line.command]} words")
    return line


def answer(command, section, words, flags):
    """What is written, and the status."""
    if command == "copy":
        return section.info, 0
    if command == "type":
        return type_line(section, words[0]) + b"\n", 0
    if command == "set":
        return set_number(section, words[0], words[1], -words[2] if "--minus" in flags else words[2]), 0
    if command == "check":
        lines = [f"{it.offset:#x} {it.position} {it.kind} {FINDINGS[it.kind]}\n" for it in findings(section)]
        return "".join(lines).encode(), 1 if lines else 0
    lines = list(show(section) if command == "show" else find(section, os.fsencode(words[0])))
    return "".join(it + "\n" for it in lines).encode(), 1 if command == "find" and not lines else 0


def read_files(files):
    """The bytes of each file, in the order in which they are read."""
    found = {}
    for name in (*section_names.NAMES[1:], section_names.NAMES[0]):
        if name in files:
            try:
                with open(files[name], "rb") as file:
                    found[name] = file.read()
            except OSError:
                raise FileNotFoundError(files[name]) from None
    return found


def judged_words(command, words):
    """The words as numbers, where they are some."""
    if command == "type":
        return [number_in(words[0], 2**64)]
    if command == "set":
        return [number_in(words[0], 2**64), attribute_in(words[1]), number_in(words[2], 2**127)]
    return words


def main(words):
    sys.setrecursionlimit(100_000)
    try:
        line = line_of(words)
        others = judged_words(line.command, line.others)
        found = read_files(line.files)
        versions = (4, 5) if "--v4" in line.flags else (5,)
        section = read_section(found["info"], found["abbrev"], "--big" in line.flags, versions, found)
        output, status = answer(line.command, section, others, line.flags)
    except Usage as why:
        print(f"error: {why}", file=sys.stderr)
        return 2
    except FileNotFoundError as path:
        print(f"file {path}", file=sys.stderr)
        return 3
    except Fault as fault:
        print(f"fault {fault}", file=sys.stderr)
        return 1
    except Refused as why:
        print(f"refused {why}", file=sys.stderr)
        return 1
    sys.stdout.buffer.write(output)
    sys.stdout.flush()
    return status


if __name__ == "__main__":
    sys.exit(main(sys.argv[1:]))
