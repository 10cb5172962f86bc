"""DWARF debugging entries by the proved library rothelduf_c, through ctypes.

    with rothelduf.Section(info, abbrev, str=.., line_str=.., str_offsets=..) as section:
        for unit in section.units():
            for entry in unit.entries():
                name = entry.name()

The shared object is looked for beside this file, and else as the system looks for librothelduf_c.so; the variable
ROTHELDUF names another. An object belongs to the thread that made it. A text is a memoryview of the bytes that the
section was given.
"""

import ctypes
import ctypes.util
import os

OK, FAULT, NO_MEMORY, CLOSED, NOTHING, REFUSED, SHORT, MORE, HEADER, UNIT, SPENT = range(11)
NUMBER, ULEB, SLEB, IMPLICIT, PRESENT, BLOCK, TEXT, WIDE = range(8)
END = 2**64 - 1
REASONS = [
    *("", "Truncated", "PastUnit", "ReservedLength", "BadVersion", "BadUnitType", "BadAddressSize"),
    *("LebTooLong", "LebTooBig", "NoRoot", "UnknownCode", "UnknownForm", "BadIndirect", "TooDeep", "SecondRoot"),
    *("AbbrevOffset", "BadChildren", "HalfPair", "DuplicateCode", "TooManyPairs", "LengthTooBig"),
]
NO_ENTRY = [
    *("", "NotReference", "OutsideUnit", "OutsideSection", "NotAnEntry", "InOther"),
    *("NoSignature", "BadTypeOffset", "Supplementary"),
]
NO_TEXT = ["", "NotText", "PastSection", "NoZero", "NoBase", "PastOffsets", "Supplementary"]
NO_TYPE = ["", "NoEntry", "TypeTooBig"]
NOT_PUT = ["", "WrongOrder", "WrongVersion", "TooLong"]
NOT_SET = ["", "NoEntry", "NoAttribute", "NotANumber", "InTable", "DoesNotFit", "BadTarget"]
WRONG = ["", "BadReference", "BadSibling", "RootTag", "TypeOffset", "BadText", "RepeatedName"]
DW_AT_NAME = 0x03

u8, u32, u64, i64 = ctypes.c_uint8, ctypes.c_uint32, ctypes.c_uint64, ctypes.c_int64
size, flag = ctypes.c_size_t, ctypes.c_bool


def _struct(name, *fields):
    return type(name, (ctypes.Structure,), {"_fields_": list(fields)})


_Section = _struct("_Section", ("is_open", flag), ("at", ctypes.c_void_p))
_Fault = _struct("_Fault", ("section", u32), ("reason", u32), ("offset", u64))
_Id = _struct("_Id", ("item", size), ("offset", u64))
_Unit = _struct(
    "_Unit",
    *(("start", u64), ("size", u64), ("abbrev_offset", u64), ("signature", u64), ("type_offset", u64)),
    *(("rows", size), ("kind", u32), ("wide", flag), ("address_size", u8)),
)
_Entry = _struct("_Entry", ("offset", u64), ("tag", u64), ("depth", u64), ("attributes", size))
_Attribute = _struct(
    "_Attribute",
    *(("name", u64), ("form", u64), ("offset", u64), ("number", u64), ("signed_number", i64), ("high", u64)),
    *(("length", size), ("front", u32), ("kind", u32)),
)
_Place = _struct("_Place", ("offset", u64), ("length", size), ("section", u32))
_Filled = _struct("_Filled", ("entries", size), ("attributes", size), ("next", u64))
_Held = _struct(
    "_Held",
    *(("pending", size), ("nested", size), ("entries", size), ("pool", size), ("values", u64), ("values_high", u64)),
)
_Finding = _struct("_Finding", ("offset", u64), ("position", u64), ("kind", u32))


class Fault(Exception):
    """The first fault of bytes that are refused: its section ("info" or "abbrev"), its offset and its reason."""

    def __init__(self, fault):
        self.section = "abbrev" if fault.section else "info"
        self.offset, self.reason = fault.offset, REASONS[fault.reason]
        super().__init__(f"{self.section} {self.offset:#x} {self.reason}")


class Refused(Exception):
    """Why a request is refused, by its name."""


# What the functions of the library answer: most a status.
_ANSWERS = {
    **dict.fromkeys(("open", "unit", "find", "resolve", "text", "type", "check", "set_number", "write", "begin"), u32),
    **dict.fromkeys(("feed_open", "feed_push", "feed_table", "feed_held", "feed_end", "feed_take"), u32),
    **{"close": None, "items": size, "walk": _Filled, "size": u64, "feed_close": None, "feed_wants": size},
}


def _load():
    beside = os.path.join(os.path.dirname(os.path.abspath(__file__)), "librothelduf_c.so")
    path = os.environ.get("ROTHELDUF")
    if not path:
        path = beside if os.path.exists(beside) else ctypes.util.find_library("rothelduf_c")
    if not path:
        raise OSError("librothelduf_c.so isn't there: scripts/install.sh PREFIX puts it below PREFIX/lib")
    library = ctypes.CDLL(path)
    for name, answer in _ANSWERS.items():
        getattr(library, f"rothelduf_{name}").restype = answer
    return library


_library = None


class Section:
    """A whole .debug_info that was read. Raises Fault where its bytes are refused, and MemoryError."""

    def __init__(self, info, abbrev, *, str=b"", line_str=b"", str_offsets=b"", big_endian=False, four=False):
        global _library
        _library = _library or _load()
        self._raw, self.info = _Section(), bytes(info)
        self._texts = [bytes(str), bytes(line_str), bytes(str_offsets)]
        abbrev, fault = bytes(abbrev), _Fault()
        how = flag(big_endian), flag(four)
        status = self._call("open", *_bytes(self.info), *_bytes(abbrev), *how, ctypes.byref(fault))
        if status == FAULT:
            raise Fault(fault)
        _judge(status)

    def _call(self, name, *words):
        return getattr(_library, f"rothelduf_{name}")(ctypes.byref(self._raw), *words)

    def _of_texts(self):
        return [word for one in self._texts for word in _bytes(one)]

    def close(self):
        self._call("close")

    def __enter__(self):
        return self

    def __exit__(self, *_):
        self.close()

    def __del__(self):
        if getattr(self, "_raw", None) is not None and _library:
            self._call("close")

    def __len__(self):
        """How many items the section has, units and others."""
        return self._call("items")

    def unit(self, item):
        """The unit that an item is, or None."""
        found = _Unit()
        return Unit(self, item, found) if self._call("unit", size(item), ctypes.byref(found)) == OK else None

    def units(self):
        return filter(None, (self.unit(item) for item in range(len(self))))

    def find(self, offset):
        """The entry that begins at an offset of .debug_info, as (item, offset in its unit), or None."""
        found = _Id()
        return (found.item, found.offset) if self._call("find", u64(offset), ctypes.byref(found)) == OK else None

    def check(self):
        """What is wrong: (offset, position, name of its kind), in that order."""
        room, count = 64, size()
        while True:
            out = (_Finding * room)()
            _judge(self._call("check", *self._of_texts(), out, size(room), ctypes.byref(count)))
            if count.value <= room:
                return [(it.offset, it.position, WRONG[it.kind]) for it in out[: count.value]]
            room = count.value

    def set_number(self, item, offset, name, number):
        """Puts a number in the place of that of an attribute. Raises Refused, and then nothing is changed."""
        of_entry, why = _Id(item, offset), u32()
        put = flag(number < 0), u64(abs(number))
        status = self._call("set_number", ctypes.byref(of_entry), u64(name), *put, ctypes.byref(why))
        _judge(status, NOT_SET, why)

    def to_bytes(self):
        out = ctypes.create_string_buffer(max(1, self._call("size")))
        _judge(self._call("write", out, size(len(out))))
        return out.raw[: self._call("size")]


class Feed:
    """Units that are pushed in pieces of any size.

        with rothelduf.Feed(abbrev) as feed:
            for piece in pieces:
                feed.push(piece)
            info = feed.to_bytes()
    """

    def __init__(self, abbrev, *, big_endian=False, four=False):
        global _library
        _library = _library or _load()
        self._raw, self._section, self._abbrev = _Section(), _Section(), bytes(abbrev)
        self._how = flag(big_endian), flag(four)
        _judge(_library.rothelduf_begin(ctypes.byref(self._section), *self._how))
        _judge(self._call("open", *self._how))

    def _call(self, name, *words):
        return getattr(_library, f"rothelduf_feed_{name}")(ctypes.byref(self._raw), *words)

    def push(self, piece):
        """Takes all of a piece. Raises Fault as soon as the bytes show one; its offset counts from the unit's first
        byte."""
        at, taken, fault, why = 0, size(), _Fault(), u32()
        copied = ctypes.create_string_buffer(bytes(piece), len(piece) + 1)
        while at < len(piece):
            rest = ctypes.byref(copied, at), size(len(piece) - at)
            status = self._call("push", *rest, ctypes.byref(taken), ctypes.byref(fault))
            at += taken.value
            if status == HEADER:
                status = self._call("table", *_bytes(self._abbrev), ctypes.byref(fault))
            elif status == UNIT:
                status = self._call("take", ctypes.byref(self._section), ctypes.byref(why))
            if status == FAULT:
                raise Fault(fault)
            if status != MORE:
                _judge(status, NOT_PUT, why)

    def held(self):
        """What is held of the unit that comes: pending, nested, entries, pool and values."""
        found = _Held()
        _judge(self._call("held", ctypes.byref(found)))
        told = {name: getattr(found, name) for name in ("pending", "nested", "entries", "pool")}
        return {**told, "values": found.values | found.values_high << 64}

    def to_bytes(self):
        """The units that came, as bytes."""
        out = ctypes.create_string_buffer(max(1, _library.rothelduf_size(ctypes.byref(self._section))))
        _judge(_library.rothelduf_write(ctypes.byref(self._section), out, size(len(out))))
        return out.raw[: _library.rothelduf_size(ctypes.byref(self._section))]

    def close(self):
        self._call("close")
        _library.rothelduf_close(ctypes.byref(self._section))

    def __enter__(self):
        return self

    def __exit__(self, *_):
        self.close()

    def __del__(self):
        if getattr(self, "_raw", None) is not None and _library:
            self.close()


class Unit:
    """A unit of a section: start, size, abbrev_offset, kind, wide and address_size are its header's."""

    def __init__(self, section, item, info):
        self.section, self.item = section, item
        self.start, self.size, self.kind, self.wide = info.start, info.size, info.kind, info.wide
        self.abbrev_offset, self.address_size = info.abbrev_offset, info.address_size
        self.signature, self.type_offset = info.signature, info.type_offset

    def entries(self):
        """Its entries in order, each before those below it."""
        entries, attributes, at = (_Entry * 1024)(), (_Attribute * 4096)(), 0
        rooms = entries, size(len(entries)), attributes, size(len(attributes))
        while at != END:
            filled = self.section._call("walk", size(self.item), u64(at), *rooms)
            begin, at = 0, filled.next
            for entry in entries[: filled.entries]:
                yield Entry(self, entry, [Attribute(self, it) for it in attributes[begin : entry.attributes]])
                begin = entry.attributes


class Entry:
    def __init__(self, unit, entry, attributes):
        self.unit, self.offset, self.tag, self.depth = unit, entry.offset, entry.tag, entry.depth
        self.attributes = attributes

    def attribute(self, name):
        return next((it for it in self.attributes if it.name == name), None)

    def name(self):
        """Its DW_AT_name as bytes, or None."""
        found = self.attribute(DW_AT_NAME)
        return found and bytes(found.text())

    def name_or_none(self):
        """The same, and None too where its text isn't there."""
        try:
            return self.name()
        except Refused:
            return None

    def type(self, name=b""):
        """Its type, as the declaration of this name in C. Raises Refused."""
        section, room = self.unit.section, 256
        while True:
            out, length, why = ctypes.create_string_buffer(room), size(), u32()
            of_entry = _Id(self.unit.item, self.offset)
            given = ctypes.byref(of_entry), *_bytes(name), *section._of_texts()
            status = section._call("type", *given, out, size(room), ctypes.byref(length), ctypes.byref(why))
            if status != SHORT:
                _judge(status, NO_TYPE, why)
                return out.raw[: length.value]
            room = length.value


class Attribute:
    """An attribute: name, form, offset (of its value, in its unit) and kind; value is a number, True, or a memoryview
    of bytes."""

    def __init__(self, unit, raw):
        self.unit, self.name, self.form, self.offset, self.kind = unit, raw.name, raw.form, raw.offset, raw.kind
        if raw.kind in (BLOCK, TEXT):
            begin = unit.start + raw.offset + raw.front
            self.value = memoryview(unit.section.info)[begin : begin + raw.length]
        elif raw.kind in (SLEB, IMPLICIT):
            self.value = raw.signed_number
        else:
            self.value = True if raw.kind == PRESENT else raw.number | raw.high << 64

    def text(self):
        """The text that it is, or names. Raises Refused."""
        if self.kind == TEXT:
            return self.value
        if self.kind not in (NUMBER, ULEB):
            raise Refused("NotText")
        section, place, why = self.unit.section, _Place(), u32()
        given = size(self.unit.item), u64(self.form), u64(self.value), *section._of_texts()
        status = section._call("text", *given, ctypes.byref(place), ctypes.byref(why))
        _judge(status, NO_TEXT, why)
        return memoryview(section._texts[place.section - 1])[place.offset : place.offset + place.length]

    def entry(self):
        """The entry that it names, as (item, offset in its unit). Raises Refused."""
        if self.kind not in (NUMBER, ULEB):
            raise Refused("NotReference")
        found, why = _Id(), u32()
        given = size(self.unit.item), u64(self.form), u64(self.value)
        status = self.unit.section._call("resolve", *given, ctypes.byref(found), ctypes.byref(why))
        _judge(status, NO_ENTRY, why)
        return found.item, found.offset


def _bytes(text):
    return ctypes.c_char_p(text), size(len(text))


def _judge(status, names=(), why=None):
    if status == NO_MEMORY:
        raise MemoryError
    if status == REFUSED:
        raise Refused(names[why.value])
    if status != OK:
        raise ValueError("the section is closed" if status == CLOSED else f"status {status}")
