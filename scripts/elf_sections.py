"""The sections of debugging entries of a linked ELF file, of any machine, class and byte order.

Usage: scripts/elf_sections.py FILE DIR [--most BYTES]

Writes them to files in DIR, as scripts/sections.sh says. Other scripts use it as a module. A section that is compressed
(by zlib) is decompressed, to no more than it announces, and all of them together to no more than BYTES, by default
16 GiB. Memory stays small, whatever the file says of itself.
"""

import argparse
import mmap
import os
import shutil
import signal
import stat
import struct
import sys
import zlib
from dataclasses import dataclass

import section_names

# The names of the sections as a file spells them, and the files into which they are written.
NAMES = {f".{file}".encode(): file for file in section_names.FILES}
LONGEST = max(map(len, NAMES)) + 1

# Of the header: the type of a file that isn't linked, and the number of a section whose own stands in the first section
# header.
RELOCATABLE = 1
ELSEWHERE = 0xFFFF

# Of a section header: relocations of another section, with and without addends; a section without bytes in the file;
# the flag of a compressed one. Of a compressed section's header: by zlib.
RELOCATIONS = (4, 9)
NO_BYTES = 8
COMPRESSED = 0x800
BY_ZLIB = 1

# So many section headers are looked at, at the most: a sparse file has room for any number of them.
MOST_SECTIONS = 1 << 22

# So many bytes of a section may come of one byte that zlib made, and a few more.
ZLIB_FACTOR, ZLIB_MORE = 1032, 1024

# All that is written of a file, unless another bound is asked for.
MOST_BYTES = 16 << 30

# How much is copied, inflated and looked at at once.
PIECE = 1 << 20
PACKED = 1 << 16


class Unreadable(Exception):
    """Why a file has no sections that can be read. `kind` is one word."""

    def __init__(self, kind, why):
        super().__init__(why)
        self.kind = kind


def broken(why):
    return Unreadable("broken", f"can't be taken apart: {why}")


@dataclass
class Section:
    """What a section header says: where the section's name stands, and its bytes in the file; of relocations which
    section they are of."""

    name: int
    kind: int
    flags: int
    offset: int
    size: int
    link: int
    info: int


class Elf:
    """An ELF file that is open, and what its header says."""

    def __init__(self, file):
        self.size = os.fstat(file.fileno()).st_size
        if self.size < 52:
            raise Unreadable("other", "is no ELF file")
        self.bytes = mmap.mmap(file.fileno(), 0, access=mmap.ACCESS_READ)
        head = self.bytes[:64]
        if head[:4] != b"\x7fELF":
            raise Unreadable("other", "is no ELF file")
        self.wide, self.order = head[4] == 2, ">" if head[5] == 2 else "<"
        self.is_relocatable = struct.unpack_from(f"{self.order}H", head, 16)[0] == RELOCATABLE
        place = ("Q", 40) if self.wide else ("I", 32)
        self.start, = struct.unpack_from(self.order + place[0], head, place[1])
        counts = struct.unpack_from(f"{self.order}HHH", head.ljust(64, b"\0"), 58 if self.wide else 46)
        self.each, self.count, self.names = counts
        self.layout = struct.Struct(self.order + ("IIQQQQII" if self.wide else "IIIIIIII"))

    def at(self, offset, size):
        """So many bytes of the file."""
        if offset + size > self.size:
            raise broken("it ends before its sections do")
        return self.bytes[offset : offset + size]

    def header(self, number):
        """A section header."""
        if self.each < self.layout.size:
            raise broken("its section headers are too small")
        fields = self.layout.unpack(self.at(self.start + number * self.each, self.layout.size))
        name, kind, flags, _, offset, size, link, info = fields
        return Section(name, kind, flags, offset, size, link, info)

    def headers(self):
        """The section headers behind the first one, with their numbers."""
        first = self.header(0)
        count = self.count or first.size
        if count > MOST_SECTIONS:
            raise broken(f"it has {count} sections")
        self.at(self.start + (count - 1) * self.each, self.layout.size)
        self.named = self.header(first.link if self.names == ELSEWHERE else self.names)
        if self.named.offset + self.named.size > self.size:
            raise broken("it ends before its sections do")
        return ((number, self.header(number)) for number in range(1, count))

    def name_of(self, section):
        """The name of one of the sections that are looked for; None of any other."""
        end = min(self.named.offset + self.named.size, self.size)
        start = self.named.offset + section.name
        found = self.bytes[start : min(end, start + LONGEST)] if start < end else b""
        # (a name that isn't ended is none)
        name, ended, _ = found.partition(b"\0")
        return NAMES.get(name) if ended else None

    def sections(self):
        """Its sections of debugging entries that have bytes in it, by their names."""
        if not self.start:
            return {}
        found, numbers, relocated = {}, set(), set()
        for number, it in self.headers():
            if it.kind in RELOCATIONS and it.size and self.is_relocatable:
                relocated.add(it.info)
            name = self.name_of(it) if it.kind != NO_BYTES else None
            if name:
                found[name] = it
                numbers.add(number)
        if relocated & numbers:
            raise Unreadable("unlinked", "isn't linked: its offsets are still to be relocated")
        return found

    def pieces(self, offset, size, most=PIECE):
        """The bytes of the file there, in pieces."""
        if offset + size > self.size:
            raise broken("it ends before its sections do")
        for at in range(offset, offset + size, most):
            yield self.bytes[at : min(at + most, offset + size)]

    def unpacked_size(self, section):
        """How many bytes a section has, where it is compressed as many as it says, and how many of it are its
        header."""
        if not section.flags & COMPRESSED:
            return section.size, 0
        layout = f"{self.order}IIQ" if self.wide else f"{self.order}II"
        head = struct.calcsize(layout) + (8 if self.wide else 4)
        if section.size < head:
            raise broken("a compressed section has no header")
        kind, *_, size = struct.unpack_from(layout, self.at(section.offset, head))
        if kind != BY_ZLIB:
            why = "a section is compressed in another way than by zlib (try objcopy --decompress-debug-sections)"
            raise Unreadable("packed", f"can't be taken apart: {why}")
        if size > (section.size - head) * ZLIB_FACTOR + ZLIB_MORE:
            raise broken("a compressed section says that it has more bytes than it can have")
        return size, head

    def content(self, section):
        """The bytes of a section, in pieces, decompressed where it is compressed."""
        size, head = self.unpacked_size(section)
        if not head:
            yield from self.pieces(section.offset, section.size)
            return
        unpacked, inflater = 0, zlib.decompressobj()
        try:
            for piece in self.pieces(section.offset + head, section.size - head, PACKED):
                while piece and unpacked <= size:
                    # (of one piece no more comes than this, so that the rest of it isn't copied again and again)
                    found = inflater.decompress(piece, PACKED * ZLIB_FACTOR)
                    piece, unpacked = inflater.unconsumed_tail, unpacked + len(found)
                    yield found
        except zlib.error as error:
            raise broken(error) from None
        if not inflater.eof or unpacked != size:
            raise broken("a compressed section has another size than it says")


def opened(path):
    """A file to read; what is no file, as a folder or a fifo, which might be waited for, isn't opened for good."""
    number = os.open(path, os.O_RDONLY | os.O_NONBLOCK)
    if not stat.S_ISREG(os.fstat(number).st_mode):
        os.close(number)
        raise Unreadable("other", "is no file")
    return os.fdopen(number, "rb")


def is_elf(path):
    """Whether a file begins as an ELF file does."""
    with opened(path) as file:
        return file.read(4) == b"\x7fELF"


def extract(path, folder, most=MOST_BYTES):
    """Writes the sections to files in a folder, decompressed, one that isn't there as an empty file. The answer is
    whether they are big-endian."""
    try:
        with opened(path) as file:
            elf = Elf(file)
            found = elf.sections()
            size = sum(elf.unpacked_size(it)[0] for it in found.values())
            if size > most:
                why = f"has {size} bytes of debugging entries, which is more than the {most} that are asked for"
                raise Unreadable("large", why)
            for name in section_names.FILES:
                with open(os.path.join(folder, name), "wb") as out:
                    out.writelines(elf.content(found[name]) if name in found else ())
    except OSError as error:
        raise Unreadable("unreadable", f"can't be read: {error.strerror}") from None
    if not os.path.getsize(section_names.path_in(folder, "info")):
        raise Unreadable("none", "has no debugging entries (.debug_info)")
    return elf.order == ">"


# ---- the items of .debug_info


@dataclass
class Items:
    """How many items of a section are units of version 5 and of version 4, and how many others, which the program keeps
    as their bytes. A length of 0, as where a linker padded, is no item."""

    five: int = 0
    four: int = 0
    others: int = 0

    def read(self):
        return self.five + self.four


def items_of(path, big):
    """The items of a file of .debug_info, as far as their lengths lead (section 7.5.1)."""
    order, found, at = ("big" if big else "little"), Items(), 0
    with open(path, "rb") as file:
        size = os.fstat(file.fileno()).st_size
        if not size:
            return found
        with mmap.mmap(file.fileno(), 0, access=mmap.ACCESS_READ) as section:
            while at + 4 <= size:
                length, field = int.from_bytes(section[at : at + 4], order), 4
                if not length:
                    at = behind_zeros(section, at)
                    continue
                if length == 0xFFFFFFFF:
                    length, field = int.from_bytes(section[at + 4 : at + 12], order), 12
                version = int.from_bytes(section[at + field : at + field + 2], order)
                kind = section[at + field + 2 : at + field + 3]
                if version == 5 and length >= 3 and kind in (b"\1", b"\2", b"\3", b"\4"):
                    found.five += 1
                elif version == 4 and length >= 2:
                    found.four += 1
                else:
                    found.others += 1
                at += field + length
    return found


def behind_zeros(section, at):
    """Where what follows lengths of 0 begins."""
    start = at
    while at < len(section):
        piece = section[at : at + PIECE]
        rest = piece.lstrip(b"\0")
        at += len(piece) - len(rest)
        if rest:
            break
    return start + (at - start) // 4 * 4 if at < len(section) else len(section)


def words_of(folder, big, four):
    """The options of the program over these sections."""
    return section_names.words_of(section_names.paths_in(folder)) + ["--big"] * big + ["--v4"] * four


# ---- the program over them

HERE = os.path.dirname(os.path.realpath(__file__))

# Where the program is: as it is built here, and beside scripts that scripts/install.sh installed.
PLACES = (os.path.join(HERE, "..", "crates", "dwarf", "out", "dwarf"), os.path.join(HERE, "..", "..", "bin", "dwarf"))


def program():
    """The program: the one that the variable DWARF names, or the one at hand, or the one on the path; None where there
    is none."""
    if os.environ.get("DWARF"):
        return shutil.which(os.environ["DWARF"])
    return next((it for it in PLACES if os.path.isfile(it) and os.access(it, os.X_OK)), None) or shutil.which("dwarf")


def ended(number, _frame):
    """Ends a script by a signal as an error does, so that folders that it made are gone and what it began is ended."""
    raise SystemExit(128 + number)


def end_by_signals():
    for number in (signal.SIGINT, signal.SIGTERM, signal.SIGHUP):
        signal.signal(number, ended)


def main():
    ask = argparse.ArgumentParser(description=__doc__, formatter_class=argparse.RawDescriptionHelpFormatter)
    ask.add_argument("file", metavar="FILE")
    ask.add_argument("folder", metavar="DIR")
    ask.add_argument("--most", type=int, default=MOST_BYTES, metavar="BYTES")
    given = ask.parse_args()
    try:
        extract(given.file, given.folder, given.most)
    except Unreadable as why:
        sys.exit(f"sections.sh: {given.file} {why}")


if __name__ == "__main__":
    main()
