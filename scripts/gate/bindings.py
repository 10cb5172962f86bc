#!/usr/bin/env python3
"""Compares what bindings/python sees of sections with what the program prints of them.

Usage: scripts/gate/bindings.py PROGRAM

Of each folder of examples/ and bench/ with a section: the lines of `dwarf show` are made anew of what the binding tells
(each unit, entry and attribute, each reference and each text), those of `check` of its findings, and those of `type`
for a hundred entries; the bytes are written as they were read. The binding is over the shared object that ROTHELDUF
names. The last line is `N passed, M failed`.
"""

import glob
import os
import subprocess
import sys

TOP = os.path.dirname(os.path.dirname(os.path.dirname(os.path.abspath(__file__))))
sys.path[:0] = [f"{TOP}/bindings/python", f"{TOP}/scripts"]

import reference  # noqa: E402
import rothelduf  # noqa: E402
import section_names  # noqa: E402

KINDS = ["four", "compile", "type", "partial", "skeleton"]


def bytes_of(folder):
    """The bytes of the sections, by the words of the binding for them."""
    found = {}
    for name, path in section_names.paths_in(folder).items():
        found[section_names.word_of(name)] = open(path, "rb").read() if os.path.exists(path) else b""
    return found


def said(program, command, folder, *words):
    paths = {name: path for name, path in section_names.paths_in(folder).items() if os.path.exists(path)}
    words = [program, command, *words, *section_names.words_of(paths), "--v4"]
    return subprocess.run(words, capture_output=True, text=True, encoding="latin-1", check=False).stdout.splitlines()


def shown(section):
    """The lines of `show`, but for those of items that are no units."""
    for unit in section.units():
        line = f"unit {unit.start:#x} {KINDS[unit.kind]} {64 if unit.wide else 32} size {unit.size}"
        line += f" abbrev {unit.abbrev_offset:#x} addr {unit.address_size}"
        line += f" signature {unit.signature:#x} type {unit.type_offset:#x}" if unit.kind == 2 else ""
        yield line + (f" dwo {unit.signature:#x}" if unit.kind == 4 else "")
        for entry in unit.entries():
            yield f"<{entry.depth}> {unit.start + entry.offset:#x} {reference.tag_name(entry.tag)}"
            for it in entry.attributes:
                yield f"  DW_AT_{reference.ATTRIBUTES.get(it.name, hex(it.name))} {shown_value(section, it)}"


def shown_value(section, it):
    if it.kind == rothelduf.BLOCK:
        return f"[{len(it.value)}]" + (" " + it.value.hex() if it.value else "")
    if it.kind == rothelduf.TEXT:
        return reference.quoted(bytes(it.value))
    if it.kind == rothelduf.PRESENT:
        return "present"
    if it.kind in (rothelduf.SLEB, rothelduf.IMPLICIT):
        return str(it.value)
    text = hex(it.value)
    is_reference = it.form in reference.REFERENCES
    try:
        if is_reference:
            item, offset = it.entry()
            return f"{text} -> {section.unit(item).start + offset:#x}"
        if it.form in reference.TEXTS:
            return f"{text} {reference.quoted(bytes(it.text()))}"
    except rothelduf.Refused as why:
        return f"{text} {'-> ' if is_reference else ''}{why}"
    return text


def checked(section):
    for offset, position, kind in section.check():
        yield f"{offset:#x} {position} {rothelduf.WRONG.index(kind)} {kind}"


def first_difference(seen, wanted):
    for number, pair in enumerate(zip([*seen, "the end"], [*wanted, "the end"], strict=False)):
        if pair[0] != pair[1]:
            return f"line {number + 1} is {pair[0]!r}, and not {pair[1]!r}"
    return ""


def compare(program, folder):
    """What differs, by what was compared."""
    sections = bytes_of(folder)
    info, abbrev = sections.pop("info"), sections.pop("abbrev")
    with rothelduf.Section(info, abbrev, four=True, **sections) as section:
        wanted = [it for it in said(program, "show", folder) if not it.startswith("other ")]
        yield "show", first_difference(shown(section), wanted)
        yield "check", first_difference(checked(section), said(program, "check", folder))
        yield "copy", "" if section.to_bytes() == info else "other bytes"
        if all(map(section.unit, range(len(section)))):
            yield "feed", "" if fed(info, abbrev) == info else "other bytes"
        entries = [entry for unit in section.units() for entry in unit.entries()]
        for entry in entries[:: max(1, len(entries) // 100)]:
            offset = entry.unit.start + entry.offset
            yield "type", first_difference([typed(entry)], said(program, "type", folder, hex(offset)))
            item, own = section.find(offset)
            yield "find", "" if (item, own) == (entry.unit.item, entry.offset) else f"{offset:#x} is {item}, {own:#x}"


def fed(info, abbrev):
    """The section once more, pushed in pieces of seven bytes."""
    with rothelduf.Feed(abbrev, four=True) as feed:
        for at in range(0, len(info), 7):
            feed.push(info[at : at + 7])
        return feed.to_bytes()


HAVE_NAMES = [reference.TAG[it] for it in ("variable", "formal_parameter", "member", "subprogram")]


def typed(entry):
    """The line of `type`: with the entry's name where it is a variable or function."""
    try:
        return entry.type((entry.name_or_none() or b"") if entry.tag in HAVE_NAMES else b"").decode("latin-1")
    except rothelduf.Refused as why:
        return str(why)


def folders():
    """The folders of examples/ and bench/ with a section."""
    found = (glob.glob(section_names.path_in(f"{TOP}/{it}/*", "info")) for it in ("examples", "bench"))
    return sorted(os.path.dirname(path) for paths in found for path in paths)


def main(program):
    passed = failed = 0
    for folder in folders():
        for what, difference in compare(program, folder):
            passed, failed = passed + (not difference), failed + bool(difference)
            if difference:
                print(f"{os.path.relpath(folder, TOP)}: {what}: {difference}")
    print(f"{passed} passed, {failed} failed")
    return 0 if passed and not failed else 1


if __name__ == "__main__":
    sys.exit(main(sys.argv[1]))
