#!/usr/bin/env python3
"""Prints what crates/trials has to print of its vectors, as an independent reader (scripts/gate/reference.py) answers.

Usage: scripts/gate/sweeps.py [VECTOR..]

A VECTOR is a word of crates/trials/args, which has them all behind the word `all`: a file of crates/trials/data, and
behind it `:v4` and `:big`. What is printed without words stands in crates/trials/stdout, behind what each scenario
tells. It takes minutes, on all processors.

As a module it has `vectors`, `of_all` and `inputs`, for what else goes over the same inputs.
"""

import concurrent.futures
import os
import sys
import zlib

sys.path.insert(1, os.path.dirname(os.path.dirname(os.path.abspath(__file__))))

import reference  # noqa: E402
import section_names  # noqa: E402

TOP = os.path.dirname(os.path.dirname(os.path.dirname(os.path.abspath(__file__))))
FOLDER = os.path.join(TOP, "crates", "trials")


def vectors():
    """The words of all vectors."""
    with open(os.path.join(FOLDER, "args"), encoding="utf-8") as file:
        return file.read().split()[1:]


def sections_of(vector):
    """The sections of a vector, by their names."""
    found = dict.fromkeys(section_names.NAMES, b"")
    with open(os.path.join(FOLDER, "data", vector.partition(":")[0]), encoding="utf-8") as file:
        for line in file:
            words = line.split()
            if words[:1] == ["let"]:
                found[words[1]] += bytes.fromhex("".join(words[3:]))
    return found


def of_all(words):
    """These vectors with each of their sections that has bytes."""
    return [(vector, name) for vector in words for name, content in sections_of(vector).items() if content]


def inputs(vector, name):
    """All inputs in which this section of the vector is cut or changed, in their order."""
    files = sections_of(vector)
    content = files[name]
    for size in range(len(content)):
        yield {**files, name: content[:size]}
    for at, byte in enumerate(content):
        for value in range(256):
            if value != byte:
                yield {**files, name: content[:at] + bytes([value]) + content[at + 1 :]}


def is_big(vector):
    return ":big" in vector


def is_four(vector):
    return ":v4" in vector


def read(files, vector):
    versions = (4, 5) if is_four(vector) else (5,)
    return reference.read_section(files["info"], files["abbrev"], is_big(vector), versions, files)


def told(section):
    """All that is said of a section that is read."""
    yield reference.answer("show", section, [], set())[0]
    yield reference.answer("check", section, [], set())[0]
    for unit in section.units():
        for entry in unit.entries:
            try:
                yield reference.type_text(section, unit, entry, b"x")
            except reference.Refused as why:
                yield str(why).encode()
            yield b"\n"


def swept(vector, name):
    """The lines of one section of a vector."""
    sys.setrecursionlimit(100_000)
    count = sections = 0
    checksum, faults = 1, {}
    for files in inputs(vector, name):
        count += 1
        try:
            section = read(files, vector)
        except reference.Fault as fault:
            checksum = zlib.adler32(f"fault {fault}\n".encode(), checksum)
            kind = f"{fault.section} {fault.reason}"
            faults[kind] = faults.get(kind, 0) + 1
            continue
        sections += 1
        for text in told(section):
            checksum = zlib.adler32(text, checksum)
    head = f"{vector} {name}: {count} inputs, {sections} read, 0 broken, checksum {checksum:08x}\n"
    return head + "".join(f"  {kind}: {times}\n" for kind, times in faults.items())


def control(vector):
    """The line of what doesn't hold of a vector: two things where it is read, and one where it has a fault."""
    try:
        read(sections_of(vector), vector)
    except reference.Fault:
        return f"{vector}: 1 counted as broken\n"
    return f"{vector}: 2 counted as broken\n"


def main(words):
    jobs = of_all(words or vectors())
    told = ""
    with concurrent.futures.ProcessPoolExecutor() as side_by_side:
        for (vector, _), lines in zip(jobs, side_by_side.map(swept, *zip(*jobs))):
            if vector != told:
                print(control(vector), end="")
                told = vector
            print(lines, end="")


if __name__ == "__main__":
    main(sys.argv[1:])
