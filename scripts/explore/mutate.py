#!/usr/bin/env python3
"""Hands mutated sections to the program.

Usage: scripts/explore/mutate.py PROGRAM [COUNT [SEED]]

PROGRAM is the built `dwarf` (crates/dwarf/out/dwarf). COUNT times (600 by default) .debug_info of an example,
and at times .debug_abbrev too, gets a few bytes changed, put in, taken out or cut off, and `copy` and `show`
read them, with units of version 4 among them where the example has some. Both have to accept, and then `copy`
writes the very bytes of .debug_info and `show` the section from its first item on; or both have to refuse with
status 1, nothing on standard output and the same line on standard error. The status is 0 where all is so, else 1.
"""

import os
import random
import re
import subprocess
import sys
import tempfile
from dataclasses import dataclass

sys.path.insert(1, os.path.dirname(os.path.dirname(os.path.abspath(__file__))))

import section_names  # noqa: E402

EXAMPLES = os.path.join(os.path.dirname(os.path.abspath(__file__)), "..", "..", "examples")

OF_VERSION_FOUR = ("clang4", "gcc4")

# The sections of an example that are handed over.
HANDED_OVER = ("info", "abbrev")

FAULT = re.compile(rb"fault (info|abbrev) 0x[0-9a-f]+ [A-Za-z]+\n")


def mutated(section, chance):
    """The section with up to three small changes."""
    b = bytearray(section)
    for _ in range(chance.randint(1, 3)):
        at = chance.randrange(len(b) + 1)
        act = chance.randrange(4)
        if act == 0 and at < len(b):
            b[at] = chance.choice([0, 1, 0x7F, 0x80, 0xFF, b[at] ^ (1 << chance.randrange(8))])
        elif act == 1:
            b[at:at] = chance.randbytes(chance.randint(1, 3))
        elif act == 2:
            del b[at : at + chance.randint(1, 3)]
        elif act == 3 and chance.random() < 0.2:
            del b[at:]
    return bytes(b)


@dataclass
class Answer:
    """How a run ended, and what it wrote to standard output and to standard error."""

    status: int
    output: bytes
    error: bytes


def answer(program, command, options, room):
    words = [program, command, *section_names.words_of(section_names.paths_in(room, HANDED_OVER)), *options]
    ran = subprocess.run(words, stdout=subprocess.PIPE, stderr=subprocess.PIPE, timeout=60)
    return Answer(ran.returncode, ran.stdout, ran.stderr)


def mistake(info, copy, show):
    """What is wrong with the two answers, or None."""
    if copy.status != show.status:
        return f"statuses {copy.status} and {show.status}"
    if copy.status == 0:
        if copy.output != info:
            return "accepted, and other bytes are written"
        shown = show.output.startswith((b"unit 0x0 ", b"other 0x0 ")) or not info
        return None if shown else f"accepted, and shown as {show.output[:40]!r}"
    is_silent = not copy.output and not show.output
    refused = copy.status == 1 and is_silent and copy.error == show.error and FAULT.fullmatch(copy.error)
    return None if refused else f"status {copy.status}, {copy.error!r} and {show.error!r}"


def tried(program, sections, options, chance, room):
    """Writes mutated sections into the room; gives what is wrong with the answers, and whether they accept."""
    given = {**sections, "info": mutated(sections["info"], chance)}
    if chance.random() < 0.3:
        given["abbrev"] = mutated(sections["abbrev"], chance)
    for name, section in given.items():
        with open(section_names.path_in(room, name), "wb") as it:
            it.write(section)
    copy = answer(program, "copy", options, room)
    return mistake(given["info"], copy, answer(program, "show", options, room)), copy.status == 0


def examples_at_hand():
    """The examples by their names, with the bytes of these sections."""
    for name in sorted(os.listdir(EXAMPLES)):
        paths = section_names.paths_in(f"{EXAMPLES}/{name}", HANDED_OVER)
        if os.path.isfile(paths["info"]):
            sections = {}
            for section, path in paths.items():
                with open(path, "rb") as file:
                    sections[section] = file.read()
            yield name, sections


def main(program, count=600, seed=1):
    chance = random.Random(seed)
    examples = list(examples_at_hand())
    wrong = accepted = 0
    with tempfile.TemporaryDirectory() as room:
        for turn in range(count):
            name, sections = examples[turn % len(examples)]
            options = ["--v4"] if name in OF_VERSION_FOUR else []
            found, is_accepted = tried(program, sections, options, chance, room)
            accepted += is_accepted
            if found:
                wrong += 1
                print(f"turn {turn}, of {name}: {found}")
    print(f"{count} mutated sections by seed {seed}: {accepted} accepted, {wrong} mistakes")
    return 1 if wrong else 0


if __name__ == "__main__":
    program, *counts = sys.argv[1:] or [""]
    if not os.access(program, os.X_OK) or len(counts) > 2 or not all(it.isdigit() for it in counts):
        sys.exit("usage: scripts/explore/mutate.py PROGRAM [COUNT [SEED]]")
    sys.exit(main(program, *map(int, counts)))
