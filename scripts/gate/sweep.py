#!/usr/bin/env python3
"""Hands sections to the program and to an independent reader (scripts/gate/reference.py), and compares the answers.

Usage: scripts/gate/sweep.py PROGRAM [COUNT [SEED]] [--all]

PROGRAM is the built `dwarf` (crates/dwarf/out/dwarf). Handed over are, in turn, COUNT times (10,000 by default): a
section that is made at random by the grammar (scripts/gate/made.py); the same changed; and the sections of a case in
`cases/` changed, of those that have at most 300 bytes of .debug_info. Changed is one of the files: cut off, or with a
byte changed, put in or taken out. With --all every cut and every change of one byte of the vectors in crates/trials is
handed over in their place. Over each, `show`, `check` and `copy`, `find` by a name, and `type` and `set` at an entry or
beside one have to write the same, say the same on standard error and end with the same status; a section that is made
has no fault. Each difference is printed with its bytes. It takes all processors. The last line is
`N passed, M failed`, of the runs, and the status is 0 where none failed.
"""

import argparse
import concurrent.futures
import glob
import os
import random
import subprocess
import sys
import tempfile

sys.path.insert(1, os.path.dirname(os.path.dirname(os.path.abspath(__file__))))

import reference  # noqa: E402
import section_names  # noqa: E402
import sweeps  # noqa: E402
from case_reader import TOP, Reader  # noqa: E402
from made import Made, Maker  # noqa: E402

MOST = 300

# How many sections at random are handed over by one process.
PART = 1_000


def inputs():
    """The files of the cases, each once, by their contents."""
    found = {}
    for name in sorted(glob.glob(os.path.join(TOP, "cases", "*"))):
        with open(name, encoding="utf-8") as file:
            for case in Reader(os.path.relpath(name, TOP), file.read()).cases:
                if "abbrev" in case.files and len(case.files.get("info", b"")) in range(1, MOST):
                    found.setdefault(tuple(sorted(case.files.items())), b"--big" in case.words)
    return [(dict(files), is_big) for files, is_big in found.items()]


def changed(files, chance):
    """The files, one of which is cut off or has a byte changed, put in or taken out."""
    name = chance.choice([it for it in files if files[it]] or ["info"])
    content = files[name]
    at = chance.randrange(len(content) + 1)
    byte = bytes([chance.randrange(256)])
    rest = content[at + 1 :]
    how = chance.choice([b"", byte + rest, byte + rest, byte + content[at:], rest])
    return {**files, name: content[:at] + how}


def commands(section, chance):
    """What is asked of a section, which is None where it faults."""
    entries = [entry for unit in section.units() for entry in unit.entries] if section else []
    entry = chance.choice(entries) if entries else None
    offset = entry.offset + chance.choice([0, 0, 0, 1]) if entry else chance.randrange(40)
    name = chance.choice([it.name for it in entry.values] or [1]) if entry else 3
    yield from (["show"], ["check"], ["copy"], ["find", chance.choice("abx")], ["type", str(offset)])
    number = chance.choice([0, 1, offset, 127, 128, 255, 256, 2**32, 2**64])
    yield ["set", str(offset), str(name), str(number), *chance.choice([[], [], ["--minus"]])]


def answered(given, words):
    """What the independent reader writes and says, and its status."""
    flags = {it for it in words if it == "--minus"}
    others = reference.judged_words(words[0], [it for it in words[1:] if it not in flags])
    try:
        output, status = reference.answer(words[0], given.read(), others, flags)
        return output, b"", status
    except reference.Fault as fault:
        return b"", f"fault {fault}\n".encode(), 1
    except reference.Refused as why:
        return b"", f"refused {why}\n".encode(), 1


# A run is ended after so many seconds, which none takes.
SECONDS = 60


def ran(program, given, words):
    """The same of the program."""
    how = {"stdin": subprocess.DEVNULL, "capture_output": True, "timeout": SECONDS, "check": False}
    with tempfile.TemporaryDirectory() as room:
        there = {name: name for name in section_names.NAMES if name in given.files}
        for name in there:
            with open(os.path.join(room, name), "wb") as file:
                file.write(given.files[name])
        asked = [program, *words, *given.flags(), *section_names.words_of(there)]
        try:
            said = subprocess.run(asked, cwd=room, **how)
        except subprocess.TimeoutExpired:
            return b"", f"it was ended after {SECONDS} seconds\n".encode(), None
    return said.stdout, said.stderr, said.returncode


def read(given):
    """The section, or None where it has a fault."""
    try:
        return given.read()
    except reference.Fault:
        return None


def sections(count, chance):
    """Sections, and whether they have no fault."""
    of_cases = inputs()
    for turn in range(count):
        if turn % 3 == 2:
            files, is_big = chance.choice(of_cases)
            yield Made(changed(files, chance), is_big, chance.random() < 0.3), False
        else:
            given = Maker(chance).section()
            if turn % 3 == 1:
                given.files = changed(given.files, chance)
            yield given, turn % 3 == 0


class Swept:
    """How many runs were made, and how many differed."""

    def __init__(self):
        self.runs = self.differ = 0

    def ask(self, program, given, chance, is_valid=False):
        """Asks the program and the independent reader the same of a section; one that is valid has to be read."""
        section = read(given)
        for words in commands(section, chance):
            want, got = answered(given, words), ran(program, given, words)
            self.runs += 1
            if want != got or is_valid and not section:
                self.differ += 1
                files = (f"{name} {it.hex()}" for name, it in given.files.items())
                print(" ".join([*words, *given.flags()]), *files, sep="\n  ")
                print(f"  wanted {want}\n  came   {got}")


def swept_at_random(program, count, seed):
    """Sections made at random."""
    swept, chance = Swept(), random.Random(seed)
    for given, is_valid in sections(count, chance):
        swept.ask(program, given, chance, is_valid)
    return swept


def swept_vector(program, vector, name):
    """Every cut and every change of one byte of a section of a vector."""
    sys.setrecursionlimit(100_000)
    swept, chance = Swept(), random.Random(f"{vector} {name}")
    for files in sweeps.inputs(vector, name):
        there = {it: content for it, content in files.items() if content or it in ("info", "abbrev")}
        swept.ask(program, Made(there, sweeps.is_big(vector), sweeps.is_four(vector)), chance)
    return swept


def main():
    ask = argparse.ArgumentParser(description=__doc__, formatter_class=argparse.RawDescriptionHelpFormatter)
    ask.add_argument("program")
    ask.add_argument("count", nargs="?", type=int, default=10_000)
    ask.add_argument("seed", nargs="?", type=int, default=1)
    all_of = "every cut and change of the vectors in crates/trials in the place of sections at random"
    ask.add_argument("--all", action="store_true", help=all_of)
    given = ask.parse_args()
    sys.setrecursionlimit(100_000)
    program = os.path.abspath(given.program)
    if given.all:
        jobs = [(program, *it) for it in sweeps.of_all(sweeps.vectors())]
        job, what = swept_vector, f"{len(jobs)} sections of vectors"
    else:
        # (in parts of a thousand, each with a seed of its own, so that the same ones come however many processors there
        # are)
        parts = range(0, given.count, PART)
        jobs = [(program, min(PART, given.count - at), given.seed * 1_000_003 + at) for at in parts]
        job, what = swept_at_random, f"{given.count} sections"
    with concurrent.futures.ProcessPoolExecutor() as side_by_side:
        done = list(side_by_side.map(job, *zip(*jobs)))
    runs, differ = sum(it.runs for it in done), sum(it.differ for it in done)
    print(f"{what}, {runs} runs, {differ} differ")
    print(f"{runs - differ} passed, {differ} failed")
    return 1 if differ or not runs else 0


if __name__ == "__main__":
    sys.exit(main())
