#!/usr/bin/env python3
"""Compares the reader of bytes at hand with a feed that is pushed pieces.

Usage: scripts/explore/pieces.py PROGRAM [ABBREV INFO]

PROGRAM is the built `walk` (crates/walk/out/walk). The unit of each folder of `examples` is pushed in pieces of
several sizes, and each time written and compared with its bytes. Each front of it, and it with each byte changed in
three ways, is read at hand and pushed in pieces of one byte, and both have to end alike. Over ABBREV and INFO, the
sections of one unit of some megabytes, instructions are counted by Valgrind: those of the read at hand, and of the feed
by the size of its pieces, as a multiple of the first. The status is 1 where a unit differs, a run fails, or a multiple
is above its bound (in one piece and in pieces of 4,096 bytes 1.1, of one byte 30), else 0.
"""

import os
import re
import shutil
import subprocess
import sys
import tempfile

sys.path.insert(1, os.path.dirname(os.path.dirname(os.path.abspath(__file__))))

import section_names  # noqa: E402

EXAMPLES = os.path.join(os.path.dirname(os.path.dirname(os.path.dirname(os.path.abspath(__file__)))), "examples")

# The size of the pieces, what it is called, and how many times the instructions of the read at hand it may take.
SIZES = [(1 << 40, "one piece", 1.1), (4096, "4,096 bytes", 1.1), (1, "one byte", 30.0)]


def instructions(program, abbrev, info, size):
    with tempfile.TemporaryDirectory() as folder:
        out = os.path.join(folder, "out")
        run = subprocess.run(
            ["valgrind", "--tool=callgrind", f"--callgrind-out-file={out}", program, abbrev, info, str(size)],
            capture_output=True, text=True)
        found = re.search(r"Collected : (\d+)", run.stderr)
        if run.returncode or not found:
            sys.exit(f"pieces.py: valgrind or the program failed for pieces of {size}")
        return int(found.group(1))


def sections_in(folder):
    """The table of an example and its unit, as the program is given them."""
    return section_names.path_in(folder, "abbrev"), section_names.path_in(folder, "info")


def same_in_pieces(program, folder):
    run = subprocess.run([program, *sections_in(folder)], capture_output=True, text=True)
    lines = run.stdout.split("\n")[:-1]
    return run.returncode == 0 and len(lines) == 7 and all(line.endswith(": true") for line in lines)


def ends_alike(program, abbrev, bytes_, folder):
    info = os.path.join(folder, "info")
    with open(info, "wb") as it:
        it.write(bytes_)
    runs = [subprocess.run([program, abbrev, info, size], capture_output=True) for size in ("0", "1")]
    return len({(run.returncode, run.stdout, run.stderr) for run in runs}) == 1


def changed(unit):
    """Each front of the unit, and the unit with each byte changed."""
    for at in range(len(unit)):
        yield unit[:at]
        for byte in (unit[at] ^ 0x01, unit[at] ^ 0x80, 0xFF):
            yield unit[:at] + bytes([byte]) + unit[at + 1:]


def count_differences(program, abbrev, info):
    with open(info, "rb") as it:
        unit = it.read()
    with tempfile.TemporaryDirectory() as folder:
        tried = [ends_alike(program, abbrev, bytes_, folder) for bytes_ in changed(unit)]
    return len(tried), tried.count(False)


def compare_examples(program):
    well = True
    for name in sorted(os.listdir(EXAMPLES)):
        folder = os.path.join(EXAMPLES, name)
        abbrev, info = sections_in(folder)
        if os.path.exists(info):
            same = same_in_pieces(program, folder)
            tried, differences = count_differences(program, abbrev, info)
            told = "the same in all pieces" if same else "DIFFERENT"
            print(f"{name}: {told}; {tried} changed, {differences} differences")
            well = well and same and not differences
    return well


def count_instructions(program, abbrev, info):
    if not shutil.which("valgrind"):
        sys.exit("pieces.py: valgrind isn't there")
    at_hand = instructions(program, abbrev, info, 0)
    print(f"{os.path.getsize(info):,} bytes; at hand: {at_hand / 1e6:.1f} million instructions")
    well = True
    for size, name, bound in SIZES:
        times = instructions(program, abbrev, info, size) / at_hand
        print(f"{name}: {times:.2f} times as many (at most {bound})")
        well = well and times <= bound
    return well


def main():
    if len(sys.argv) not in (2, 4):
        sys.exit(__doc__.strip().split("\n")[2])
    program = os.path.abspath(sys.argv[1])
    if not os.path.exists(program):
        sys.exit(f"pieces.py: there is no {program}")
    well = compare_examples(program)
    if len(sys.argv) == 4:
        well = count_instructions(program, sys.argv[2], sys.argv[3]) and well
    sys.exit(0 if well else 1)


if __name__ == "__main__":
    main()
