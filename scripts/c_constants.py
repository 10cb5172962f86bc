#!/usr/bin/env python3
"""Makes include/rothelduf_constants.h of the constants of dw_leb: the names of tags, attributes and forms in C.

Usage: scripts/c_constants.py [--check]

With --check nothing is written, and the status is 1 where the file isn't what would be written.
"""

import os
import re
import sys

TOP = os.path.dirname(os.path.dirname(os.path.realpath(__file__)))
HEADER = f"{TOP}/include/rothelduf_constants.h"
# (the doc line has the name as the standard spells it)
CONSTANT = re.compile(r"(?m)^/// `(DW_\w+)`.*\n(?:///.*\n)*pub const DW_\w+: u64 = (0x[0-9a-f]+);")


def written():
    what = "the names of tags, attributes and forms of DWARF 5 (sections 7.5.3 to 7.5.6)"
    lines = [f"/* rothelduf_constants.h: {what}. Made by scripts/c_constants.py. */"]
    lines += ["#ifndef ROTHELDUF_CONSTANTS_H", "#define ROTHELDUF_CONSTANTS_H", ""]
    for kind in ("tag", "attribute", "form"):
        with open(f"{TOP}/crates/dw_leb/src/constants/{kind}.rt", encoding="utf-8") as file:
            lines += [f"#define {name} {value}" for name, value in CONSTANT.findall(file.read())] + [""]
    return "\n".join([*lines, "#endif"]) + "\n"


def main(words):
    text = written()
    if words == ["--check"]:
        with open(HEADER, encoding="utf-8") as file:
            return 0 if file.read() == text else 1
    with open(HEADER, "w", encoding="utf-8") as file:
        file.write(text)
    return 0


if __name__ == "__main__":
    sys.exit(main(sys.argv[1:]))
