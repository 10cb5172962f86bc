#!/usr/bin/env python3
"""Looks whether what the documents quote of the sources stands there word for word.

Usage: scripts/gate/quoted.py

A quotation is a fenced block of README.md or docs/*.md whose first line names, behind the language, a file below
crates/, as

    ```antt dw_unit/specs/Unit.antt

Its words have to stand in that file one behind the other, whole, whatever the lines are; `..` alone on a line leaves
out words. A fence is spelled as Markdown lets one: three or more backquotes or tildes, behind up to three spaces. The
last line is `N passed, M failed`, of the quotations, and the status is 0 where none failed and there are as many as are
known to be.
"""

import glob
import os
import re
import sys

TOP = os.path.dirname(os.path.dirname(os.path.dirname(os.path.abspath(__file__))))
BLOCK = re.compile(r"^ {0,3}(`{3,}|~{3,}) *\w+ +(\S+) *\n(.*?)^ {0,3}\1[`~]* *$", re.MULTILINE | re.DOTALL)

# So many quotations there are at the least.
QUOTATIONS = 11


def quotations(path):
    """Of a document the quoted files with what is quoted, and the lines where the blocks begin."""
    with open(path, encoding="utf-8") as file:
        text = file.read()
    for block in BLOCK.finditer(text):
        yield block[2], block[3], text.count("\n", 0, block.start()) + 1


def words_of(text):
    return " ".join(text.split())


def stands(quoted, source):
    """Whether the parts of a quotation stand in the source, one behind the other."""
    at, words = 0, f" {source} "
    for part in re.split(r"(?m)^\s*\.\.$", quoted):
        wanted = f" {words_of(part)} "
        found = words.find(wanted, at) if wanted.strip() else at
        if found < 0:
            return False
        # (the space behind it may stand before the next one)
        at = found + len(wanted) - 1 if wanted.strip() else at
    return True


def main():
    passed = failed = 0
    for document in ["README.md", *sorted(glob.glob("docs/**/*.md", root_dir=TOP, recursive=True))]:
        for name, quoted, line in quotations(os.path.join(TOP, document)):
            path = next(filter(os.path.exists, (os.path.join(TOP, "crates", name), os.path.join(TOP, name))), name)
            is_there = os.path.isfile(path)
            if is_there:
                with open(path, encoding="utf-8") as file:
                    is_there = stands(quoted, words_of(file.read()))
            if is_there:
                passed += 1
            else:
                failed += 1
                print(f"{document}:{line}: not in crates/{name} word for word")
    if passed + failed < QUOTATIONS:
        failed += 1
        print(f"there are {passed + failed - 1} quotations, and not {QUOTATIONS}")
    print(f"{passed} passed, {failed} failed")
    return 0 if passed and not failed else 1


if __name__ == "__main__":
    sys.exit(main())
