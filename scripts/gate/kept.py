#!/usr/bin/env python3
"""Keeps on this machine what steps of the gate passed, by sums of all that their verdicts stand on.

Usage: scripts/gate/kept.py show STEP SUM
       scripts/gate/kept.py keep STEP SUM

The first prints what is kept of STEP by this sum, and its status is 1 where nothing is. The second keeps its input, as
a whole or not at all. It lies in a folder of the one who runs this, $XDG_CACHE_HOME/STEP or ~/.cache/STEP.
"""

import os
import sys

CACHE = os.environ.get("XDG_CACHE_HOME") or os.path.expanduser("~/.cache")


def folder_of(step):
    return f"{CACHE}/{step}"


def kept(folder, total):
    """The text that is kept by this sum, or None."""
    try:
        with open(f"{folder}/{total}", encoding="utf-8") as file:
            return file.read()
    except FileNotFoundError:
        return None


def keep(folder, total, text):
    os.makedirs(folder, exist_ok=True)
    # (a name of its own first, so that nobody reads a part of it)
    with open(f"{folder}/{total}.{os.getpid()}", "w", encoding="utf-8") as file:
        file.write(text)
    os.replace(f"{folder}/{total}.{os.getpid()}", f"{folder}/{total}")


def main(what, step, total):
    if what == "keep":
        keep(folder_of(step), total, sys.stdin.read())
        return 0
    text = kept(folder_of(step), total)
    print(text or "", end="")
    return 0 if text else 1


if __name__ == "__main__":
    if len(sys.argv) != 4 or sys.argv[1] not in ("show", "keep"):
        sys.exit("usage: scripts/gate/kept.py show|keep STEP SUM")
    sys.exit(main(*sys.argv[1:]))
