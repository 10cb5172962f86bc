#!/usr/bin/env python3
"""Runs `rt ci`, unless it has passed over this very tree on this machine.

Usage: scripts/gate/rt_ci.py [--processors N] [--anew] [--cache FOLDER]

Some kits prove all anew at each `rt ci`, an hour or more of processor. So that it passed is kept, by a sum of all
that it reads: the files in crates/, those that git ignores among them, crates.txt, HANDLES, each file elsewhere that
it would refuse or read, the line of `rt version`, the variables RT_*, and this script. It isn't run again where that
sum was kept, and the programs and the libraries that it left are there, byte for byte, since other steps of the gate
run the ones and stand on the others. Those that are there before it runs are taken away, so that what it leaves is of
that very run. --anew runs it in any case, and tells it to take nothing over from an earlier run. With --processors it
sees so many of them: it gives each check as many jobs as there are, and each job loads anew what it needs. The last
line is that of `rt ci`, `N passed, M failed`, and so is the status; where it isn't run again, the line says so and
counts nothing.
"""

import argparse
import contextlib
import hashlib
import json
import os
import re
import shutil
import subprocess

import clones
import kept

# What `rt ci` reads, or refuses where no crate has it, wherever it lies.
READ_ANYWHERE = (".rt", ".antt", ".edit", ".bazel")

# What it doesn't read: the wrong bodies that scripts/gate/wrong_bodies.py tries.
WRONG_BODY = re.compile(r"crates/\w+/wrong/\w+\.edit")


def is_read(path):
    if WRONG_BODY.fullmatch(path):
        return False
    return path.startswith("crates/") or path in ("crates.txt", "HANDLES") or path.endswith(READ_ANYWHERE)


def sum_of_tree():
    """A sum of all that `rt ci` reads."""
    listed = clones.git(["ls-files", "-z", "--cached", "--others", "--exclude-standard"], clones.TOP).split("\0")
    ignored = clones.git(["ls-files", "-z", "--others", "--ignored", "--exclude-standard", "crates"], clones.TOP)
    listed += [it for it in ignored.split("\0") if "/out/" not in it]
    asked = sorted((name, value) for name, value in os.environ.items() if name.startswith("RT_"))
    found = hashlib.sha256(repr((clones.version(), asked, clones.text_of(__file__))).encode())
    for path in sorted(filter(is_read, set(listed))):
        whole = os.path.join(clones.TOP, path)
        if os.path.isfile(whole):
            found.update(f"{path} {sum_of_file(whole)}\n".encode())
    return found.hexdigest()


def sum_of_file(path):
    with open(path, "rb") as file:
        return hashlib.sha256(file.read()).hexdigest()


def programs():
    """The sums of the programs that stand in the tree, by their paths."""
    found = {}
    for name, crate in clones.crates_in(clones.TOP).items():
        path = f"crates/{name}/out/{name}"
        if os.path.isfile(f"{crate.path(clones.TOP)}/src/main.rt"):
            whole = os.path.join(clones.TOP, path)
            found[path] = sum_of_file(whole) if os.path.isfile(whole) else ""
    return found


def libraries():
    """Sums of the libraries on which others stand, by their names."""
    found = {}
    for name, folder in folders_of_libraries().items():
        files = sorted(os.path.join(at, it) for at, _, names in os.walk(folder) for it in names)
        sums = [(os.path.relpath(it, clones.TOP), sum_of_file(it)) for it in files]
        found[name] = hashlib.sha256(repr(sums).encode()).hexdigest() if files else ""
    return found


def folders_of_libraries():
    crates = {it.name: it for above in clones.crates_in(clones.TOP).values() for it in above.below}
    return {name: clones.library_of(clones.TOP, crate) for name, crate in crates.items()}


def sweep():
    """Takes away the programs and the libraries of earlier runs."""
    for folder in folders_of_libraries().values():
        # (`rt ci` leaves a library that it takes over from an earlier run where there is no such folder, and not where
        # the folder is empty)
        shutil.rmtree(os.path.dirname(folder), ignore_errors=True)
    for path in programs():
        with contextlib.suppress(FileNotFoundError):
            os.remove(os.path.join(clones.TOP, path))


def left():
    """What stands in the tree of what `rt ci` leaves."""
    return {"programs": programs(), "libraries": libraries()}


def passed_by(folder, total):
    """The last line of a run that passed over the tree of this sum and left what stands there."""
    try:
        found = json.loads(kept.kept(folder, total) or "")
        return found.pop("verdict") if {**found, **left()} == found else ""
    except (ValueError, KeyError, TypeError):
        return ""


def has_passed():
    """Whether `rt ci` has passed over this tree, and what it left stands there."""
    return bool(passed_by(kept.folder_of("rt_ci"), sum_of_tree()))


def run_anew(folder, total, words):
    """Runs `rt ci` with these words, whose lines go through, keeps that it passed over the tree of this sum, and
    returns its status."""
    last = ""
    sweep()
    how = {"stdin": subprocess.DEVNULL, "stdout": subprocess.PIPE, "stderr": subprocess.STDOUT}
    ran = subprocess.Popen(["rt", "ci", *words], cwd=clones.TOP, **how, text=True, errors="replace")
    with ran:
        try:
            for line in ran.stdout:
                print(line, end="", flush=True)
                last = line.strip() or last
        except BaseException:
            ran.terminate()
            raise
    # (what changed while it ran isn't judged)
    stands = left()
    if ran.returncode == 0 and total == sum_of_tree() and all(all(sums.values()) for sums in stands.values()):
        kept.keep(folder, total, json.dumps({"verdict": last, **stands}))
    return ran.returncode


def main():
    ask = argparse.ArgumentParser(description=__doc__, formatter_class=argparse.RawDescriptionHelpFormatter)
    ask.add_argument("--anew", action="store_true", help="run it in any case, from nothing")
    ask.add_argument("--cache", default=kept.folder_of("rt_ci"))
    ask.add_argument("--processors", type=int, default=0, metavar="N", help="on so many processors, or else on all")
    given = ask.parse_args()
    total = sum_of_tree()
    if given.processors:
        os.sched_setaffinity(0, sorted(os.sched_getaffinity(0))[: given.processors])
    verdict = "" if given.anew else passed_by(given.cache, total)
    if not verdict:
        return run_anew(given.cache, total, ["--anew"] if given.anew else [])
    print(f"rt ci: not run again: it has passed over this very tree on this machine ({verdict})")
    print("0 passed, 0 failed (kept)")
    return 0


if __name__ == "__main__":
    clones.ended_well("rt_ci.py", main)
