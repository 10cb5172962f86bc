#!/usr/bin/env python3
"""Clones of the tree at hand, with the libraries of its crates, for scripts that change sources and check them.

Usage: scripts/gate/clones.py make [--below] FOLDER NAME..
       scripts/gate/clones.py sum NAME..

The first makes the clone FOLDER for a check above the libraries NAME, and prints the words that this wants, the second
prints a sum of all that a check above these crates reads.

With --below the libraries are those below the crates NAME.

A clone has the files that git knows in the tree at hand, and those that it doesn't ignore, as they are now. Where `rt
ci` has passed over this very tree (scripts/gate/rt_ci.py), the libraries are those that it left in it,
`crates/NAME/out/rlib/NAME.rlib`: `rt check` and `rt lib` in the clone are told of each by `--extern NAME=FOLDER`, and
the clone's crates.txt names no library of the repository, so that none is proved once more. Else they are built in
the clone by `rt lib`, from the lowest on. The tree at hand is never changed.
"""

import argparse
import contextlib
import functools
import hashlib
import os
import shutil
import signal
import subprocess
import sys
import tempfile
import threading
from dataclasses import dataclass, field

TOP = os.path.dirname(os.path.dirname(os.path.dirname(os.path.realpath(__file__))))

# What a check of a crate reads, of all that is in its folder.
READ = (".rt", ".antt")


class Stop(Exception):
    """Why a script ends, in one line."""


@dataclass
class Crate:
    """A crate of the repository, and the crates below it, lowest first."""

    name: str
    below: list = field(default_factory=list)

    def path(self, top):
        return os.path.join(top, "crates", self.name)


@dataclass
class Ran:
    """What a command said, its status, and the seconds of processor that it and all that it started took."""

    said: str
    status: int
    seconds: float


# ---- the crates


def crates_in(top):
    """The crates that crates.txt lists, by their names, those below a crate before it."""
    listed = {}
    for line in text_of(os.path.join(top, "crates.txt")).split("\n"):
        name, colon, rest = line.partition(":")
        if colon and not line.startswith("#"):
            listed[name.split()[0]] = rest.split()
    made = {}

    def make(name):
        if name not in made:
            below = []
            for crate in [make(it) for it in listed[name] if it in listed]:
                below += [it for it in [*crate.below, crate] if it not in below]
            made[name] = Crate(name, below)
        return made[name]

    for name in listed:
        make(name)
    return made


def text_of(path):
    with open(path, encoding="utf-8") as file:
        return file.read()


def known(crates, name):
    if name not in crates:
        raise Stop(f"there is no crate {name} in crates.txt")
    return crates[name]


def files_of(folder):
    """The files of a crate, without what was made of them."""
    found = []
    for at, folders, names in os.walk(folder):
        folders[:] = sorted(it for it in folders if it != "out")
        found += [os.path.join(at, it) for it in sorted(names)]
    return found


def sum_of(top, crates):
    """A sum of all that a check of these crates reads: their files and those of all below, and which kit it is."""
    found = hashlib.sha256(version().encode())
    for crate in with_all_below(crates):
        found.update(sum_of_files(top, crate).encode())
    return found.hexdigest()


def sum_of_files(top, crate):
    """A sum of all that a check of a crate reads in its own folder."""
    found = hashlib.sha256()
    for file in files_of(crate.path(top)):
        if file.endswith(READ):
            with open(file, "rb") as opened:
                found.update(repr((os.path.relpath(file, top), opened.read())).encode())
    return found.hexdigest()


def with_all_below(crates):
    found = []
    for crate in crates:
        found += [it for it in [*crate.below, crate] if it not in found]
    return found


@functools.lru_cache(maxsize=None)
def version():
    """The line by which the kit tells what it is."""
    if not shutil.which("rt"):
        raise Stop("rt is not on PATH")
    return run(["rt", "version"], TOP).said


# ---- commands

_running = set()
# (the main thread may be interrupted while it holds this)
_lock = threading.RLock()
_ends = threading.Event()


def run(words, folder):
    """Runs a command to its end, unless the script is about to end."""
    how = {"stdin": subprocess.DEVNULL, "stdout": subprocess.PIPE, "stderr": subprocess.STDOUT}
    how |= {"text": True, "errors": "replace"}
    with _lock:
        if _ends.is_set():
            raise Stop("it was ended")
        ran = subprocess.Popen(words, cwd=folder, start_new_session=True, **how)
        _running.add(ran.pid)
    with ran:
        said = ran.stdout.read()
        _, status, used = os.wait4(ran.pid, 0)
        ran.returncode = os.waitstatus_to_exitcode(status)
    with _lock:
        _running.discard(ran.pid)
        if _ends.is_set():
            raise Stop("it was ended")
    return Ran(said, ran.returncode, used.ru_utime + used.ru_stime)


def end_all():
    """Ends the commands that this script began and that still run. It begins no more."""
    _ends.set()
    with _lock:
        for pid in _running:
            with contextlib.suppress(ProcessLookupError):
                os.killpg(pid, signal.SIGTERM)


def is_ending():
    """Whether the script is about to end."""
    return _ends.is_set()


def ended_well(name, main):
    """Ends the script with the status of `main`. What stops it is told in one line, by the script's name."""
    sys.stdout.reconfigure(line_buffering=True)
    for number in (signal.SIGINT, signal.SIGTERM, signal.SIGHUP):
        signal.signal(number, interrupted)
    try:
        sys.exit(main())
    except Stop as why:
        print(f"{name}: {why}", file=sys.stderr)
    except OSError as why:
        print(f"{name}: {why.filename or 'a file'}: {why.strerror or why}", file=sys.stderr)
    sys.exit(1)


def interrupted(number, _frame):
    for other in (signal.SIGINT, signal.SIGTERM, signal.SIGHUP):
        signal.signal(other, signal.SIG_IGN)
    end_all()
    raise Stop(f"interrupted by {signal.Signals(number).name}")


# ---- clones


@contextlib.contextmanager
def folder_for_clones():
    """A folder that is gone at the end."""
    folder = os.path.realpath(tempfile.mkdtemp(prefix="clones-"))
    try:
        yield folder
    finally:
        end_all()
        shutil.rmtree(folder, ignore_errors=True)


def clone(top, folder):
    """Makes a clone of the tree at hand, with what has changed in it since its last commit."""
    git(["clone", "--quiet", "--shared", top, folder], top)
    changed = git(["status", "--porcelain=v1", "-z", "--no-renames", "--untracked-files=all"], top)
    for line in changed.split("\0"):
        path = line[3:]
        if not path:
            continue
        there = os.path.join(folder, path)
        if os.path.isfile(os.path.join(top, path)):
            os.makedirs(os.path.dirname(there), exist_ok=True)
            shutil.copy2(os.path.join(top, path), there)
        elif os.path.isfile(there):
            os.remove(there)


def git(words, folder):
    ran = subprocess.run(["git", *words], cwd=folder, stdin=subprocess.DEVNULL, capture_output=True, text=True)
    if ran.returncode:
        lines = ran.stderr.strip().splitlines() or ["it failed"]
        raise Stop(f"git {words[0]}: {next((it for it in lines if it.startswith(('fatal', 'error'))), lines[0])}")
    return ran.stdout


def library_of(top, crate):
    """The library of a crate, where `rt ci` or `rt lib` leaves it."""
    return os.path.join(crate.path(top), "out", "rlib", f"{crate.name}.rlib")


def words_for(top, crates):
    """The words by which `rt check` and `rt lib` are told of these libraries and all below them, of a tree."""
    return [word for crate in with_all_below(crates) for word in ("--extern", f"{crate.name}={library_of(top, crate)}")]


def name_no_libraries(folder):
    """Changes the crates.txt of a clone so that no crate there stands on one of the repository."""
    path = os.path.join(folder, "crates.txt")
    known = crates_in(folder)
    lines = [line.partition(":") for line in text_of(path).split("\n")]

    def others(words):
        return "".join(f" {it}" for it in words.split() if it not in known)

    lines = [line if line[0].startswith("#") else (*line[:2], others(line[2])) for line in lines]
    with open(path, "w", encoding="utf-8") as file:
        file.write("\n".join("".join(line) for line in lines))


def build(folder, crate):
    """Builds the library of a crate in a clone, over those below it. One job takes two thirds of the minutes of
    processor that four take: each loads what it needs by itself."""
    ran = run(["rt", "lib", "--jobs", "1"], crate.path(folder))
    if ran.status:
        said = ran.said.strip().split("\n")
        lines = [it for it in said if "error" in it or it.startswith("fn ") and ": proved" not in it] or said[-1:]
        raise Stop(f"the library of {crate.name} could not be built: {lines[0]}")
    return ran.seconds


def main():
    ask = argparse.ArgumentParser(description=__doc__, formatter_class=argparse.RawDescriptionHelpFormatter)
    ask.add_argument("what", choices=("make", "sum"))
    ask.add_argument("words", nargs="+")
    ask.add_argument("--below", action="store_true", help="the libraries below these crates")
    given = ask.parse_args()
    crates = crates_in(TOP)
    if given.what == "sum":
        print(sum_of(TOP, [known(crates, it) for it in given.words]))
        return 0
    # (it stands on this module)
    import rt_ci

    folder, *names = given.words
    named = [known(crates, it) for it in names]
    wanted = with_all_below([below for it in named for below in it.below] if given.below else named)
    clone(TOP, folder)
    if rt_ci.has_passed():
        name_no_libraries(folder)
        print(" ".join(words_for(TOP, wanted)))
        return 0
    for crate in wanted:
        print(f"{crate.name}: library, {build(folder, crate):.0f} s of processor", file=sys.stderr)
    return 0


if __name__ == "__main__":
    ended_well("clones.py", main)
