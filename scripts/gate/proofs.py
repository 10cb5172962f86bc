#!/usr/bin/env python3
"""Runs `rt ci`, and beside it the rounds of wrong bodies.

Usage: scripts/gate/proofs.py [--processors N] [--anew]

`rt ci` (scripts/gate/rt_ci.py) sees N processors at most, by default three, and doesn't use all of them all the time.
So where there are more, the rounds of a crate (scripts/gate/wrong_bodies.py) begin as soon as `rt ci` tells that the
crate is proved: at one time as many crates as there are processors that it doesn't see, and one more. When it has
ended, they take all processors, but no more than four crates at one time, since each takes its memory. Where it fails,
this ends with it. --anew proves and tries all, whatever is kept.

Of both it is told what they took, as `.ci/run` tells of its steps. The last line is `N passed, M failed` of both.
"""

import argparse
import contextlib
import os
import re
import subprocess
import sys
import threading
import time

import clones
import rt_ci
import wrong_bodies
from clones import Stop
from edits import REFUSED

HERE = os.path.dirname(os.path.abspath(__file__))

PROVED = re.compile(r"rt: (\w+) proved")
LAST = re.compile(r"(\d+) passed, (\d+) failed.*")

# So many crates at one time at most.
AT_ONCE = 4


class Beside:
    """`rt ci`, as it runs beside the rounds, and the libraries that it leaves."""

    def __init__(self, words, few):
        """Begins it. While it runs, `few` crates may be tried at one time."""
        self.few, self.tried, self.proved = few, 0, set()
        self.has_ended, self.has_passed, self.passed, self.failed = False, False, 0, 0
        self.changed = threading.Condition()
        self.began = time.monotonic()
        how = {"stdin": subprocess.DEVNULL, "stdout": subprocess.PIPE, "stderr": subprocess.STDOUT}
        command = [sys.executable, f"{HERE}/rt_ci.py", *words]
        self.ran = subprocess.Popen(command, cwd=clones.TOP, text=True, errors="replace", **how)
        self.reader = threading.Thread(target=self.read)
        self.reader.start()

    def read(self):
        """Takes over what it says, to its end."""
        last = ""
        with self.ran:
            for line in self.ran.stdout:
                print(line, end="", flush=True)
                last = line.strip() or last
                named = PROVED.fullmatch(line.strip())
                if named:
                    with self.changed:
                        self.proved.add(named[1])
                        self.changed.notify_all()
            _, status, used = os.wait4(self.ran.pid, 0)
            self.ran.returncode = os.waitstatus_to_exitcode(status)
        took = f"{used.ru_utime:.3f} + {used.ru_stime:.3f} s of processor, {time.monotonic() - self.began:.3f} s"
        print(f"gate: rt_ci.py: {took} by the clock\n", end="", flush=True)
        counted = LAST.fullmatch(last)
        # (it counts where it passed over this very tree, and what it left stands there)
        has_passed = self.ran.returncode == 0 and rt_ci.has_passed()
        if not has_passed:
            clones.end_all()
        with self.changed:
            self.passed, self.failed = map(int, counted.groups()) if counted else (0, 0)
            self.has_ended, self.has_passed = True, has_passed
            self.changed.notify_all()

    def is_proved(self, crate):
        """Whether this run has proved a crate, and all below it, whose libraries are there."""
        are_there = all(os.path.isdir(clones.library_of(clones.TOP, it)) for it in crate.below)
        return are_there and {it.name for it in [*crate.below, crate]} <= self.proved

    def wait_for(self, is_so):
        """Waits until this is so, or `rt ci` has ended."""
        while not self.has_ended and not is_so():
            self.changed.wait(1)
            if clones.is_ending():
                break
        if clones.is_ending():
            raise Stop("it was ended")

    def words(self, crate):
        """The words by which a check is told of the libraries below a crate, as soon as it is proved."""
        with self.changed:
            self.wait_for(lambda: self.is_proved(crate))
        return clones.words_for(clones.TOP, crate.below)

    @contextlib.contextmanager
    def place(self):
        """Within this a crate is tried."""
        with self.changed:
            self.wait_for(lambda: self.tried < self.few)
            self.tried += 1
        try:
            yield
        finally:
            with self.changed:
                self.tried -= 1
                self.changed.notify_all()

    def end(self):
        """Waits until it has ended. Where the rounds were ended by something else than by it, it is ended."""
        if sys.exc_info()[0] and not self.has_ended:
            self.ran.terminate()
        self.reader.join()
        if not self.has_passed:
            raise Stop("rt ci didn't pass")


def seconds_of(work):
    """The seconds of processor that the checks of these crates took."""
    return sum({id(it.crate): it.crate.seconds for one in work for it in one.edits if it.crate}.values())


def try_rounds(given, few, words):
    """Runs both. Returns what passed and what failed of each."""
    began, beside = time.monotonic(), Beside(words, few)
    try:
        work = wrong_bodies.judged_in(given)
        pending = [it for it in work if it.to_try()]
        with clones.folder_for_clones() as folder:
            wrong = wrong_bodies.try_all(pending, folder, given, beside) if pending else ""
    finally:
        beside.end()
    for one in work:
        if one not in pending:
            print("\n".join(map(str, one.edits)))
    took = f"{seconds_of(pending):.3f} + 0.000 s of processor, {time.monotonic() - began:.3f} s by the clock"
    print(f"gate: wrong_bodies.py: {took}", flush=True)
    return (beside.passed, beside.failed), wrong_bodies.told_of(work, wrong, REFUSED)


def main():
    ask = argparse.ArgumentParser(description=__doc__, formatter_class=argparse.RawDescriptionHelpFormatter)
    ask.add_argument("--processors", type=int, default=3, metavar="N", help="how many `rt ci` sees at most")
    ask.add_argument("--anew", action="store_true", help="prove and try all")
    own = ask.parse_args()
    count = len(os.sched_getaffinity(0))
    words = ["--anew"] if own.anew else []
    given = wrong_bodies.asked(["--side-by-side", str(min(count, AT_ONCE)), *words])
    few = count - own.processors + 1 if count > own.processors else 0
    proofs, bodies = try_rounds(given, few, ["--processors", str(own.processors), *words])
    passed, failed = proofs[0] + bodies[0], proofs[1] + bodies[1]
    print(f"{passed} passed, {failed} failed")
    return 1 if failed or not bodies[0] else 0


if __name__ == "__main__":
    clones.ended_well("proofs.py", main)
