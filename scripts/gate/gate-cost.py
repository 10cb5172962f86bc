#!/usr/bin/env python3
"""What the gate costs: runs `.ci/run`, and says how many minutes of processor each of its steps took, and of the wrong
bodies each crate's rounds.

Usage: scripts/gate/gate-cost.py [COMMAND WORD..]

COMMAND stands in the place of `.ci/run`, as `scripts/gate/wrong_bodies.py dw_leb`. What the command prints goes
through, and the table follows it; docs/proving.md holds one. The status is the command's.

Whole commands are timed and nothing else: `.ci/run` tells what each step took, and `scripts/gate/wrong_bodies.py` what
the checks of each crate's rounds took. `rt ci` prints a line as it ends with a crate, or with its tests: a table tells
by the clock when these came. Where this is interrupted, it ends what it runs and prints that table so far.

Before it and behind it, the yardstick is measured, TIMES times each: `rt lib` of dw_leb, from nothing with nothing
beside it. The sum is told as it is and by the yardstick, that is divided by how much longer dw_leb took than its
YARDSTICK minutes, in the mean of all: a machine may change while it runs, and one yardstick differs by a tenth from the
next one. How much it changed is told beside it: all along, a short loop is timed every few seconds on the first
processor. Nothing is divided by that: it varies four times as much as a yardstick does.
"""

import glob
import os
import re
import shutil
import signal
import subprocess
import sys
import tempfile
import threading
import time
from dataclasses import dataclass

import clones

# The minutes of processor that the library of dw_leb took on the machine by which the budget is set: its check took
# 1.25, and where that takes 1.79, all of `rt lib` takes 2.16.
YARDSTICK = 1.51

# How many yardsticks are measured before a run, and behind it.
TIMES = 3

# The turns of the loop that is timed, some 30 milliseconds, and how many seconds lie between two.
TURNS, APART = 1_000_000, 5.0

ENDS = re.compile(r"rt: (.*)")
STEP = re.compile(r"gate: (.*): ([0-9.]+) \+ ([0-9.]+) s of processor, ([0-9.]+) s by the clock")
ROUNDS = re.compile(r"(\w+): [0-9]+ rounds, [0-9]+ checks, ([0-9]+) s of processor")


class Speed(threading.Thread):
    """How fast the first processor is, by a loop of the same turns that is timed again and again. That is less than a
    hundredth of its time."""

    def __init__(self):
        super().__init__(daemon=True)
        self.timed, self.ends = [], threading.Event()

    def run(self):
        os.sched_setaffinity(0, {min(os.sched_getaffinity(0))})
        while not self.ends.wait(APART):
            began = time.thread_time()
            for _ in range(TURNS):
                pass
            self.timed.append((time.monotonic(), time.thread_time() - began))

    def milliseconds(self, spans):
        """What the loop took within these spans of time, in the mean of its speeds."""
        took = [it for at, it in self.timed if any(begin <= at <= end for begin, end in spans)]
        return 1000 * len(took) / sum(1 / it for it in took) if took else 0.0


@dataclass
class Whole:
    """The minutes of processor that a command took with all that it started, those by the clock, its status, and the
    lines that it printed."""

    minutes: float
    by_the_clock: float
    status: int
    lines: list


def whole_run(words, folder, ended):
    """Runs a command, whose lines go through. What `rt ci` ends with, and when, is put into `ended`."""
    began, lines = time.monotonic(), []
    how = {"stdin": subprocess.DEVNULL, "stdout": subprocess.PIPE, "stderr": subprocess.STDOUT}
    ran = subprocess.Popen(words, cwd=folder, start_new_session=True, text=True, errors="replace", **how)
    with ran:
        try:
            for line in ran.stdout:
                print(line, end="", flush=True)
                lines.append(line.rstrip())
                ended += [(time.monotonic(), it[1]) for it in [ENDS.fullmatch(lines[-1])] if it]
        except BaseException:
            os.killpg(ran.pid, signal.SIGTERM)
            raise
        _, status, used = os.wait4(ran.pid, 0)
        ran.returncode = os.waitstatus_to_exitcode(status)
    minutes, passed = (used.ru_utime + used.ru_stime) / 60, (time.monotonic() - began) / 60
    return Whole(minutes, passed, ran.returncode, lines)


def print_ends(began, ended):
    """The minutes by the clock after which `rt ci` printed each of these lines."""
    print("| `rt ci` | After, by the clock |\n|---|--:|")
    for at, line in ended:
        print(f"| {line} | {(at - began) / 60:.1f} |")
    print(flush=True)


def yardstick():
    """How many minutes the library of dw_leb takes from nothing, alone, and from when to when by the clock."""
    # (another name each time, so that nothing that is kept of another checkout serves)
    name, began = f"dw_leb{time.time_ns() % 10**9}", time.monotonic()
    with tempfile.TemporaryDirectory(prefix="gate-cost-") as room:
        for part in ("src", "specs", "proofs"):
            shutil.copytree(f"crates/dw_leb/{part}", f"{room}/crates/{name}/{part}")
        for path in glob.glob(f"{room}/crates/**", recursive=True):
            if os.path.isfile(path):
                text = clones.text_of(path)
                with open(path, "w", encoding="utf-8") as file:
                    file.write(text.replace("dw_leb", name))
        with open(f"{room}/crates.txt", "w", encoding="utf-8") as file:
            line = next(it for it in clones.text_of("crates.txt").split("\n") if it.startswith("dw_leb:"))
            file.write(line.replace("dw_leb", name) + "\n")
        ran = clones.run(["rt", "lib"], f"{room}/crates/{name}")
        if ran.status:
            raise clones.Stop("the library of dw_leb could not be proved alone")
        return ran.seconds / 60, (began, time.monotonic())


def yardsticks(speed):
    """The minutes of so many of them, each told with the milliseconds of the loop beside it."""
    took = []
    for _ in range(TIMES):
        minutes, span = yardstick()
        loop = f"the loop {speed.milliseconds([span]):.1f} milliseconds"
        print(f"The library of dw_leb took {minutes:.2f} minutes alone, and {loop}.", flush=True)
        took.append(minutes)
    return took


def told_by(pattern, lines):
    """The minutes that lines tell, by what they are of."""
    found = {}
    for match in filter(None, map(pattern.fullmatch, lines)):
        found[match[1]] = found.get(match[1], 0) + float(match[2]) / 60
    return found


def print_table(lines):
    rounds = told_by(ROUNDS, lines)
    print("| Crate | Rounds | Wrong bodies |\n|---|--:|--:|")
    for crate, minutes in rounds.items():
        print(f"| `{crate}` | {minutes:.1f} | {len(glob.glob(f'crates/{crate}/wrong/*.edit'))} |")
    print(f"| all | {sum(rounds.values()):.1f} | {len(glob.glob('crates/*/wrong/*.edit'))} |\n")
    print("| Step | Minutes of processor | By the clock |\n|---|--:|--:|")
    for match in filter(None, map(STEP.fullmatch, lines)):
        print(f"| `{match[1]}` | {(float(match[2]) + float(match[3])) / 60:.1f} | {float(match[4]) / 60:.1f} |")


def processor():
    """What the processors are."""
    said = subprocess.run(["lscpu"], capture_output=True, text=True).stdout
    return next((it.partition(":")[2].strip() for it in said.split("\n") if it.startswith("Model name")), "unknown")


def main():
    os.chdir(clones.TOP)
    speed = Speed()
    speed.start()
    before = yardsticks(speed)
    began, ended = time.monotonic(), []
    try:
        whole = whole_run(sys.argv[1:] or [".ci/run"], ".", ended)
    finally:
        within = (began, time.monotonic())
        print_ends(began, ended)
    print_table(whole.lines)
    after = yardsticks(speed)
    speed.ends.set()
    stick = sum(before + after) / (2 * TIMES)
    print(f"| all | **{whole.minutes:.1f}** | {whole.by_the_clock:.1f} |\n")
    print(f"On {len(os.sched_getaffinity(0))} processors ({processor()}).")
    alone = f"{sum(before) / TIMES:.2f} minutes alone before it and {sum(after) / TIMES:.2f} behind it"
    ratio = f"{stick / YARDSTICK:.2f} times the yardstick; by that all took {whole.minutes * YARDSTICK / stick:.1f}"
    print(f"The library of dw_leb took {alone}, {ratio}.")
    print(f"The loop took {speed.milliseconds([within]):.1f} milliseconds within the run.")
    return whole.status


if __name__ == "__main__":
    clones.ended_well("gate-cost.py", main)
