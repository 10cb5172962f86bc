#!/usr/bin/env python3
"""Refuses memory, reads and writes, one a run, and looks at what is answered and at what stands afterwards.

Usage: scripts/gate/refusals.py TRIALS DWARF [--all]

TRIALS is the built program of scenarios (crates/trials/out/trials), DWARF the built `dwarf` (crates/dwarf/out/dwarf).
Tried are

- each scenario with each of its requests for memory refused: a call answers NoMemory and leaves what its
  documentation says, the same call made again succeeds, and all else is told as with ample memory; or the scenario
  itself has no memory, and tells nothing (status 4);
- that no more requests are the scenario's own than are known to be, so that no call answers NoMemory for good;
- calls that take no memory: however often they are made, as much is asked for; each call of which docs/guarantees.md
says so is made;
- `dwarf` with each of its commands over the sections in examples/, with a request for memory refused: `memory` and
  status 4 behind a beginning of the output, or the ample answer where the request merely saves steps;
- `show` and `copy` of a section of two units, with each read and each write failing in turn, also where each moves
one byte;
- the commands over examples/ with a read that fails or is interrupted, with reads and writes of one byte, and with a
  write that fails, is interrupted, takes nothing or finds a full disk: only that is told, with status 3, behind a
  beginning of the output;
- `dwarf` over files that aren't there, can't be read, are folders, or end early, and with an output or a standard
error that is closed or full.

Without --all the commands are run with a sample of their requests and calls; with it scenarios are run under valgrind
too, where that is there. A few lines of C, which `cc` compiles, stand between a program and its C library, count and
refuse. The last line is `N passed, M failed`, and the status is 0 where none failed, else 1.
"""

import argparse
import concurrent.futures
import errno
import glob
import os
import re
import shutil
import subprocess
import sys
import tempfile

TOP = os.path.dirname(os.path.dirname(os.path.dirname(os.path.abspath(__file__))))

SCENARIOS = (
    "value tables declaration table-builder builder draft unit unit-from deep body section section-as push type check"
    " run-show run-find run-type run-check run-set run-copy"
).split()

# How many requests are a scenario's own, for its words, its lines, and what it is over: where one of them is refused
# it ends with 4. A call that answers NoMemory for good, where one growth was refused, would add to these.
OWN = {
    **{"value": 5, "tables": 9, "declaration": 5, "table-builder": 6, "builder": 15, "draft": 15, "unit": 6},
    **{"unit-from": 6, "deep": 6, "body": 15, "section": 6, "section-as": 6, "push": 406, "type": 35, "check": 34},
    **{"run-show": 6, "run-find": 6, "run-type": 6, "run-check": 6, "run-set": 6, "run-copy": 6},
}

# Calls that take no memory, and how often they are made beside not at all.
QUIET = {
    "unit": 3, "section": 3, "feeds": 3, "tables": 3, "finish": 1,
    "numbers": 3, "devices": 3, "values": 3, "makers": 3, "end-value": 1, "undo": 3, "finished": 1,
}

# Where it is said which calls these are, under this heading, and the sources that make all of them.
SAID, HEADING = f"{TOP}/docs/guarantees.md", "## Calls that take no memory"
MADE = ("quiet.rt", "quiet_parts.rt", "drafts.rt")
CALLS = 81

# A section of two units, and its tables: a unit of the name "a", and one that refers to its entry by ref_addr.
TWO_UNITS = bytes.fromhex(
    "0b 00 00 00 05 00 01 08 00 00 00 00 01 61 00" "0d 00 00 00 05 00 01 08 08 00 00 00 01 0c 00 00 00"
)
TWO_TABLES = bytes.fromhex("01 11 00 03 08 00 00 00" "01 11 00 49 10 00 00 00")

# How many of its requests, reads or writes are refused a run of a command without --all: as many of the first ones,
# and as many among the others.
SAMPLE = 12

# Of so many of the first requests of a copy of examples/linked so many at the least end it, if refused: an entry or a
# null for which there is no memory is never asked for again, only the first values of an entry are.
FIRST, ENDING = 300, 282

SHIM = r"""
#define _GNU_SOURCE
#include <errno.h>
#include <fcntl.h>
#include <stdio.h>
#include <stdlib.h>
#include <string.h>
#include <sys/syscall.h>
#include <unistd.h>
#include <dlfcn.h>

static void *(*next_malloc)(size_t), *(*next_calloc)(size_t, size_t);
static void *(*next_realloc)(void *, size_t), *(*next_aligned)(size_t, size_t);
/* The C library's own functions. While they are looked up, what that asks for is taken from here, and never given
 * back. */
static char spare[4096];
static size_t spared;
static void find_next(void) {
    static int is_looking;
    if (next_malloc || is_looking) return;
    is_looking = 1;
    void *found = dlsym(RTLD_NEXT, "malloc");
    next_calloc = dlsym(RTLD_NEXT, "calloc");
    next_realloc = dlsym(RTLD_NEXT, "realloc");
    next_aligned = dlsym(RTLD_NEXT, "aligned_alloc");
    next_malloc = found;
}
static void *spare_bytes(size_t size) {
    void *found = spare + spared;
    spared += (size + 15) / 16 * 16;
    return spared <= sizeof spare ? found : 0;
}

/* What is asked of the program of this name, and not of one that starts it. */
static long number(const char *word) {
    const char *value = getenv(word), *program = getenv("PROGRAM");
    return value && program && !strcmp(program, program_invocation_short_name) ? atol(value) : 0;
}

/* The k-th request for memory is refused, counted from 1. */
static long asked, refused = -1;
static int is_refused(void) {
    if (refused < 0) refused = number("REFUSED");
    if (++asked != refused) return 0;
    errno = ENOMEM;
    return 1;
}
void *malloc(size_t size) {
    find_next();
    if (!next_malloc) return spare_bytes(size);
    return is_refused() ? 0 : next_malloc(size);
}
void *calloc(size_t count, size_t size) {
    find_next();
    if (!next_malloc) return spare_bytes(count * size);
    return is_refused() ? 0 : next_calloc(count, size);
}
void *realloc(void *old, size_t size) { find_next(); return is_refused() ? 0 : next_realloc(old, size); }
void *aligned_alloc(size_t to, size_t size) { find_next(); return is_refused() ? 0 : next_aligned(to, size); }
int posix_memalign(void **found, size_t to, size_t size) {
    find_next();
    return is_refused() || !(*found = next_aligned(to, size)) ? ENOMEM : 0;
}

/* The k-th read, or write to standard output, fails so; a write may take nothing. Each moves at most so many bytes. */
static long reads, writes;
ssize_t read(int from, void *to, size_t size) {
    long most = number("MOST");
    if (++reads == number("READ")) { errno = number("WHY"); return -1; }
    return syscall(SYS_read, from, to, most && size > most ? most : size);
}
ssize_t write(int to, const void *from, size_t size) {
    long most = to == 1 ? number("MOST") : 0, why = number("WHY");
    if (to == 1 && ++writes == number("WRITE")) { if (!why) return 0; errno = why; return -1; }
    return syscall(SYS_write, to, from, most && size > most ? most : size);
}

__attribute__((destructor)) static void tell(void) {
    const char *path = getenv("COUNTED");
    int to = path ? open(path, O_WRONLY | O_CREAT | O_TRUNC, 0600) : -1;
    char text[96];
    if (to >= 0) syscall(SYS_write, to, text, snprintf(text, sizeof text, "%ld %ld %ld", asked, reads, writes));
}
"""


class Ran:
    """What a run wrote, said and ended with, and how many requests for memory, reads and writes it made."""

    def __init__(self, words, folder, shim, program="", **asked):
        with tempfile.NamedTemporaryFile() as counted:
            # (what was given back is filled with other bytes, so that nobody reads it unseen)
            env = {"PATH": os.environ["PATH"], "LD_PRELOAD": shim, "COUNTED": counted.name, "MALLOC_PERTURB_": "165"}
            env |= {"PROGRAM": os.path.basename(program or words[0])}
            env |= {word: str(value) for word, value in asked.items()}
            ran = subprocess.run(words, cwd=folder, stdin=subprocess.DEVNULL, capture_output=True, env=env)
            self.status, self.output, self.error = ran.returncode, ran.stdout, ran.stderr
            numbers = counted.read().split()
            self.requests, self.reads, self.writes = map(int, numbers) if len(numbers) == 3 else (0, 0, 0)

    def said(self):
        return self.status, self.output, self.error

    def __str__(self):
        return f"status {self.status}, {len(self.output)} bytes, {self.error[:80]!r}"


class Tried:
    """Counts what was tried, and tells what went wrong."""

    def __init__(self):
        self.passed, self.failed, self.refused = 0, 0, 0

    def judge(self, holds, what):
        if holds:
            self.passed += 1
        else:
            self.failed += 1
            print(f"refusals.py: {what}", flush=True)


# ---- the scenarios


def without_refusals(text):
    """The lines of a scenario but for those that tell of a refusal."""
    return [it for it in text.split("\n") if not it.endswith(" NoMemory") and not it.startswith("written")]


def stands(said, ample):
    """Whether a scenario with a refused request tells what stands afterwards as it should."""
    written = re.findall(r"(?m)^written(.*)$", said)
    output = re.findall(r"(?m)^output(.*)$", ample)
    return without_refusals(said) == ample.split("\n") and all(output and output[0].startswith(it) for it in written)


def try_scenario(tried, program, name, shim):
    """Refuses each of a scenario's requests in turn."""
    ample = Ran([program, name], "/", shim)
    text = ample.output.decode()
    is_ample = ample.status == 0 and text and "NoMemory" not in text and "FAILED" not in text
    tried.judge(is_ample, f"{name}: with ample memory: {ample}: {text[:200]!r}")
    told = own = 0
    for number in range(1, ample.requests + 1):
        ran = Ran([program, name], "/", shim, REFUSED=number)
        said = ran.output.decode()
        told += " NoMemory\n" in said
        own += ran.status == 4
        held = ran.status == 4 and not said or ran.status == 0 and stands(said, text)
        tried.judge(held, f"{name}: request {number} refused: {ran}: {said[:300]!r}")
    tried.refused += told
    tried.judge(told, f"{name}: no call of it was refused a growth, of {ample.requests} requests")
    tried.judge(own == OWN[name], f"{name}: {own} requests are its own, and not {OWN[name]}")


def try_memory(tried, program, name, shim):
    """Runs a scenario under valgrind, some of its requests refused: no byte is used that isn't the program's, and none
    is lost."""
    watched = ["valgrind", "-q", "--error-exitcode=99", "--leak-check=full"]
    watched += ["--soname-synonyms=somalloc=nouserintercepts", program, name]
    count = Ran([program, name], "/", shim).requests
    for number in sample(count, False)[::3]:
        ran = Ran(watched, "/", shim, program, REFUSED=number)
        said = ran.error[:400].decode(errors="replace")
        tried.judge(ran.status in (0, 4), f"{name}: request {number} refused under valgrind: {ran}: {said}")


def try_quiet(tried, program, calls, count, shim):
    """Looks whether calls that are made ask for as much as where they aren't made."""
    none, some = (Ran([program, calls, str(it)], "/", shim) for it in (0, count))
    tried.judge(none.status == some.status == 0 and none.output != some.output, f"{calls}: {none}, {some}")
    more = f"{none.requests} requests without its calls, {some.requests} with {count} of each"
    tried.judge(none.requests == some.requests, f"{calls}: {more}")


def try_said(tried):
    """Whether each call of which it is said that it takes no memory is made by the calls above."""
    with open(SAID, encoding="utf-8") as file:
        _, heading, said = file.read().partition(f"\n{HEADING}\n")
    made = ""
    for name in MADE:
        with open(f"{TOP}/crates/trials/src/refusals/{name}", encoding="utf-8") as file:
            made += file.read()
    rows = re.findall(r"(?m)^\| `\w+` \| (.*) \|$", said.partition("\n## ")[0])
    calls = re.findall(r"`(?:\w+::)?(\w+)`", " ".join(rows))
    is_said = heading and len(calls) >= CALLS
    tried.judge(is_said, f"{SAID}: {len(calls)} calls are said to take no memory, and not {CALLS}")
    for call in calls:
        tried.judge(re.search(rf"\b{call}\(", made), f"{call} is said to take no memory, and isn't made")


# ---- the program


def try_two_units(tried, program, command, most, shim):
    """Fails each read and each write of a command over two units in turn; each moves at most so many bytes, where that
    isn't 0."""
    with tempfile.TemporaryDirectory(prefix="refusals-") as folder:
        for name, text in (("info", TWO_UNITS), ("abbrev", TWO_TABLES)):
            with open(f"{folder}/{name}", "wb") as file:
                file.write(text)
        words = [program, command, "--info", "info", "--abbrev", "abbrev"]
        ample = Ran(words, folder, shim, MOST=most)
        is_right = ample.status == 0 and ample.output and (command != "copy" or ample.output == TWO_UNITS)
        tried.judge(is_right, f"{command} of two units: {ample}")
        for number in range(1, ample.reads + 1):
            ran = Ran(words, folder, shim, MOST=most, READ=number, WHY=errno.EIO)
            is_told = (ran.status, ran.output) == (3, b"") and ran.error in (b"file info\n", b"file abbrev\n")
            tried.judge(is_told, f"{command} of two units: read {number} fails: {ran}")
        for number in range(1, ample.writes + 1):
            ran = Ran(words, folder, shim, MOST=most, WRITE=number, WHY=errno.EIO)
            # (the rest of what was buffered may be written at the end, which is a beginning of the output, too)
            is_told = ended_so(ran, ample, 3, b"file standard output\n")
            tried.judge(is_told, f"{command} of two units: write {number} fails: {ran}")


def commands():
    """Commands over the sections in examples/: their names, words and folders."""
    for folder in sorted(os.path.dirname(it) for it in glob.glob(f"{TOP}/examples/*/debug_info")):
        name = os.path.basename(folder)
        words = ["--v4"] if name.endswith("4") and name != "gcc64" else []
        for section in ("info", "abbrev", "str", "line-str", "str-offsets"):
            path = f"debug_{section.replace('-', '_')}"
            words += [f"--{section}", path] if os.path.isfile(f"{folder}/{path}") else []
        for command in ("copy", "show", "check", "find main", "type 0xc", "set 0xc DW_AT_language 4"):
            head, *rest = command.split()
            yield f"{command} over {name}", [head, *words, *rest], folder


def sample(count, is_all):
    """The numbers from 1 to `count`, or some of them."""
    step = 1 if is_all else max(1, (count - SAMPLE) // SAMPLE)
    return [*range(1, min(count, SAMPLE) + 1), *range(SAMPLE + 1, count + 1, step)]


def ended_so(ran, ample, status, line):
    """Whether a run wrote a beginning of its output, and told this alone."""
    return ran.status == status and ran.error == line and ample.output.startswith(ran.output)


def try_command(tried, program, command, shim, is_all):
    """Refuses a command's requests, reads and writes."""
    name, words, folder = command
    words = [program, *words]
    ample = Ran(words, folder, shim)
    tried.judge(ample.status in (0, 1), f"{name}: {ample}")
    for number in sample(ample.requests, is_all):
        ran = Ran(words, folder, shim, REFUSED=number)
        out = ended_so(ran, ample, 4, b"memory\n")
        tried.refused += out
        tried.judge(out or ran.said() == ample.said(), f"{name}: request {number} refused: {ran}")
    for number in sample(ample.reads, is_all):
        for why in (errno.EIO, errno.EINTR):
            ran = Ran(words, folder, shim, READ=number, WHY=why)
            held = ran.status == 3 and not ran.output and re.fullmatch(rb"file debug_\w+\n", ran.error)
            # (of a file that is read whole an interrupted read is made again)
            again = why == errno.EINTR and ran.said() == ample.said()
            tried.judge(held or again, f"{name}: read {number} fails by {errno.errorcode[why]}: {ran}")
    for number in sample(ample.writes, is_all):
        for why in (errno.EIO, errno.EINTR, errno.ENOSPC, 0):
            ran = Ran(words, folder, shim, WRITE=number, WHY=why)
            # (what the buffer of standard output has at the end is written again where that was interrupted, as
            # Rust's is)
            again = why == errno.EINTR and ran.said() == ample.said()
            is_told = again or ended_so(ran, ample, 3, b"file standard output\n")
            tried.judge(is_told, f"{name}: write {number} fails by {why}: {ran}")
    for most in (1, 7):
        ran = Ran(words, folder, shim, MOST=most)
        tried.judge(ran.said() == ample.said(), f"{name}: {most} bytes a call: {ran}")


def try_growths(tried, program, command, shim):
    """Refuses the first requests of a command one by one."""
    name, words, folder = command
    ended = 0
    for number in range(1, FIRST + 1):
        ended += Ran([program, *words], folder, shim, REFUSED=number).said() == (4, b"", b"memory\n")
    tried.refused += ended
    end = f"of the first {FIRST} requests {ended} end it where they are refused, and not {ENDING}"
    tried.judge(ended >= ENDING, f"{name}: {end}")


# ---- files, and what is written to


def as_nobody():
    """A user who may not read what only its owner may."""
    if os.geteuid() == 0:
        os.setgroups([])
        os.setgid(65534)
        os.setuid(65534)


def try_files(tried, program):
    """Inputs that can't be read, and outputs that can't be written."""
    folder = f"{TOP}/examples/linked"
    sections = ["info", "abbrev", "str", "line-str", "str-offsets"]
    given = {it: f"debug_{it.replace('-', '_')}" for it in sections}

    def run(files=given, command="show", **how):
        words = [program, command] + [word for it, path in files.items() for word in (f"--{it}", path)]
        how = {"stdout": subprocess.PIPE, "stderr": subprocess.PIPE, **how}
        return subprocess.run(words, cwd=folder, stdin=subprocess.DEVNULL, timeout=60, **how)

    ample = run()
    tried.judge(ample.returncode == 0 and ample.stdout, f"linked: status {ample.returncode}")
    with tempfile.TemporaryDirectory() as room:
        os.chmod(room, 0o755)
        secret = f"{room}/secret"
        with open(secret, "wb") as file:
            file.write(b"\0")
        os.chmod(secret, 0)
        for section in sections:
            below = f"{folder}/{given['info']}/below"
            for path, how in (("/no/such/file", {}), (below, {}), (room, {}), (secret, {"preexec_fn": as_nobody})):
                ran = run({**given, section: path}, **how)
                is_told = (ran.returncode, ran.stdout, ran.stderr) == (3, b"", f"file {path}\n".encode())
                tried.judge(is_told, f"{section} is {path}: {ran}")
        try_fifo(tried, run, given, folder, f"{room}/fifo")
    for text, how in (("full", {"stdout": open("/dev/full", "wb")}), ("closed", {"preexec_fn": lambda: os.close(1)})):
        ran = run(**how)
        tried.judge((ran.returncode, ran.stderr) == (3, b"file standard output\n"), f"standard output is {text}: {ran}")
    ran = run({**given, "info": "/no/such/file"}, stderr=None, preexec_fn=lambda: os.close(2))
    tried.judge((ran.returncode, ran.stdout) == (3, b""), f"standard error is closed: {ran}")


def try_fifo(tried, run, given, folder, fifo):
    """A fifo gives a section whole, or ends within it: there the fault is that of a file which ends there."""
    os.mkfifo(fifo)
    with open(f"{folder}/{given['info']}", "rb") as file:
        section = file.read()
    for size in (len(section), len(section) - 1, 20, 0):
        copy = "import sys; open(sys.argv[1], 'wb').write(sys.stdin.buffer.read())"
        writer = subprocess.Popen([sys.executable, "-c", copy, fifo], stdin=subprocess.PIPE)
        writer.stdin.write(section[:size])
        writer.stdin.close()
        ran = run({**given, "info": fifo})
        writer.wait()
        with tempfile.NamedTemporaryFile() as cut:
            cut.write(section[:size])
            cut.flush()
            same = run({**given, "info": cut.name})
        is_same = (ran.returncode, ran.stdout, ran.stderr) == (same.returncode, same.stdout, same.stderr)
        tried.judge(is_same, f"a fifo of {size} bytes: {ran}")


def main():
    ask = argparse.ArgumentParser(description=__doc__, formatter_class=argparse.RawDescriptionHelpFormatter)
    ask.add_argument("trials")
    ask.add_argument("dwarf")
    ask.add_argument("--all", action="store_true", help="refuse each request, read and write of each command")
    given = ask.parse_args()
    scenarios, dwarf, tried = os.path.abspath(given.trials), os.path.abspath(given.dwarf), Tried()
    pool = concurrent.futures.ThreadPoolExecutor(os.cpu_count())
    with tempfile.TemporaryDirectory(prefix="refusals-") as room, pool as side_by_side:
        shim = f"{room}/shim.so"
        words = ["cc", "-shared", "-fPIC", "-O1", "-o", shim, "-x", "c", "-", "-ldl"]
        built = subprocess.run(words, input=SHIM, text=True, capture_output=True, check=False)
        if built.returncode:
            sys.exit(f"refusals.py: the C compiler: {built.stderr.strip()}")
        jobs = [(try_scenario, scenarios, name, shim) for name in SCENARIOS]
        jobs += [(try_quiet, scenarios, calls, count, shim) for calls, count in QUIET.items()]
        if given.all and shutil.which("valgrind"):
            jobs += [(try_memory, scenarios, name, shim) for name in SCENARIOS]
        jobs += [(try_command, dwarf, command, shim, given.all) for command in commands()]
        jobs += [(try_two_units, dwarf, command, most, shim) for command in ("show", "copy") for most in (0, 1)]
        jobs += [(try_growths, dwarf, command, shim) for command in commands() if command[0] == "copy over linked"]
        for parts in side_by_side.map(lambda job: job[0](own := Tried(), *job[1:]) or own, jobs):
            tried.passed += parts.passed
            tried.failed += parts.failed
            tried.refused += parts.refused
        try_files(tried, dwarf)
        try_said(tried)
    print(f"{tried.refused} calls and runs were refused memory and said so")
    print(f"{tried.passed} passed, {tried.failed} failed")
    return 0 if not tried.failed and tried.passed else 1


if __name__ == "__main__":
    sys.exit(main())
