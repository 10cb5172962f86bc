#!/usr/bin/env python3
"""Runs cases over the built program: what it writes, what it says on standard error, and its status.

Usage: scripts/gate/cases.py PROGRAM [FILE..]

PROGRAM is the built `dwarf` (crates/dwarf/out/dwarf). Each FILE has the cases of one topic; without one, all files of
`cases/` are run. Each case runs in a folder of its own, where its files lie, for at most 10 seconds. The last line is
`N passed, M failed`, and the status is 0 where some passed and none failed, else 1.

How a line of a FILE begins says what it is:

    # TEXT            a comment
    [TITLE]           begins a group of cases, which has no files yet
    NAME = BYTES      names bytes for the rest of FILE; indented lines below it go on with BYTES. What is named `info`,
                      `abbrev`, `str`, `line-str` or `str-offsets` is from here on a file of the group, of that name
    $ WORDS           runs the program with these words and an option for each file of the group (`--info info ..`)
    % WORDS           runs it with these words alone
    TEXT              a line of standard output; so is `| TEXT`, for one that is empty or begins as other lines here
    = BYTES           standard output, in bytes
    ^ TEXT            standard output begins with this line, and whatever else may stand behind it
    ~ NUMBER "TEXT"   so many lines of standard output begin with TEXT, and whatever else may stand there
    ! TEXT            a line of standard error
    !^ TEXT           standard error begins with TEXT, and whatever else may stand there
    ? NUMBER          the status

Unless it is said, there is no output and no error, and the status is 0. Lines `$` and `%` directly below each other
have one answer in common. Each answer says something, if only `? 0`.

BYTES are words: a byte in hexadecimal, a text as `"a\\0"`, a NAME, or `file:PATH` for a file of the repository, each as
often as `*COUNT` behind it says. `@OFFSET` puts what follows in the place of the bytes from there on, `..SIZE` cuts off
all behind that size, and `#` begins a comment. In WORDS, `"..."` is one word too, and `>PATH` is where output goes.
"""

import concurrent.futures
import glob
import os
import subprocess
import sys
import tempfile

from case_reader import TOP, Reader

SECONDS = 10

# Cases that are right, and answers to the first of them of which this has to be found wrong.
RIGHT = """abbrev = 01 11 00 03 08 00 00 00
info = 0b 00 00 00 05 00 01 08 00 00 00 00 01 "a\\0"
$ find a
0xc DW_TAG_compile_unit
$ copy
= info
$ show
~ 1 "<1> 0xc"
$ type 13
! refused NoEntry
? 1
% show
!^ error:
? 2
"""
FOUND = "$ find a\n0xc DW_TAG_compile_unit\n"
WRONG = {
    "$ find a\n? 0": ["output"],
    "$ find a\n= info": ["output"],
    FOUND + "| ": ["output"],
    '$ find a\n~ 2 "0xc"': ["output"],
    "$ find a\n^ 0xc": ["output"],
    FOUND + "! memory": ["error"],
    FOUND + "!^ e": ["error"],
    FOUND + "? 1": ["status"],
    "$ find a\n! memory\n? 1": ["output", "error", "status"],
}


def run(program, case):
    """The output, the error and the status of a case; no status where it doesn't end in time."""
    words = [program] + [word for word in case.words if not word.startswith(b">")]
    target = next((word[1:] for word in case.words if word.startswith(b">")), os.devnull)
    with tempfile.TemporaryDirectory() as folder, open(target, "wb") as elsewhere:
        for name, content in case.files.items():
            with open(os.path.join(folder, name), "wb") as file:
                file.write(content)
        output = subprocess.PIPE if target == os.devnull else elsewhere
        how = {"stdin": subprocess.DEVNULL, "stdout": output, "stderr": subprocess.PIPE, "timeout": SECONDS}
        try:
            ran = subprocess.run(words, cwd=folder, **how)
        except subprocess.TimeoutExpired:
            return b"", b"", None
        return ran.stdout or b"", ran.stderr, ran.returncode


def differences(answer, output, error, status):
    """What differs, what was wanted, and what came."""
    for count, start in answer.counts:
        found = sum(line.startswith(start) for line in output.split(b"\n"))
        if found != count:
            yield "output", f"{count} lines that begin with {shown(start)}", f"{found} in\n{shown(output)}"
    if not output.startswith(answer.output_begins):
        yield "output", f"at its front {shown(answer.output_begins)}", shown(output)
    if (answer.output or not (answer.counts or answer.output_begins)) and output != answer.output:
        yield "output", shown(answer.output), shown(output)
    if not error.startswith(answer.error_begins):
        yield "error", f"at its front {shown(answer.error_begins)}", shown(error)
    if (answer.error or not answer.error_begins) and error != answer.error:
        yield "error", shown(answer.error), shown(error)
    if status != answer.status:
        yield "status", answer.status, "none in time" if status is None else status


def shown(content):
    """The front of bytes as it is printed: as a text, or in hexadecimal."""
    text = content[:2000].decode("utf-8", "replace")
    return text if all(it.isprintable() for it in text.split("\n")) else content[:2000].hex(" ")


def judge(program, case):
    """The names of what differs, and a text that tells it."""
    found = list(differences(case.answer, *run(program, case)))
    told = "".join(f"  {what}, wanted: {wanted}\n  {what}, came:   {came}\n" for what, wanted, came in found)
    words = " ".join(os.fsdecode(word) for word in case.words)
    return [what for what, _, _ in found], f"{case.place}: dwarf {words}\n{told}"


def tests_itself(program):
    """Whether right cases pass and wrong ones fail, each in what is wrong."""
    front = "\n".join(RIGHT.split("\n")[:2])
    if any(judge(program, case)[0] for case in Reader("right", RIGHT).cases):
        return False
    wrong = {text: Reader("wrong", f"{front}\n{text}").cases[0] for text in WRONG}
    return all(judge(program, wrong[text])[0] == found for text, found in WRONG.items())


def main(program, *files):
    program = os.path.abspath(program)
    files = files or sorted(glob.glob(os.path.join(TOP, "cases", "*")))
    cases = []
    for name in files:
        with open(name, encoding="utf-8") as file:
            cases += Reader(os.path.relpath(name, TOP), file.read()).cases
    if not tests_itself(program):
        sys.exit("cases.py: a right case failed, or a wrong one passed")
    with concurrent.futures.ThreadPoolExecutor(os.cpu_count()) as pool:
        judged = list(pool.map(lambda case: judge(program, case), cases))
    failed = [told for found, told in judged if found]
    print(*failed, f"{len(cases) - len(failed)} passed, {len(failed)} failed", sep="\n")
    return 0 if cases and not failed else 1


if __name__ == "__main__":
    sys.exit(main(*sys.argv[1:]) if len(sys.argv) > 1 else __doc__)
