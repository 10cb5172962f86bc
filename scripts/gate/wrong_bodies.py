#!/usr/bin/env python3
"""Tries wrong bodies in rounds, many of them in one check: the prover has to refuse each.

Usage: scripts/gate/wrong_bodies.py [NAME..] [--must-fail] [--edit EDIT] [--side-by-side N] [--anew] [--cache FOLDER]
       [--logs FOLDER] [--unchanged]

A wrong body is a file crates/NAME/wrong/*.edit (with --must-fail crates/NAME/must-fail/*.edit too): lines `file:
src/a.rt`, and then pairs `old: TEXT` and `new: TEXT`, where TEXT stands in that file exactly once. Where no body
holds the text, a line `fn: a::T::f ..` names what is checked, all whose proofs the edit can change; without one it is
tried alone, over the whole crate. Of those in wrong/ each has two lines besides:

    clause: NAME    the clause of the function that it breaks (`returns`, where it has one clause without a name)
    shows: CASE     a case in which that clause is false: the input, what the wrong body answers, what the clause wants

A goal that isn't proved shows little by itself: its proof may just no longer fit. So the case is what counts, and a
reader has to find it right. What can be seen by the text is refused (BAD EDIT): an edit without these lines, a clause
that the function hasn't, one that says nothing of the only outcome that the new text makes, as one that begins with
`IfOk` of an `Err` (scripts/gate/clauses.py). The goal that is refused has to be one of that clause, where the function
returns. Where it is another, as a loop's invariant, a line `goal: GOAL: WHY` names it and says why the clause is
broken.

The goals of a function stand on the contracts of what it calls, and not on the bodies. So a wrong body stands beside
the right one, in a copy of the function that has its contract, its attributes and its proof files, and a name of its
own: nothing calls the copy, so nothing else is proved anew. Where the edit names a clause, the copy promises that
clause alone, and those whose proofs its proof file needs for it: a goal is refused whether or not others stand beside
it, and each costs its proof. The copy of a function of a cycle of calls is in no cycle: it calls those that are, by
their contracts, and of the proof files of the cycle it has what is of that function. What can't be copied (a function
of a trait, or one that calls itself, and what stands in no body) is changed in its place, at most one body a function
in a round. One `rt check` tells what is refused of each function of a round. An edit passes where a goal of its own
function is refused. It fails where the function is proved (NOT REFUSED); where only a callee is refused, or nothing
is told (NOT TRIED); where its proof file just names what the edit took away, or another goal than `clause:` is
refused (WEAK); and where it can't be applied or compiled (BAD EDIT). A line is printed for each, with the function
and the goals.

The rounds work in clones of the tree at hand (scripts/gate/clones.py), and never in the tree itself. Where `rt ci` has
passed over this very tree (scripts/gate/rt_ci.py), they stand on the libraries that it left there, and so do the
functions that no edit of a round changes: a hole stands for the proof of each, so that a check takes it by its contract
(`--allow-holes`). Else the first check of a crate proves the libraries below it once more. The clones are gone at the
end.

With --unchanged each function that would be changed in a copy is copied as it is, once for each clause that is asked
of it, and passes where the copy is proved. So it shows that a copy is refused for its body alone. Its verdicts are
kept in copies/NAME.tsv, by a sum of the copy's text and its proof files, and an edit whose copy has none there fails
(NOT COMPARED).

What passed is kept by a sum of all that it stands on (the crate's text, and what the crates below say, but not their
bodies and proofs), and not tried again without --anew. The last line is `N passed, M failed`, and the status is 0
where none failed and some passed, else 1.
"""

import argparse
import contextlib
import hashlib
import os
import queue
import shutil
import tempfile
from concurrent.futures import ThreadPoolExecutor
from dataclasses import dataclass

import clauses
import clones
import kept
import rt_ci
import verdicts
from clones import Stop
from edits import ACCEPTED, BAD, REFUSED, WEAK, read, sum_of_copy
from functions import Judged, put_text, sum_of_statements
from rounds import plan, put, try_round

# The modules on which a verdict stands.
JUDGES = ("wrong_bodies", "clauses", "clones", "edits", "functions", "rounds", "verdicts")

# ---- copies as they are

# Where it is kept that the prover accepts copies of functions as they are.
COPIES = f"{clones.TOP}/copies"


def compared(name):
    """The copies of a crate that were proved: by the function and the clause that was asked a sum of what they were."""
    path = f"{COPIES}/{name}.tsv"
    lines = clones.text_of(path).splitlines() if os.path.isfile(path) else []
    return {tuple(line.split("\t")[:2]): line.split("\t")[2] for line in lines}


def keep_compared(name, rows):
    os.makedirs(COPIES, exist_ok=True)
    lines = (f"{function}\t{clause}\t{told}\n" for (function, clause), told in sorted(rows.items()))
    put_text(f"{COPIES}/{name}.tsv", "".join(lines))


# ---- a crate


@dataclass
class Work:
    """The wrong bodies of a crate, and where their verdicts are kept."""

    crate: clones.Crate
    files: list
    edits: list
    cache: str
    # A sum of all that a verdict stands on, but for the edit: the crate, what those below it say, the kit, and the
    # scripts.
    base: str
    # Whether it is functions as they are that are copied.
    keeps_copies: bool = False

    def sum_of(self, edit):
        return hashlib.sha256((self.base + edit.tried()).encode()).hexdigest()

    def to_try(self):
        return [it for it in self.edits if not it.kind]

    def compare(self):
        """Sets which edits have copies that are known to be proved as they are."""
        rows = compared(self.crate.name)
        for edit in [it for it in self.edits if not it.kind]:
            edit.is_compared = all(rows.get((it, edit.clause)) == sum_of_copy(edit, it) for it in edit.copied)

    def take_kept(self):
        for edit in [it for it in self.edits if self.cache and not it.kind]:
            what = kept.kept(self.cache, self.sum_of(edit))
            if what is not None:
                edit.set(REFUSED, what)

    def keep(self, edits):
        copied = [(it, name) for it in edits if self.keeps_copies and it.kind == ACCEPTED for name in it.copied]
        proved = {(name, it.clause): sum_of_copy(it, name) for it, name in copied}
        if proved:
            keep_compared(self.crate.name, compared(self.crate.name) | proved)
        for edit in edits:
            if self.cache and edit.kind == REFUSED:
                kept.keep(self.cache, self.sum_of(edit), edit.what)


def try_crate(work, clone, logs, words):
    """Tries the edits of a crate that aren't judged yet, in a clone. `words` tell a check of the libraries below it;
    where there are none, it proves them first."""
    judged = Judged(work.crate.name, work.crate.path(clone), logs, words)
    for edit in work.edits:
        edit.crate = judged
    rounds = plan(judged, work.to_try(), words is not None)
    for some in rounds:
        try_round(judged, some)
        work.keep(some)
    spent = f"{judged.name}: {len(rounds)} rounds, {judged.checks} checks, {judged.seconds:.0f} s of processor\n"
    print("\n".join([*map(str, work.edits), spent]), end="", flush=True)


# A crate of this script's own: its functions, by their bodies, and the proof file of the one with a loop.
OWN = {
    "low": "n",
    "high": "low(n)",
    "highest": "high(n)",
    "apart": "let m = n; m",
    "counted": "let mut m = 0; while m < n { m += 1; } m",
}

OWN_CHECKED = """
pub fn checked(n: u8) -> Result<u8, u8>
    ensures ok { IfOk result (λ x. x ≡ n) }
    ensures small { OnOk result (n ≤ 9) }
    ensures err { OnErr result (9 < n) }
{
    if n > 9 { return Err(n); }
    Ok(n)
}
"""

OWN_LOOP = """use Rattle.std.proofs.Common.{◌≤◌, ◌-◌}
use Rattle.own.proofs.counted.Given as goal

abbrev pub invariant-loop-m : goal.invariant-loop-m
invariant-loop-m l = l.m ≤ l.n

abbrev pub decreases-loop-m : goal.decreases-loop-m
decreases-loop-m l = l.n - l.m
"""

SAID = "clause: returns\nshows: n = 0: made up; made up\n"

BEYOND = "old: while m < n\nnew: while m < n.saturating_add(1)\nclause: returns\nshows: n = 0: 1; the answer is n\n"
UNDONE = "old: return Err(n);\nnew: return Ok(n);\n"

# Its edits, each with what has to come of it: a wrong body in a copy and one in its place, a body that means the same
# and calls a wrong one, and two copies that mean the same, one of them with a proof file. Then those that are refused
# by what they say: one without its two lines, one whose clause says nothing of the outcome that it makes, one of a
# clause that the function hasn't, one at another goal than that of its clause, and the same with that goal.
OWN_EDITS = {
    "low": (f"old:     n\nnew:     1\n{SAID}", REFUSED),
    "low_in_place": (f"fn: low\nold:     n\nnew:     2\n{SAID}", REFUSED),
    "high_in_place": (f"fn: high\nold: low(n)\nnew: let n = low(n); n\n{SAID}", ACCEPTED),
    "apart": (f"old: let m = n; m\nnew: n\n{SAID}", ACCEPTED),
    "counted": (f"old: m += 1;\nnew: m = m + 1;\n{SAID}", ACCEPTED),
    "says_nothing": ("old: if n > 9\nnew: if n > 8\nclause: err\n", BAD),
    "says_nothing_of_it": (f"{UNDONE}clause: err\nshows: n = 10: Ok(10); made up\n", BAD),
    "has_no_such_clause": (f"{UNDONE}clause: found\nshows: n = 10: Ok(10); made up\n", BAD),
    "undone": (f"{UNDONE}clause: small\nshows: n = 10: Ok(10); n is at most 9\n", REFUSED),
    "beyond": (BEYOND, WEAK),
    "beyond_too": (f"{BEYOND}goal: loop-m-preserved: the loop goes on past n\n", REFUSED),
}


def fails_itself(folder):
    """Tries the crate of this script's own. Returns what went otherwise than it has to."""
    text = "//! Tried.\n#![tactic(auto)]\n\n"
    text += "ghost use Rattle.std.specs.Prelude.{◌≡◌, ◌<◌, ◌≤◌, IfOk, OnOk, OnErr};\n"
    for name, body in OWN.items():
        text += f"\npub fn {name}(n: u8) -> u8\n    ensures {{ result ≡ n }}\n{{\n    {body}\n}}\n"
    text += OWN_CHECKED
    crate = Judged("own", f"{folder}/crates/own")
    put(crate, {"../../crates.txt": "own:\n", "src/lib.rt": text, "proofs/counted/Invariants.antt": OWN_LOOP})
    edits = []
    os.mkdir(f"{folder}/wrong")
    for name, (lines, _) in OWN_EDITS.items():
        put_text(f"{folder}/wrong/{name}.edit", f"file: src/lib.rt\n{lines}")
        edits.append(read(crate, f"{folder}/wrong/{name}.edit"))
    for some in plan(crate, [it for it in edits if not it.kind]):
        try_round(crate, some)
    if clauses.fails_itself() or verdicts.fails_itself():
        return "\n".join([*clauses.fails_itself(), *verdicts.fails_itself()])
    return "" if [it.kind for it in edits] == [kind for _, kind in OWN_EDITS.values()] else "\n".join(map(str, edits))


# ---- all of them


def asked(words=None):
    ask = argparse.ArgumentParser(description=__doc__, formatter_class=argparse.RawDescriptionHelpFormatter)
    ask.add_argument("names", nargs="*", metavar="NAME", help="the crates, or else all")
    ask.add_argument("--must-fail", action="store_true", help="try the edits of must-fail/ too")
    ask.add_argument("--edit", action="append", default=[], help="try this edit, by its name (repeatable)")
    side_by_side = {"type": int, "default": len(os.sched_getaffinity(0)), "metavar": "N"}
    ask.add_argument("--side-by-side", **side_by_side, help="how many crates at one time")
    ask.add_argument("--anew", action="store_true", help="try what passed before, too")
    ask.add_argument("--cache", default=kept.folder_of("wrong_bodies"))
    ask.add_argument("--logs", default="", help="a folder for what each check says")
    ask.add_argument("--unchanged", action="store_true", help="copy the functions as they are, which has to be proved")
    return ask.parse_args(words)


def work_in(top, given):
    """The crates that have wrong bodies, each with these."""
    crates, work, found = clones.crates_in(top), [], set()
    scripts = "".join(clones.text_of(f"{clones.TOP}/scripts/gate/{it}.py") for it in JUDGES)
    for name in given.names or list(crates):
        crate = clones.known(crates, name)
        folders = [f"{crate.path(top)}/{it}" for it in ("wrong", "must-fail")[: 1 + given.must_fail]]
        files = [f"{at}/{it}" for at in folders if os.path.isdir(at) for it in sorted(os.listdir(at))]
        files = [it for it in files if it.endswith(".edit")]
        files = [it for it in files if not given.edit or os.path.basename(it).removesuffix(".edit") in given.edit]
        found |= {os.path.basename(it).removesuffix(".edit") for it in files}
        if files:
            edits = [read(Judged(name, crate.path(top)), it) for it in files]
            edits = unchanged(edits, given.anew) if given.unchanged else edits
            base = clones.sum_of_files(top, crate) + sum_of_statements(top, crate.below) + scripts
            work.append(Work(crate, files, edits, given.cache, base, given.unchanged))
    for name in given.edit:
        if name not in found:
            raise Stop(f"there is no edit {name}")
    return work


def unchanged(edits, is_anew):
    """Of the edits that change copies one for each function and clause, which then changes nothing. Those that were
    proved before pass, unless all are tried anew."""
    found, seen = [], set()
    for edit in edits:
        asked = {(it, edit.clause) for it in edit.copied}
        if not edit.kind and asked - seen:
            seen |= asked
            rows = {} if is_anew else compared(edit.crate.name)
            edit.pairs = []
            is_kept = all(rows.get((it, edit.clause)) == sum_of_copy(edit, it) for it in edit.copied)
            edit.kind = ACCEPTED if is_kept else ""
            found.append(edit)
    return found


class Left:
    """The libraries that `rt ci` left where it has passed over this tree. They are there for every crate at once."""

    def words(self, crate):
        """The words by which a check is told of the libraries below a crate."""
        return clones.words_for(clones.TOP, crate.below)

    def place(self):
        """Within this a crate is tried: as many at one time as may be."""
        return contextlib.nullcontext()


def try_all(work, folder, given, libraries):
    """Tries the edits of all these crates in clones in this folder, over these libraries or, where there are none, over
    those that the first check of each crate proves. Returns what went wrong with the script itself."""
    rooms = queue.Queue()
    for number in range(max(1, given.side_by_side)):
        clones.clone(clones.TOP, f"{folder}/{number}")
        if libraries:
            clones.name_no_libraries(f"{folder}/{number}")
        rooms.put(f"{folder}/{number}")

    def try_one(one):
        words = libraries.words(one.crate) if libraries else None
        with libraries.place() if libraries else contextlib.nullcontext():
            room = rooms.get()
            try:
                try_crate(one, room, given.logs, words)
            finally:
                shutil.rmtree(f"{one.crate.path(room)}/out", ignore_errors=True)
                rooms.put(room)

    at_once = max(1, given.side_by_side)
    with tempfile.TemporaryDirectory(prefix="wrong-bodies-self-") as own, ThreadPoolExecutor(at_once) as pool:
        runs = [pool.submit(try_one, one) for one in work]
        runs.append(pool.submit(fails_itself, own))
        try:
            return [it.result() for it in runs][-1]
        except BaseException:
            clones.end_all()
            pool.shutdown(cancel_futures=True)
            raise


def judged_in(given):
    """The crates whose wrong bodies are judged, with what is known of them without a check."""
    for folder in filter(None, (given.cache, given.logs)):
        os.makedirs(folder, exist_ok=True)
    work = work_in(clones.TOP, given)
    for one in work:
        if not given.unchanged:
            one.compare()
        if not given.anew:
            one.take_kept()
    return work


def told_of(work, wrong, right):
    """Tells what the self-test said, where it failed, and returns how many edits passed and how much failed."""
    kinds = [edit.verdict() for one in work for edit in one.edits]
    if wrong:
        print(f"the self-test failed, so nothing of this counts:\n{wrong}")
    return kinds.count(right), len(kinds) - kinds.count(right) + bool(wrong or not kinds)


def main():
    given = asked()
    given.cache, right = ("", ACCEPTED) if given.unchanged else (given.cache, REFUSED)
    work = judged_in(given)
    pending = [it for it in work if it.to_try()]
    for one in work:
        if one not in pending:
            print("\n".join(map(str, one.edits)))
    wrong = ""
    if pending:
        # (those of many edits come first, so that the last ones end together)
        pending.sort(key=lambda it: -len(it.to_try()))
        with clones.folder_for_clones() as folder:
            wrong = try_all(pending, folder, given, Left() if rt_ci.has_passed() else None)
    passed, failed = told_of(work, wrong, right)
    print(f"{passed} passed, {failed} failed")
    return 1 if failed else 0


if __name__ == "__main__":
    clones.ended_well("wrong_bodies.py", main)
