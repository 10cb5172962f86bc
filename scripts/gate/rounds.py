"""Rounds of wrong bodies: which go into one check, the check, and what is tried again."""

import contextlib
import functools
import os
import re
import signal

import clones
from edits import BAD, UNCLEAR, applied, texts_with
from functions import all_functions, put_text, text_of
from verdicts import NO_FUNCTION, UNREAD, judge, refusals

# What a body calls, with the type that it is called by, or passes by its name.
CALL = re.compile(r"(?:(\w+)::)?\b(\w+)(?:::<[^>]*>)?\(|(?<=[(,])\s*(?:\w+::)*(\w+)\s*(?=[,)])")

# A round takes as long as it takes to prove so many functions, besides those that it proves.
ROUND = 15

# So often the edits are dealt out to rounds.
PASSES = 4


# A proof that is a hole.
HOLE = """use {statement} as stated

pub {name}_spec : {{M : Type 1}} → stated.statement M
{name}_spec = ?
"""

# ---- planning


@functools.lru_cache(maxsize=None)
def below(crate):
    """By the names of the functions those that each calls, and that these call, as far as the text tells: it is planned
    by this, and nothing is judged."""
    bodies = {it.name: text_of(crate, path)[it.begin : it.end] for path, it in all_functions(crate)}
    named, calls = {}, {}
    for name in bodies:
        named.setdefault(name.rpartition("::")[2], []).append(name)
    for name, body in bodies.items():
        calls[name] = set()
        for owner, called, passed in CALL.findall(body):
            of_owner = f"{owner}::" if owner[:1].isupper() and owner != "Self" else ""
            so_named = named.get(called or passed, [])
            calls[name] |= {it for it in so_named if it.rpartition("::")[0].endswith(of_owner[:-2])}
    for middle in bodies:
        for its in calls.values():
            its |= calls[middle] if middle in its else set()
    return calls


def again(crate, edits, is_built=True):
    """The functions that a round proves though none of its edits changes them: those that a changed one or a copy
    calls, and where the library of the crate is built those of them alone that call one that is changed in its
    place."""
    changed = set().union(*(it.in_place() for it in edits))
    tried = [name for it in edits for name in it.copied or it.functions]
    called = set().union(*(below(crate).get(name, set()) for name in tried)) - changed
    return [it for it in called if not is_built or not changed.isdisjoint(below(crate)[it])]


def cost(crate, edits, is_built):
    """What a round costs besides the functions that its edits change, counted in functions that are proved."""
    return ROUND + len(again(crate, edits, is_built)) if edits else 0


def fits(crate, edits, edit):
    """Whether an edit may go into this round."""
    taken = set().union(*(it.keys() for it in edits))
    is_alone = edit.is_alone or any(it.is_alone for it in edits)
    in_place = [it for it in edits if not it.copied]
    if edits and (is_alone or not taken.isdisjoint(edit.keys())):
        return False
    return bool(edit.copied or not in_place or not applied(crate, [*in_place, edit])[1])


def plan(crate, edits, is_built=True):
    """Rounds of edits, each of other proofs: few of them, in which few functions are proved that no edit changes."""
    rounds = []
    # (where one was put, another place may cost less when all have one)
    for edit in edits * PASSES:
        rounds = [others for others in ([it for it in some if it is not edit] for some in rounds) if others]
        free = [*(it for it in rounds if fits(crate, it, edit)), []]
        # (one large round takes less time than the same bodies in two)
        best = min(free, key=lambda it: (cost(crate, [*it, edit], is_built) - cost(crate, it, is_built), -len(it)))
        rounds = [*(it for it in rounds if it is not best), [*best, edit]]
    return rounds


# ---- a check


def check(crate, edits):
    """What `rt check` says of the crate with these edits, and its status. The crate's files are then as they were."""
    texts, words = texts_with(crate, edits), [*(crate.words or [])]
    if crate.words is not None and not any(it.is_alone for it in edits):
        texts, words = holes(crate, edits) | texts, [*words, "--allow-holes"]
    before = {path: text_of(crate, path) if os.path.isfile(f"{crate.folder}/{path}") else None for path in texts}
    only = [word for name in sorted({name for it in edits for name in it.functions}) for word in ("--only", name)]
    try:
        put(crate, texts)
        ran = clones.run(["rt", "check", "--jobs", "1", *words, *only], crate.folder)
    finally:
        put(crate, before)
    crate.checks, crate.seconds = crate.checks + 1, crate.seconds + ran.seconds
    if crate.logs:
        put_text(f"{crate.logs}/{crate.name}-{crate.checks}.out", ran.said)
    # (rt adds hints behind the verdict)
    return "\n".join(line for line in ran.said.split("\n") if not line.startswith("rt: ")), ran.status


def holes(crate, edits):
    """Proof files with a hole in the place of the proof of each function that no edit changes in its place, and none
    of the files that are there: a check takes the function by its contract, as `--allow-holes` lets it. Cycles of
    calls have one proof for several functions, which stays."""
    changed, found = set().union(*(it.in_place() for it in edits)), {}
    for name in [it.name for _, it in all_functions(crate) if it.key == it.name and it.name not in changed]:
        folder, own = f"proofs/{name.replace('::', '/')}", name.rpartition("::")[2]
        theirs = (f"{folder}/{it}.antt" for it in ("Answers", "Invariants"))
        found |= {path: None for path in theirs if os.path.isfile(f"{crate.folder}/{path}")}
        statement = f"Rattle.{crate.name}.proofs.{name.replace('::', '.')}.Statement"
        found[f"{folder}/Proof.antt"] = HOLE.format(statement=statement, name=own)
    return found


def put(crate, texts):
    """Writes files, or where there is no text takes them away, and the folders that are empty then."""
    for path, text in texts.items():
        file = f"{crate.folder}/{path}"
        if text is None:
            with contextlib.suppress(OSError):
                os.remove(file)
                os.removedirs(os.path.dirname(file))
        else:
            os.makedirs(os.path.dirname(file), exist_ok=True)
            put_text(file, text)


# ---- a round


def try_round(crate, edits):
    """Tries a round, and again in smaller ones what it tells nothing clear of."""
    said, status = check(crate, edits)
    if status == -signal.SIGKILL and len(edits) == 1:
        # (most likely for memory)
        said, status = check(crate, edits)
    last, unread, unknown = said.rstrip().rpartition("\n")[2], UNREAD.search(said), NO_FUNCTION.search(said)
    if unknown and any(unknown[1] in it.functions for it in edits):
        again = without_unknown(edits, unknown[1])
    elif unread or not re.match("only=|logic=", last):
        # (it was killed, or an edit of the round doesn't compile)
        for edit in edits:
            edit.set(BAD if unread else UNCLEAR, f": {unread[0][:160] if unread else f'status {status}: {last[:160]}'}")
        again = halves(edits)
    else:
        again = judge_all(crate, edits, said)
    for fewer in again:
        if fewer and len(edits) > 1:
            try_round(crate, fewer)


def without_unknown(edits, name):
    """The round without the edits of a function that rattle doesn't know."""
    for edit in edits:
        if name in edit.functions:
            edit.set(BAD, ": rattle knows no such function, or several: name it by a line fn:")
    return [[it for it in edits if name not in it.functions]]


def halves(edits):
    return [edits[: len(edits) // 2], edits[len(edits) // 2 :]]


def judge_all(crate, edits, said):
    """Judges the edits of a round, and returns the rounds that have to follow."""
    refused = refusals(crate, said, texts_with(crate, edits))
    for edit in edits:
        judge(edit, said, refused)
    # Where a function that no edit changes has a refused goal of its own, an edit reaches further than its body.
    changed = set().union(*(it.keys() for it in edits))
    if {key for key, goals in refused.items() if any(goals.values())} - changed and len(edits) > 1:
        return halves(edits)
    return [[it] for it in edits if it.kind == UNCLEAR]
