#!/usr/bin/env python3
"""Changes functions at random, mutant by mutant, and lets the prover judge each: how many do the contracts let through?

Usage: scripts/explore/mutants.py NAME.. [--most N] [--side-by-side N] [--beside N] [--round N] [--function WORD]
       [--again] [--logs FOLDER] [--list]
       scripts/explore/mutants.py --draw N --seed S
       scripts/explore/mutants.py --report

A mutant is a function with one small change of its body: a comparison turned or off by one, another operator, a
constant one more or one less, a condition negated, two arms or two arguments exchanged, a statement left out, an
answer dropped, `None` for `Some`, `Ok` for `Err`, an early return of a default, a loop that leaves its first or last
turn out, a field or a call exchanged with its like. Of each function with a body --most mutants are taken, by default
eight, as many of each kind as there are places, in an order that a sum of their texts gives.

They are tried as wrong bodies are (scripts/gate/wrong_bodies.py): in copies, or where that can't be in their places,
many in one check. What doesn't compile doesn't count: all copies of a crate are put into its files at once and looked
at by `rt check --only ''`, which takes seconds, until no error is left. Then each is one of these:

    refused     a goal of the mutant's own is refused
    not judged  only its proof file names what is gone, or nothing is told of it
    accepted    it is proved

An early return that isn't judged is tried with its value at the end instead, behind the whole body, of which nothing
is gone then. What isn't judged then is tried without the answers of its proof file that name what is gone, and what
is refused without those that no longer fit, so that their goals are searched for: it is refused "by a search" where
no proof of one is found, and else "by an answer" alone. --again tries once more what wasn't judged.

A verdict is kept in mutants/NAME.tsv, by a sum of the mutant's text and one of what its crate and those below say,
besides proofs, comments, line breaks and bodies (which are the mutants'); what stands there isn't tried again. Of
each accepted one a line of mutants/lines.tsv says why (`ID reason`): it means the same, or costs time or memory
alone, or no clause can say it and a case or a test is named that catches it.

A refusal says that the proof goes through no more, and a search misses proofs that a person would find. So some are
read: --draw N prints as many of the refused ones, by --seed, and mutants/read.tsv has a line for each (`ID CRATE
breaks|same CASE`): a case in which the contract is broken, or why the answers are the same.

--report writes docs/mutants.md out of these three, and its status is 1 where a verdict that counts is stale, an
accepted one has no line, one that was drawn isn't read, or the README has other sums. The libraries are those of `rt
ci`, where it has passed over this tree. With --beside N it is run, and beside it N crates at one time are tried, each
as soon as it is proved (scripts/gate/proofs.py). Else the first check of a crate proves them. `.ci/run` doesn't run
this: a crate takes minutes to an hour, and all of them hours.
"""

import argparse
import collections
import contextlib
import csv
import dataclasses
import hashlib
import itertools
import math
import os
import re
import shutil
import sys
from concurrent.futures import ThreadPoolExecutor

sys.path.insert(1, os.path.join(os.path.dirname(os.path.dirname(os.path.abspath(__file__))), "gate"))

import clones  # noqa: E402
import proofs  # noqa: E402
import rt_ci  # noqa: E402
import wrong_bodies  # noqa: E402
from clones import Stop  # noqa: E402
from edits import ACCEPTED as NOT_REFUSED  # noqa: E402
from edits import BAD, REFUSED, UNCLEAR, WEAK, Edit, proofs_of_copy, texts_with  # noqa: E402
from functions import Judged, all_functions, behind, functions_in, parts_of, sum_of_statements, text_of  # noqa: E402
from rounds import put, try_round  # noqa: E402
from verdicts import UNREAD  # noqa: E402

FOLDER = f"{clones.TOP}/mutants"
LINES = f"{FOLDER}/lines.tsv"
READ = f"{FOLDER}/read.tsv"
NOT_CRATES = ("lines.tsv", "read.tsv")

# Those that are read: so many, drawn by this seed.
DRAWN, SEED = 150, "2026-12-01"
COLUMNS = ["id", "sum", "function", "kind", "change", "verdict", "goals"]
NOT_JUDGED, ACCEPTED, BROKEN = "not judged", "accepted", "doesn't compile"
VERDICTS = {REFUSED: REFUSED, NOT_REFUSED: ACCEPTED, BAD: BROKEN, WEAK: NOT_JUDGED, UNCLEAR: NOT_JUDGED}

# How often answers that name what is gone are left out: without one another may do so.
SEARCHES = 3
BY_SEARCH, BY_ANSWER = "by a search", "by an answer"

# What a line says of a mutant whose answers are the same.
SAME = re.compile(r"means the same|a faster way|costs (?:time|memory|time or memory) alone")

# What an error of the front end says of a place.
ERROR = re.compile(r"(?m)^(?:rattle: )?(?:\./)?(src/\S+?):(\d+):\d+: error")

# ---- the changes, each over a body in which texts and comments are blank

OPERATORS = {
    "comparison": {" < ": " <= ", " <= ": " < ", " > ": " >= ", " >= ": " > ", " == ": " != ", " != ": " == "},
    "operator": {
        **{" + ": " - ", " - ": " + ", " * ": " + ", " / ": " * ", " % ": " / ", " & ": " | ", " << ": " >> "},
        **{" >> ": " << ", " && ": " || ", " || ": " && ", " += ": " -= ", " -= ": " += "},
    },
}
LIKE = [
    ("first", "last"), ("split_first", "split_last"), ("min", "max"), ("is_some", "is_none"), ("is_ok", "is_err"),
    ("saturating_sub", "saturating_add"), ("wrapping_add", "wrapping_sub"), ("checked_add", "checked_sub"),
    ("take", "skip"), ("any", "all"), ("to_le_bytes", "to_be_bytes"), ("from_le_bytes", "from_be_bytes"),
    ("starts_with", "ends_with"), ("push", "pop"),
]
NUMBER = re.compile(r"(?<![\w.'])(0x[0-9a-fA-F_]+|\d[\d_]*)(?=(?:[iu](?:8|16|32|64|128|size))?(?![\w.]))")
DEFAULTS = [
    (r"bool", ["true", "false"]),
    (r"[iu](?:8|16|32|64|128|size)", ["0"]),
    (r"Option<.*>", ["None"]),
    (r"Result<\(\), .*>|io::Result<\(\)>|fmt::Result", ["Ok(())"]),
    (r"", [""]),
]


def blank(body):
    """The body with spaces in the place of texts and comments."""
    return re.sub(r'//[^\n]*|b?"(?:[^"\\]|\\.)*"|b?\'(?:[^\'\\]|\\.)\'', lambda it: " " * len(it[0]), body)


def replaced(body, start, end, new):
    return body[:start] + new + body[end:]


def of_operators(body, plain):
    for kind, table in OPERATORS.items():
        for old, new in table.items():
            for at in re.finditer(re.escape(old), plain):
                yield kind, replaced(body, at.start(), at.end(), new)


def of_numbers(body, plain):
    for at in NUMBER.finditer(plain):
        value = int(at[1].replace("_", ""), 0)
        for other in [value + 1, *([value - 1] if value else [])]:
            spelled = f"{other:#x}" if at[1].startswith("0x") else str(other)
            yield "constant", replaced(body, at.start(1), at.end(1), spelled)


def of_conditions(body, plain):
    for at in re.finditer(r"\b(?:if|while) (?!let\b)([^{};]*?) \{", plain):
        yield "condition", replaced(body, at.start(1), at.end(1), f"!({body[slice(*at.span(1))]})")
    for at in re.finditer(r"\b(true|false)\b", plain):
        yield "condition", replaced(body, *at.span(), "false" if at[1] == "true" else "true")


def of_arms(body, plain):
    arms = list(re.finditer(r"(?m)^( *)(\S.*? => )([^{\n]*)(,)$", plain))
    for one, other in itertools.pairwise(arms):
        first, second = body[slice(*one.span(3))], body[slice(*other.span(3))]
        if one[1] == other[1] and one.end() + 1 == other.start() and first != second:
            yield "arms", replaced(replaced(body, *other.span(3), first), *one.span(3), second)


def of_arguments(body, plain):
    for at in re.finditer(r"(?<!fn )\b\w+\(([^(){}]*)\)", plain):
        places = [it.span(1) for it in re.finditer(r"(?:^|,)\s*([^,]*[^,\s])", at[1])]
        for one, other in itertools.pairwise(places):
            (a, b), (c, d) = ((at.start(1) + it[0], at.start(1) + it[1]) for it in (one, other))
            if body[a:b] != body[c:d]:
                yield "arguments", body[:a] + body[c:d] + body[b:c] + body[a:b] + body[d:]


def of_statements(body, plain):
    for at in re.finditer(r"(?m)^ +(?!let |return\b|break|continue|use |ghost )(\S[^\n]*);$", plain):
        line = at[1]
        if all(line.count(a) == line.count(b) for a, b in ("()", "[]", "{}")):
            yield "statement", replaced(body, at.start(), at.end() + 1, "")
            if line.endswith("?"):
                yield "answer", replaced(body, *at.span(1), f"let _ = {body[slice(*at.span(1))][:-1]}")


def of_answers(body, plain):
    found = re.finditer(r"\bErr\([^(){}\n]*(?:\([^()]*\))?[^(){}\n]*\)(?! =>)", plain)
    errors = sorted({body[slice(*it.span())] for it in found})
    for at in re.finditer(r"(?<!let )\bSome\((?:[^()\n]|\([^()\n]*\))*\)(?!\)? =)", plain):
        yield "answer", replaced(body, *at.span(), "None")
    for at in re.finditer(r"\bOk\((?:[^()\n]|\([^()\n]*\))*\)(?!\)? =)", plain):
        for error in errors[:1]:
            yield "answer", replaced(body, *at.span(), error)
    for at in re.finditer(r"\bErr\((?:[^()\n]|\([^()\n]*\))*\)(?!\)? =)", plain):
        yield "answer", replaced(body, *at.span(), "Ok(())")


def of_loops(body, plain):
    for at in re.finditer(r"\bin 0\.\.(?!=)", plain):
        yield "loop", replaced(body, *at.span(), "in 1..")
    for at in re.finditer(r"\bin (\w+)\.\.([\w.]+(?:\(\))?) \{", plain):
        yield "loop", replaced(body, *at.span(2), f"({body[slice(*at.span(2))]}).saturating_sub(1)")
    for at in re.finditer(r"\.iter\(\)|\bin (?!\d)([\w.&]+(?:\(\))?)(?= \{)", plain):
        fewer = ".skip(1)" if at[0].startswith(".iter") else ".into_iter().skip(1)"
        yield "loop", replaced(body, at.end(), at.end(), fewer)


def of_likes(body, plain):
    for one, other in [*LIKE, *((b, a) for a, b in LIKE)]:
        for at in re.finditer(rf"(?<=[.:]){one}(?=\()", plain):
            yield "call", replaced(body, *at.span(), other)
    fields = sorted(set(re.findall(r"\bself\.(\w+)\b(?!\()", plain)))
    for at in re.finditer(r"\bself\.(\w+)\b(?!\()", plain):
        for other in fields:
            if other != at[1]:
                yield "field", replaced(body, *at.span(1), other)


# Errors by which a function may give up, by the types of these.
ERRORS = {"Failure": ["Failure::Memory", "Failure::Output"], "ToolError": ["ToolError::Memory"]}


def of_errors(body, answer):
    found = re.fullmatch(r"Result<.*, (\w+)(?:<'\w+>)?>", answer)
    for value in ERRORS.get(found[1], []) if found else []:
        yield "early return", f"\n    return Err({value});" + body


def of_defaults(body, answer):
    for of_type, values in DEFAULTS:
        if re.fullmatch(of_type, answer):
            for value in values:
                yield "early return", f"\n    return {value};".replace(" ;", ";") + body
            return


OF_KINDS = (
    of_operators, of_numbers, of_conditions, of_arms, of_arguments, of_statements, of_answers, of_loops, of_likes
)


def changes(body, answer):
    """The changes of a body, each with its kind."""
    plain = blank(body)
    for of_kind in OF_KINDS:
        yield from of_kind(body, plain)
    yield from of_defaults(body, answer)
    yield from of_errors(body, answer)


def told(old, new):
    """What a change is, in one line: the words that go and those that come in their place."""
    old, new = old.split(), new.split()
    front = len(list(itertools.takewhile(lambda it: it[0] == it[1], zip(old, new))))
    back = len(list(itertools.takewhile(lambda it: it[0] == it[1], zip(old[front:][::-1], new[front:][::-1]))))
    around = " ".join(old[max(0, front - 2) : front])
    gone, come = old[front : len(old) - back], new[front : len(new) - back]
    return f"{around} [{' '.join(gone)}] -> [{' '.join(come)}]".strip()[:160]


# ---- the mutants of a crate


def answer_of(text, function):
    """The type of a function's answer, as its signature spells it."""
    signature = re.split(r"\n *(?:requires|ensures|ghost|decreases|where)\b", text[function.named : function.begin])[0]
    return " ".join(signature.rpartition(") -> ")[2].split()).rstrip("{ ") if ") -> " in signature else ""


def mutants_of(crate, path, function, most):
    """Edits of one function, of each kind in turn."""
    text = text_of(crate, path)
    first, last = function.first, behind(text, function)
    body, by_kind, seen = text[function.begin : function.end], collections.defaultdict(list), set()
    for kind, new in changes(body, answer_of(text, function)):
        if new != body and new not in seen:
            seen.add(new)
            by_kind[kind].append(new)
    order = [sorted(it, key=lambda new: hashlib.sha256(new.encode()).hexdigest()) for it in by_kind.values()]
    kinds = list(by_kind)
    of_turns = [(kinds[n], it) for turn in itertools.zip_longest(*order) for n, it in enumerate(turn) if it is not None]
    for kind, new in of_turns[:most]:
        name = "m" + hashlib.sha256(f"{function.name}{new}".encode()).hexdigest()[:11]
        edit = Edit(crate, name, new)
        edit.pairs = [(path, text[first:last], text[first : function.begin] + new + text[function.end : last])]
        edit.mutated, edit.of_kind, edit.change = function.name, kind, told(body, new)
        value = new.removeprefix("\n    return ").partition(";")[0] if kind == "early return" else ""
        at_the_end = f"\n    let _answer = {{{body}}};\n    {value}\n"
        has_value = value.strip() not in ("", "return")
        edit.at_end = text[first : function.begin] + at_the_end + text[function.end : last] if has_value else ""
        if function.can_be_copied:
            edit.copied = {function.name: path}
            edit.within = {f"{function.name}_{name}"}
            edit.functions = {it: it for it in edit.within}
        else:
            edit.functions, edit.within = {function.name: function.key}, {function.key}
        yield edit


def all_mutants(crate, given):
    for path, function in all_functions(crate):
        if re.search(given.function, function.name) and function.name != "main" and not path.startswith("src/laws"):
            yield from mutants_of(crate, path, function, given.most)


def at_end(edit):
    """An early return with its value at the end instead, behind all that the function does."""
    other = Edit(edit.crate, f"{edit.name}e", edit.at_end)
    (path, old, _), = edit.pairs
    other.pairs = [(path, old, edit.at_end)]
    other.copied = edit.copied
    other.within = {f"{name}_{other.name}" for name in edit.copied} or edit.within
    other.functions = {it: it for it in other.within} if edit.copied else edit.functions
    return other


# ---- what compiles


def without_broken(crate, edits):
    """The mutants in copies without those that the front end refuses."""
    left = list(edits)
    while left:
        texts = texts_with(crate, left)
        said = looked_at(crate, texts)
        errors = {(path, int(line)) for path, line in ERROR.findall(said)}
        broken = set()
        for path in {path for path, _ in errors}:
            text = texts.get(path, "")
            for it in functions_in(crate, path, text):
                first, last = (text.count("\n", 0, at) + 1 for at in (it.first, it.end))
                if any(first <= line <= last + 1 for where, line in errors if where == path):
                    broken.add(it.name)
        gone = [it for it in left if not broken.isdisjoint(it.within)]
        if not gone:
            if UNREAD.search(said):
                raise Stop(f"{crate.name}: the front end refuses something else: {UNREAD.search(said)[0][:200]}")
            return left
        for it in gone:
            it.set(BAD)
        left = [it for it in left if not it.kind]
    return left


def looked_at(crate, texts):
    """What the front end says of a crate with these texts, which takes seconds."""
    before = {path: text_of(crate, path) if os.path.isfile(f"{crate.folder}/{path}") else None for path in texts}
    try:
        put(crate, texts)
        return clones.run(["rt", "check", "--jobs", "1", *(crate.words or []), "--only", ""], crate.folder).said
    finally:
        put(crate, before)


def in_rounds(edits, size):
    """Rounds: of copies so many, and of mutants in their places one of each function."""
    copies = [it for it in edits if it.copied]
    yield from (copies[at : at + size] for at in range(0, len(copies), size))
    by_function = collections.defaultdict(list)
    for it in edits:
        if not it.copied:
            by_function[it.mutated].append(it)
    for turn in itertools.zip_longest(*by_function.values()):
        yield [it for it in turn if it]


# ---- verdicts


def sum_of(crate, top):
    """A sum of what the verdicts of a crate stand on: what it and those below it say."""
    return sum_of_statements(top, [*crate.below, crate])[:16]


def kept(name):
    try:
        with open(f"{FOLDER}/{name}.tsv", encoding="utf-8", newline="") as file:
            return {it["id"]: it for it in csv.DictReader(file, delimiter="\t")}
    except FileNotFoundError:
        return {}


def keep(name, rows):
    os.makedirs(FOLDER, exist_ok=True)
    with open(f"{FOLDER}/{name}.tsv", "w", encoding="utf-8", newline="") as file:
        out = csv.DictWriter(file, COLUMNS, delimiter="\t", lineterminator="\n")
        out.writeheader()
        out.writerows(sorted(rows.values(), key=lambda it: (it["function"], it["id"])))


def row_of(edit, base):
    goals = edit.what.removeprefix(" at ").replace("\t", " ")[:300]
    return dict(zip(COLUMNS, [edit.name, base, edit.mutated, edit.of_kind, edit.change, VERDICTS[edit.kind], goals]))


def try_crate(name, room, given, words):
    """Tries the mutants of a crate in a clone, and keeps their verdicts as they come."""
    crate = clones.known(clones.crates_in(clones.TOP), name)
    base, rows = sum_of(crate, clones.TOP), kept(name)
    judged = Judged(name, crate.path(room), given.logs, words)
    edits = list(all_mutants(judged, given))
    # (those that another --most took stay as long as they aren't stale)
    ids = {it.name for it in all_mutants(judged, argparse.Namespace(function=given.function, most=10**6))}
    chosen = {it.name for it in edits}
    if not given.function:
        rows = {key: row for key, row in rows.items() if key in chosen or key in ids and row["sum"] == base}
    stale = [it for it in edits if rows.get(it.name, {}).get("sum") != base]
    left = stale + [it for it in edits if given.again and it not in stale and rows[it.name]["verdict"] == NOT_JUDGED]
    compiled = without_broken(judged, [it for it in left if it.copied]) + [it for it in left if not it.copied]
    rows |= {it.name: row_of(it, base) for it in left if it.kind}
    keep(name, rows)
    for some in in_rounds(compiled, given.round):
        try_round(judged, some)
        try_at_end(judged, [it for it in some if it.at_end and VERDICTS[it.kind] == NOT_JUDGED])
        try_by_search(judged, [it for it in some if VERDICTS[it.kind] == NOT_JUDGED])
        try_without_answers(judged, [it for it in some if VERDICTS[it.kind] == REFUSED and it.unfit])
        rows |= {it.name: row_of(it, base) for it in some}
        keep(name, rows)
        print(f"{name}: {counts(rows)}", flush=True)
    print(f"{name}: {counts(rows)}; {judged.checks} checks, {judged.seconds:.0f} s of processor", flush=True)


def try_apart(crate, room, given, libraries):
    """Tries the mutants of a crate in a clone of its own, which is gone then."""
    words = libraries.words(crate) if libraries else None
    with libraries.place() if libraries else contextlib.nullcontext():
        clones.clone(clones.TOP, room)
        if libraries:
            clones.name_no_libraries(room)
        try_crate(crate.name, room, given, words)
        shutil.rmtree(room)


def try_all(wanted, folder, given, libraries):
    """Tries the mutants of these crates, over these libraries where there are any."""
    with ThreadPoolExecutor(max(1, given.side_by_side)) as pool:
        rooms = [(crate, f"{folder}/{number}") for number, crate in enumerate(wanted)]
        runs = [pool.submit(try_apart, crate, room, given, libraries) for crate, room in rooms]
        try:
            for it in runs:
                it.result()
        except BaseException:
            clones.end_all()
            pool.shutdown(cancel_futures=True)
            raise


def try_at_end(judged, edits):
    """Tries these early returns with their values at the end, and takes over what is told of them so."""
    others = {it.name: at_end(it) for it in edits}
    if others:
        try_round(judged, list(others.values()))
    for it in edits:
        other = others[it.name]
        if VERDICTS[other.kind] in (REFUSED, ACCEPTED):
            it.kind, it.what, it.change = other.kind, other.what, f"{it.change} at the end"


def try_by_search(judged, edits):
    """Tries these mutants without the answers that name what is gone, and takes over what is told of them so."""
    left = [(it, it) for it in edits]
    for _ in range(SEARCHES):
        left = [(it, other) for it, other in ((it, searched(judged, last)) for it, last in left) if other]
        if left:
            try_round(judged, [other for _, other in left])
        for it, other in left:
            if VERDICTS[other.kind] in (REFUSED, ACCEPTED):
                it.kind, it.what = other.kind, f" at {BY_SEARCH}:{other.what.removeprefix(' at')}"
        left = [(it, other) for it, other in left if VERDICTS[other.kind] == NOT_JUDGED]


def try_without_answers(judged, edits):
    """Tries refused mutants without the answers that no longer fit, so that their goals are searched for, and takes
    over what is told of them so. Where nothing is told, they are refused by an answer alone."""
    found = [dataclasses.replace(it, gone=it.unfit) for it in edits]
    try_by_search(judged, found)
    for it, other in zip(edits, found):
        if (other.kind, other.what) == (it.kind, it.what):
            it.what = f" at {BY_ANSWER}:{it.what.removeprefix(' at')}"
        else:
            it.kind, it.what = other.kind, other.what


def searched(judged, edit):
    """The mutant with its proof files without the answers that name what is gone, and all that cites them; None where
    that leaves out nothing."""
    proofs = dict(edit.proofs)
    for name in edit.copied if not proofs else []:
        proofs |= proofs_of_copy(judged, edit, name)
    for key in edit.within if not edit.copied and not proofs else []:
        path = f"proofs/{key.replace('::', '/')}/Answers.antt"
        proofs |= {path: text_of(judged, path)} if os.path.isfile(f"{judged.folder}/{path}") else {}
    gone = set(edit.gone)
    fewer = {path: without(text, gone) if path.endswith("/Answers.antt") else text for path, text in proofs.items()}
    return dataclasses.replace(edit, proofs=fewer, gone=[], kind="", what="") if edit.gone and fewer != proofs else None


def without(text, gone):
    """A proof file without these answers, and without all that cites them."""
    head, *parts = parts_of(text)
    while True:
        kept = [it for it in parts if gone.isdisjoint(re.findall(r"[^\s(){}\[\],.:]+", it.text))]
        if len(kept) == len(parts):
            return "\n\n".join(it.text for it in [head, *kept])
        left_out = [it for it in parts if it not in kept]
        gone = gone | {name for it in left_out for name in re.findall(r"(?m)^(?:abbrev )?(?:pub )?(\S+) :", it.text)}
        parts = kept


def counts(rows):
    found = collections.Counter(it["verdict"] for it in rows.values())
    return ", ".join(f"{found[it]} {it}" for it in (REFUSED, NOT_JUDGED, ACCEPTED, BROKEN))


# ---- the report


def row_of_table(name, found):
    told = [found[it] for it in ("tried", REFUSED, BY_ANSWER, NOT_JUDGED, "same")] + [found[ACCEPTED] - found["same"]]
    return f"| {name} | {' | '.join(map(str, told))} |"


def table_of(path):
    """The lines of a table of words apart by tabs, without its head."""
    if not os.path.isfile(path):
        return []
    return [line.split("\t") for line in clones.text_of(path).splitlines() if line and not line.startswith("#")]


def of_crates():
    """The mutants that compile, by their crates, with which are stale."""
    crates, found = clones.crates_in(clones.TOP), {}
    files = [it for it in os.listdir(FOLDER) if it.endswith(".tsv") and it not in NOT_CRATES]
    for name in sorted(it.removesuffix(".tsv") for it in files):
        base = sum_of(crates[name], clones.TOP)
        found[name] = [it | {"stale": it["sum"] != base} for it in kept(name).values() if it["verdict"] != BROKEN]
    return found


def drawn(count, seed):
    """So many of the refused mutants, by a seed."""
    refused = [(name, it) for name, rows in of_crates().items() for it in rows if it["verdict"] == REFUSED]
    return sorted(refused, key=lambda it: hashlib.sha256(f"{seed} {it[0]} {it[1]['id']}".encode()).hexdigest())[:count]


def bounds(hits, count):
    """Between which shares that of all lies, at 95 % certainty, where so many of so many hit (Clopper and Pearson)."""

    def at_least(share, most):
        return sum(math.comb(count, n) * share**n * (1 - share) ** (count - n) for n in range(most, count + 1))

    def where(is_below):
        low, high = 0.0, 1.0
        for _ in range(60):
            middle = (low + high) / 2
            low, high = (middle, high) if is_below(middle) else (low, middle)
        return low

    least = where(lambda it: at_least(it, hits) < 0.025) if hits else 0.0
    most = where(lambda it: 1 - at_least(it, hits + 1) > 0.025) if hits < count else 1.0
    return least, most


def possible():
    """How many mutants there are in all, those that don't compile among them."""
    crates, most = clones.crates_in(clones.TOP), argparse.Namespace(function="", most=10**6)
    return sum(1 for name in of_crates() for _ in all_mutants(Judged(name, crates[name].path(clones.TOP)), most))


HEAD = """# Mutants

Small changes of functions, made by `scripts/explore/mutants.py`, and what the prover says of them. What doesn't compile
doesn't count. {possible:,} could be made; of each function at most eight are tried, {tried:,} of which compile.

*Refused* says that the proof no longer goes through. Where a goal has no answer in a proof file, or an answer that no
longer fits and was left out, no proof of it was found by a search; where that couldn't be told, the mutant is refused
*by an answer alone*. A search misses proofs that a person would find. So of the refused ones {count} were drawn
(`--draw {count} --seed {seed}`) and read one by one: **{breaks} break the contract**, with a case for each
(`mutants/read.tsv`), and {same} don't. So between {low:.1f} and {high:.1f} % of all refused ones break it, at 95 %
certainty.

*Accepted* are those of the last two columns: those of the first answer the same, though some cost time or memory, and
of the others the list below says why no clause refuses them, and which case or test should fail (where it was tried, it
says so).
"""

COLUMNS_OF_TABLE = "Crate | Tried | Refused | of these by an answer alone | Not judged | Same answers | Others accepted"


def report():
    """Writes docs/mutants.md, and returns how much is missing."""
    lines = {it[0]: it[1] for it in table_of(LINES)}
    read = {it[0]: it for it in table_of(READ)}
    sample = drawn(DRAWN, SEED)
    verdicts = collections.Counter(read[it["id"]][2] for _, it in sample if it["id"] in read)
    missing = len(sample) - sum(verdicts.values())
    if missing:
        print(f"{missing} of those that were drawn aren't read")
    table, total, accepted = [], collections.Counter(), []
    for name, rows in of_crates().items():
        stale = sum(it["stale"] for it in rows)
        if stale:
            print(f"{name}: {stale} verdicts are stale")
        missing += stale
        passed = [it | {"why": lines.get(it["id"], "")} for it in rows if it["verdict"] == ACCEPTED]
        found = collections.Counter(it["verdict"] for it in rows)
        found[BY_ANSWER] = sum(it["verdict"] == REFUSED and it["goals"].startswith(BY_ANSWER) for it in rows)
        found["tried"], found["same"] = len(rows), sum(bool(SAME.search(it["why"])) for it in passed)
        total += found
        accepted += [(name, it) for it in passed]
        table.append(row_of_table(f"`{name}`", found))
    table.append(row_of_table("all", total))
    low, high = bounds(verdicts["breaks"], sum(verdicts.values())) if verdicts else (0, 1)
    numbers = {"possible": possible(), "tried": total["tried"], "count": len(sample), "seed": SEED}
    numbers |= {"breaks": verdicts["breaks"], "same": verdicts["same"], "low": 100 * low, "high": 100 * high}
    out = [HEAD.format(**numbers), f"| {COLUMNS_OF_TABLE} |", "|---" + "|--:" * 6 + "|", *table]
    out += ["", "## Accepted", "", "| Function | Changes | Why they pass |", "|---|---|---|"]
    told = collections.defaultdict(list)
    for name, it in accepted:
        missing += not it["why"]
        told[f"{name}::{it['function']}", it["why"]].append("`" + it["change"].replace("|", "\\|") + "`")
    nothing = "**nothing is written of it**"
    out += [f"| `{it}` | {'; '.join(changes)} | {why or nothing} |" for (it, why), changes in told.items()]
    with open(f"{clones.TOP}/docs/mutants.md", "w", encoding="utf-8") as file:
        file.write("\n".join(out) + "\n")
    own = [total["tried"], total[REFUSED], total[NOT_JUDGED], total["same"], total[ACCEPTED] - total["same"]]
    row = f"| {' | '.join(f'{it:,}' for it in own)} |"
    if row not in clones.text_of(f"{clones.TOP}/README.md").split("\n"):
        print(f"README.md doesn't have the sums: {row}")
        missing += 1
    print(f"{len(accepted)} passed, {missing} failed")
    return missing


def main():
    ask = argparse.ArgumentParser(description=__doc__, formatter_class=argparse.RawDescriptionHelpFormatter)
    ask.add_argument("names", nargs="*", metavar="NAME")
    ask.add_argument("--most", type=int, default=8, metavar="N", help="how many mutants of a function at most")
    ask.add_argument("--round", type=int, default=60, metavar="N", help="how many in one check")
    ask.add_argument("--side-by-side", type=int, default=1, metavar="N", help="how many crates at one time")
    ask.add_argument("--beside", type=int, default=0, metavar="N", help="run `rt ci`, and beside it N crates at a time")
    ask.add_argument("--function", default="", metavar="WORD", help="functions alone in whose name this is found")
    ask.add_argument("--again", action="store_true", help="try what wasn't judged once more")
    ask.add_argument("--logs", default="")
    ask.add_argument("--list", action="store_true", help="print the mutants, and try none")
    ask.add_argument("--draw", type=int, default=0, metavar="N", help="print so many of the refused ones")
    ask.add_argument("--seed", default=SEED, help="by which they are drawn")
    ask.add_argument("--report", action="store_true", help="write docs/mutants.md")
    given = ask.parse_args()
    if given.report:
        return 1 if report() else 0
    if given.draw:
        for name, it in drawn(given.draw, given.seed):
            print(f"{it['id']}\t{name}\t{it['function']}\t{it['kind']}\t{it['change']}\t{it['goals']}")
        return 0
    crates = clones.crates_in(clones.TOP)
    wanted = [clones.known(crates, it) for it in given.names]
    if given.list:
        for crate in wanted:
            for it in all_mutants(Judged(crate.name, crate.path(clones.TOP)), given):
                print(f"{it.name} {crate.name}::{it.mutated}: {it.of_kind}: {it.change}")
        return 0
    if given.logs:
        os.makedirs(given.logs, exist_ok=True)
    is_beside = given.beside and not rt_ci.has_passed()
    beside = proofs.Beside(["--processors", "3"], given.beside) if is_beside else None
    try:
        libraries = beside or (wrong_bodies.Left() if rt_ci.has_passed() else None)
        with clones.folder_for_clones() as folder:
            try_all(wanted, folder, given, libraries)
    finally:
        if beside:
            beside.end()
    return 0


if __name__ == "__main__":
    clones.ended_well("mutants.py", main)
