"""Wrong bodies: reading them, what can be seen by their text, and the texts that a check of them reads."""

import dataclasses
import functools
import hashlib
import os
import re
from dataclasses import dataclass, field

import clauses
from clauses import clauses_in
from functions import CYCLE, ITEM, Judged, all_functions, behind, functions_in, parts_of, proof_of, text_of

# Stands for the clauses that a copy isn't asked for: beside it a goal of the one that is goes by the name of its
# clause.
NOTHING = "    ensures nothing { Prim.Unit {0} }\n"

REFUSED, WEAK, ACCEPTED, BAD, UNCLEAR, ALONE = "refused", "WEAK", "NOT REFUSED", "BAD EDIT", "NOT TRIED", "NOT COMPARED"


@dataclass
class Edit:
    """A wrong body, and what has come of it."""

    crate: Judged
    name: str
    text: str
    pairs: list = field(default_factory=list)
    clause: str = ""
    shows: str = ""
    # A goal besides those of the clause, and why the clause is broken where it is refused.
    goal: str = ""
    why: str = ""
    # The functions that it names itself.
    named: list = field(default_factory=list)
    # What is checked: the keys of the proofs, by the names of the functions.
    functions: dict = field(default_factory=dict)
    # The keys of the functions in which it stands, as this script names them: rattle's names, in `functions`, may be
    # others.
    within: set = field(default_factory=set)
    # The functions that it changes in copies, by their names, each with its file.
    copied: dict = field(default_factory=dict)
    # Proof files that are put in the place of those that are there, by their paths.
    proofs: dict = field(default_factory=dict)
    # What its proof files have that only names what it took away, by the names there, and the goals whose answers
    # there no longer fit.
    gone: list = field(default_factory=list)
    unfit: list = field(default_factory=list)
    is_alone: bool = False
    # Whether its copies are known to be proved as they are.
    is_compared: bool = True
    kind: str = ""
    what: str = ""

    def __str__(self):
        changed = " ".join(self.copied or self.functions) or "the crate"
        return f"{self.crate.name} {self.name}: {changed}: {self.verdict()}{self.what}"

    def verdict(self):
        return self.kind if self.is_compared or self.kind != REFUSED else ALONE

    def set(self, kind, what=""):
        self.kind, self.what = kind, what

    def keys(self):
        """The proofs of what it changes."""
        return self.within.union(self.functions.values())

    def tried(self):
        """What a verdict of it stands on."""
        return repr((self.name, self.pairs, self.named, self.clause, self.goal))

    def in_place(self):
        """The functions that it changes where they stand."""
        return set() if self.copied else set(self.functions)


# ---- reading


def read(crate, file):
    """An edit, with the functions that it changes."""
    with open(file, encoding="utf-8") as opened:
        edit = Edit(crate, os.path.basename(file).removesuffix(".edit"), opened.read())
    path, old = "", ""
    for line in edit.text.split("\n"):
        word, _, rest = line.partition(":")
        rest = rest.removeprefix(" ")
        if word == "file":
            path, old = os.path.normpath(rest.strip()), ""
        elif word == "old":
            old = rest
        elif word == "new":
            edit.pairs.append((path, old, rest))
        elif word == "fn":
            edit.named += rest.split()
        elif word == "clause":
            edit.clause = rest.strip()
        elif word == "shows":
            edit.shows = rest.strip()
        elif word == "goal":
            edit.goal, _, edit.why = (it.strip() for it in rest.partition(":"))
    edit.what = applied(crate, [edit])[1]
    if not edit.what:
        find_functions(edit, edit.named)
        edit.what = lacks(edit) if os.path.basename(os.path.dirname(file)) == "wrong" else ""
    edit.kind = BAD if edit.what else ""
    return edit


def find_functions(edit, named):
    """Sets the functions that an edit changes, or those that it names."""
    crate, copied = edit.crate, {}
    for count, (path, old, _) in enumerate(edit.pairs):
        text = applied(crate, [edit], count)[0].get(path) or text_of(crate, path)
        at = text.find(old)
        there = functions_in(crate, path, text) if path.endswith(".rt") else []
        around = [it for it in there if it.begin <= at and at + len(old) <= it.end]
        edit.functions |= {it.name: it.key for it in around[-1:]}
        edit.within |= {it.key for it in around[-1:]}
        edit.is_alone = edit.is_alone or not around
        copied |= {it.name: path for it in around[-1:] if it.can_be_copied}
    if not named and not edit.is_alone and copied.keys() == edit.functions.keys():
        edit.copied = copied
        edit.within = {f"{it}_{edit.name}" for it in copied}
        edit.functions = {it: it for it in edit.within}
    elif named:
        keys = {it.name: it.key for _, it in all_functions(crate)}
        edit.functions = {it: keys.get(it, it) for it in named}
        edit.is_alone = False
    elif edit.is_alone:
        edit.functions = {}


def applied(crate, edits, count=None):
    """The texts of the files that the edits change, or so many pairs of them, and why they can't be applied."""
    texts = {}
    for path, old, new in [pair for edit in edits for pair in edit.pairs][:count]:
        if not path.startswith(("src/", "specs/", "proofs/")) or not os.path.isfile(f"{crate.folder}/{path}"):
            return {}, f": there is no file {path}"
        text = texts.get(path) or text_of(crate, path)
        if not old or old == new or text.count(old) != 1:
            return {}, f": an old: text is in {path} {text.count(old)} times and not once, or nothing is changed"
        texts[path] = text.replace(old, new)
    return texts, "" if texts else ": it has no old: and new: pair"


# ---- what can be seen by the text


def lacks(edit):
    """What can be seen by the text to be wrong with what an edit says of itself."""
    if not edit.clause or not edit.shows:
        return f": it has no line {'shows' if edit.clause else 'clause'}:"
    if edit.goal and not edit.why:
        return ": its line goal: doesn't say why the clause is broken where that goal is refused"
    others = sorted(reached_by(edit) - set(edit.named)) if edit.named else []
    if others:
        return f": it changes what {' '.join(others)} stands on, and doesn't name that"
    contracts = [contract_of(edit.crate, it) for it in edit.copied or edit.functions]
    said = [it[edit.clause] for it in contracts if it and edit.clause in it]
    if contracts and not said and None not in contracts:
        return f": {' '.join(edit.copied or edit.functions)} has no clause {edit.clause}"
    olds, news = (" ".join(it) for it in zip(*(pair[1:] for pair in edit.pairs)))
    if any(clauses.says_nothing_of(it, olds, news) for it in said):
        return f": the clause {edit.clause} says nothing of the outcome that it makes"
    return ""


def has_one_clause(edit):
    """Whether a function that an edit changes has no clause but one, or its trait has its clauses: then goals don't
    tell of which clause they are."""
    contracts = [contract_of(edit.crate, it) for it in edit.copied or edit.functions]
    return any(it is None or len(it) == 1 for it in contracts)


def reached_by(edit):
    """The functions of its crate that speak of a constant or a macro that an edit changes."""
    found = set()
    for path, old, _ in edit.pairs:
        text = text_of(edit.crate, path)
        items = list(ITEM.finditer(text, 0, max(0, text.find(old)) + 1))
        if items and items[-1][1]:
            speaks = re.compile(rf"\b{items[-1][2]}\b")
            every = all_functions(edit.crate)
            found |= {it.name for at, it in every if speaks.search(text_of(edit.crate, at)[it.first : it.end])}
    return found


def contract_of(crate, name):
    """The clauses of a function by their names; None where its text doesn't tell them, as where a trait has them."""
    path, its = next(((path, it) for path, it in all_functions(crate) if it.name == name), ("", None))
    if not its or its.is_of_trait:
        return None
    return {it.name: it.text for it in clauses_in(text_of(crate, path)[its.named : its.begin])}


# ---- copies


def texts_with(crate, edits):
    """The texts of all files that a round changes or makes: what its edits change in place, and in copies."""
    texts = applied(crate, [it for it in edits if not it.copied])[0]
    copies = {}
    for edit in edits:
        for name, path in edit.copied.items():
            copies.setdefault(path, {}).setdefault(name, []).append(copy_of(crate, edit, path, name))
            texts |= proofs_of_copy(crate, edit, name)
    for path, of_file in copies.items():
        text = texts.get(path) or text_of(crate, path)
        for it in reversed(functions_in(crate, path, text)):
            at = behind(text, it)
            text = text[:at] + "".join(f"\n{one}" for one in of_file.get(it.name, [])) + text[at:]
        texts[path] = text
    for edit in edits:
        texts |= edit.proofs
    return texts


def copy_of(crate, edit, path, name):
    """The text of a function as the edit changes it, under a name of its own, with the clauses that are asked there."""
    text = applied(crate, [edit])[0].get(path) or text_of(crate, path)
    it = next(it for it in functions_in(crate, path, text) if it.name == name)
    head, asked = text[it.named : it.begin], clauses_asked(crate, edit.clause, path, name)
    gone = [one for one in clauses_in(head) if one.name not in asked]
    for one in reversed(gone):
        head = head[: one.begin] + (NOTHING if one is gone[0] else "") + head[one.end :]
    return f"{CYCLE.sub('', text[it.first : it.named])}_{edit.name}{head}{text[it.begin : behind(text, it)]}"


@functools.lru_cache(maxsize=None)
def clauses_asked(crate, clause, path, name):
    """The clauses of a function that a copy is asked to keep: that at which the edit has to be refused, and those
    whose proofs the rest of its proof file stands on; all of them where the edit names none. The others cost their
    proofs, and say nothing of the edit."""
    text = text_of(crate, path)
    its = next(it for it in functions_in(crate, path, text) if it.name == name)
    every = {it.name for it in clauses_in(text[its.named : its.begin])}
    if its.cycle or clause not in every:
        return every
    asked, parts = {clause}, parts_of(proof_of(crate, its))
    if any(re.match(r"returns(?!\S*-clause-)", named) for part in parts for named in part.names):
        # (there one answer is for all of them)
        return every
    while True:
        gone = {named for part in parts for named in part.names if of_clause(named, every - asked)}
        kept = [part for part in parts if not part.names or not gone.issuperset(part.names)]
        more = {of_clause(named, every) for part in kept for named in gone & part.mentions}
        if not more:
            return asked
        asked |= more


def of_clause(named, clauses):
    """Of which of these clauses of its own function this is a goal, if of one."""
    found = re.fullmatch(r"returns(?:-\S+)?-clause-([a-z_]+)(?:-\d+)?", named)
    return found[1] if found and found[1] in clauses else ""


def proofs_of_copy(crate, edit, name):
    """The proof files of a function, for its copy."""
    its = next(it for _, it in all_functions(crate) if it.name == name)
    module, _, own = name.rpartition("::")
    names = (f"+{its.cycle}" if its.cycle else own, f"{own}_{edit.name}")
    folder, there = (f"proofs/{module}::{it}".replace("::", "/").replace("//", "/") for it in names)
    of_cycle = [it.name.rpartition("::") for _, it in all_functions(crate) if its.cycle and it.cycle == its.cycle]
    members = {it for path, _, it in of_cycle if path == module}
    found = {}
    for path in (f"{folder}/{it}.antt" for it in ("Answers", "Invariants", "Proof")):
        if os.path.isfile(f"{crate.folder}/{path}"):
            text = text_of(crate, path).replace(f".{folder.replace('/', '.')}.", f".{there.replace('/', '.')}.")
            text = of_member(text, own, members) if its.cycle else without_clauses(crate, edit, name, text)
            found[path.replace(folder, there)] = text
    return {path: text for path, text in found.items() if text}


def without_clauses(crate, edit, name, text):
    """A proof file without the answers for clauses that a copy isn't asked for."""
    path, its = next((path, it) for path, it in all_functions(crate) if it.name == name)
    source = text_of(crate, path)
    every = {it.name for it in clauses_in(source[its.named : its.begin])}
    gone = every - clauses_asked(crate, edit.clause, path, name)
    return "\n\n".join(it.text for it in parts_of(text) if not any(of_clause(named, gone) for named in it.names))


def of_member(text, own, members):
    """What the proof file of a cycle of calls has of one of its functions, as it stands in a file of that function's
    own: there its goals go by no function's name, nothing is taken of the cycle, and no measure of the function is
    asked for."""
    kept, has_some = [], False
    for part in re.split(r"\n\n(?! )", text):
        named = re.search(r"(?m)^(?:abbrev )?pub (invariant-|decreases-|)([^\s-]+)(-?)", part)
        if named and named[2] in members:
            if named[2] != own or not named[3]:
                continue
            part = re.sub(rf"(?m)(^(?:abbrev )?(?:pub )?|\bgoal\.){named[1]}{own}-", rf"\1{named[1]}", part)
            part = re.sub(r"(?m)^(\S+) t (\w+ =)", r"\1 \2", part)
            has_some = True
        kept.append(part)
    return "\n\n".join(kept) if has_some else ""


def sum_of_copy(edit, name):
    """A sum of a copy as it is: of its text, without docs, and of its proof files, however their lines are broken."""
    plain = dataclasses.replace(edit, name="as_it_is", pairs=[], proofs={})
    own = re.sub(r"(?m)^ *///?.*\n", "", copy_of(edit.crate, plain, edit.copied[name], name))
    texts = {"": own, **proofs_of_copy(edit.crate, plain, name)}
    return hashlib.sha256(repr(sorted((path, text.split()) for path, text in texts.items())).encode()).hexdigest()[:16]
