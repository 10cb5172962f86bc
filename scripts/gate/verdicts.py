"""What a check says of functions and their goals, and what that is worth for a wrong body."""

import re

import clauses
from edits import ACCEPTED, REFUSED, UNCLEAR, WEAK, has_one_clause
from functions import all_functions, functions_in, text_of

# What a check says: of a function; of a goal in its proof file; of a goal of its code that is left; of a name that it
# doesn't know.
VERDICT = re.compile(r"(?m)^fn \w+::(\S+): (proved|no holes|depends on a hole|not proved|no proof|could not tell)(.*)$")

# (where holes stand for the proofs of what it calls, a function isn't told to be proved)
PROVED = {"proved", "no holes", "depends on a hole"}

PROOF_ERROR = re.compile(
    r"(?m)^(?:\./)?proofs/(\S+)/(?:Answers|Invariants|Proof)\.antt:\d+:\d+: error: (?:`([^`]+)`: )?(.*)$"
)

LEFT = re.compile(
    r"(?m)^note: (src/\S+):(\d+):\d+: (?:it is not proved that|`\w+` found no proof).*?\(`([^`]+)`\)(?:;.*)?$"
)

NO_PROOF_FOUND = re.compile(r"`search` did not prove (`[^`]+`(?:, `[^`]+`)*)")

NO_FUNCTION = re.compile(r"(?m)^rattle: error: .*`(\S+)`: help: write the name that a check prints.*$")

# The proof file names what is gone, or cites what is refused: that says nothing of the contract.
ONLY_NAMES = re.compile(r"has no field|is not in scope|has no `|was not admitted|that depends? on |is private to ")

# The front end refuses a text, or the prover can't read it.
UNREAD = re.compile(
    r"(?m)^(?:.*\berror\[|(?:\./)?(?:src|specs)/\S+:\d+:\d+: error: "
    r"(?:(?!`[^`]*`: )|.*(?:is not in scope|has no field|is no name))).*$"
)

# What the refusal of a goal says: only that names are gone; that its answer in a proof file doesn't fit; that no
# proof was found.
NAMES, ANSWER, SEARCH = 0, 1, 2


def refusals(crate, said, texts):
    """By the key of a proof the goals that are refused there, each with what that says of the contract: nothing at
    NAMES. These texts were checked."""
    found, known = {}, {it.key for _, it in all_functions(crate)}

    def refuse(key, cycle, goal, how):
        # (in a cycle of several functions a goal begins with the name of its own)
        *_, key = [key, *cycle, *(it for it in (f"{one}::{goal.partition('-')[0]}" for one in cycle) if it in known)]
        goals = found.setdefault(key, {})
        goals[goal] = max(goals.get(goal, NAMES), how)

    for path, goal, why in PROOF_ERROR.findall(said):
        how = ANSWER if goal and not ONLY_NAMES.search(why) else NAMES
        refuse(path.replace("/", "::"), re.findall(r"\+\w+", path), goal, how)
    for path, line, goal in LEFT.findall(said):
        text = texts.get(path) or text_of(crate, path)
        at = len("".join(text.splitlines(True)[: int(line)]))
        around = [it.key for it in functions_in(crate, path, text) if at <= it.end + 2][:1]
        refuse([*around, path][0], [], goal, SEARCH)
    for name, _, rest in VERDICT.findall(said):
        for goal in re.findall(r"`([^`]+)`", " ".join(NO_PROOF_FOUND.findall(rest))):
            refuse(name, re.findall(r"expected answers in \S*/(\+\w+)/", rest), goal, SEARCH)
    return found


def judge(edit, said, refused):
    """Sets what has come of an edit."""
    told = {name: verdict for name, verdict, _ in VERDICT.findall(said)}
    goals = [it for key in edit.functions.values() or refused for it in refused.get(key, {}).items()]
    real = sorted({goal for goal, how in goals if how != NAMES})
    edit.unfit = sorted({goal for goal, how in goals if how == ANSWER})
    is_only = has_one_clause(edit)
    meant = [it for it in real if not edit.clause or it == edit.goal or clauses.is_goal_of(it, edit.clause, is_only)]
    is_proved = {told.get(it) for it in edit.functions} <= PROVED if edit.functions else "\nlogic=proved" in said
    if meant:
        edit.set(REFUSED, f" at {', '.join(meant)}")
    elif real:
        edit.set(WEAK, f": refused at {', '.join(real)} and not where it returns, at {edit.clause}")
    elif goals:
        edit.set(WEAK, ": only its proof file names what the edit took away")
        edit.gone = sorted({goal for goal, _ in goals if goal})
    elif is_proved:
        edit.set(ACCEPTED)
    else:
        edit.set(UNCLEAR, f": {', '.join(told.get(it, 'nothing is told') for it in edit.functions)}")


# Lines as a check has printed them, each with the pattern that has to find it and what that finds.
SAMPLES = [
    (VERDICT, "fn dw_form::read::read_value: proved", ("read::read_value", "proved", "")),
    (
        VERDICT,
        "fn dw_feed::head::lacking: not proved; it calls `dw_feed::head::sizes`, which is not proved",
        ("head::lacking", "not proved", "; it calls `dw_feed::head::sizes`, which is not proved"),
    ),
    (VERDICT, "fn dw_cli::run::run_line: no holes", ("run::run_line", "no holes", "")),
    (
        PROOF_ERROR,
        "./proofs/read/read_value/Answers.antt:8:5: error: `returns-in-Err-clause-only`: expected X, found Y",
        ("read/read_value", "returns-in-Err-clause-only", "expected X, found Y"),
    ),
    (
        PROOF_ERROR,
        "proofs/a/b/Answers.antt:1:1: error: `c.in-Ok` has no field `result`",
        ("a/b", "", "`c.in-Ok` has no field `result`"),
    ),
    (
        NO_PROOF_FOUND,
        "fn a::b: no proof: expected answers in ./proofs/b/Answers.antt; `search` did not prove `returns`, `returns-2`",
        "`returns`, `returns-2`",
    ),
    (
        NO_FUNCTION,
        "rattle: error: there is no function `a::b`: help: write the name that a check prints, as in `a::c`",
        "a::b",
    ),
]


def fails_itself():
    """The lines of which the patterns find something else than they have to."""
    return [f"{line}: {pattern.findall(line)}" for pattern, line, found in SAMPLES if pattern.findall(line) != [found]]
