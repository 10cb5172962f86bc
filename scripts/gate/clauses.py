"""What the clauses of a contract say, as far as their text tells: their names, and of which outcomes nothing."""

import re
from dataclasses import dataclass

ENSURES = re.compile(r"(?m)^ +ensures (?:(\w+) )?\{")

# The name of a clause that has none: its goals go by it.
UNNAMED = "returns"

# What a function may answer, and the other thing that it may.
OTHER = {"Ok": "Err", "Err": "Ok", "Some": "None", "None": "Some"}

# A clause that begins so says nothing of the other outcome.
FORM = re.compile(r"(?:If|On)(Ok|Err|Some|None)\b")

# So does one with this premise.
PREMISE = re.compile(r"result\S* ≡ \(?(Ok|Err|Some|None)\b")

# Names that a clause takes before it says something.
TAKEN = re.compile(r"^(?:\s*\{?\([^()]*(?:\([^()]*\)[^()]*)*\)\}?)*\s*")

# An answer where it is made: returned, behind the arrow of an arm, or at the end of a body.
ANSWER = re.compile(
    r"(?:\breturn |=> (?:\{ )?(?:return )?|^)(?:(Ok|Err|Some)\(|(None)\b)|; (?:(Ok|Err|Some)\([^;{}]*\)|(None)) ?\}"
)


@dataclass
class Clause:
    """A clause: its name, where it begins and ends in the text before the body, and what it has between brackets."""

    name: str
    begin: int
    end: int
    text: str


def clauses_in(head):
    """What a function ensures, by the text before its body."""
    found = []
    for match in ENSURES.finditer(head):
        end, depth = match.end(), 1
        while depth and end < len(head):
            depth += {"{": 1, "}": -1}.get(head[end], 0)
            end += 1
        found.append(Clause(match[1] or UNNAMED, match.start(), head.find("\n", end) + 1, head[match.end() : end - 1]))
    return found


def parts_at(text, mark):
    """The parts of a text between marks that stand in no brackets."""
    parts, depth, begin = [], 0, 0
    for at, letter in enumerate(text):
        depth += {"(": 1, "{": 1, "[": 1, ")": -1, "}": -1, "]": -1}.get(letter, 0)
        if letter == mark and depth == 0:
            parts.append(text[begin:at])
            begin = at + 1
    return [*parts, text[begin:]]


def untold(text):
    """The outcomes of which a clause says nothing, as `Err` of one that begins with `IfOk`."""
    *premises, said = parts_at(text, "→")
    for premise in premises:
        match = PREMISE.match(TAKEN.sub("", premise).strip())
        if match:
            return {OTHER[match[1]]}
    both = [FORM.match(TAKEN.sub("", it).strip()) for it in parts_at(said, "×")]
    return set.intersection(*({OTHER[it[1]]} if it else set() for it in both))


def answers_in(text):
    """How often each outcome is answered in a text of a body."""
    found = {}
    for groups in ANSWER.findall(text):
        kind = "".join(groups)
        found[kind] = found.get(kind, 0) + 1
    return found


def made_by(old, new):
    """The outcomes that a new text answers more often than the old one, in whose place it stands."""
    before, now = answers_in(old), answers_in(new)
    return {kind for kind, count in now.items() if count > before.get(kind, 0)}


def says_nothing_of(clause, old, new):
    """Whether a clause says nothing of the only outcome that a new text makes."""
    made = made_by(old, new)
    return len(made) == 1 and made <= untold(clause)


def is_goal_of(goal, clause, is_only=False):
    """Whether a goal is one at which a function ends, of this clause; it isn't named where it is the function's only
    one. In a cycle of calls the name of the function stands before it."""
    unnamed, named = r"(?:-(?!\S*clause-)\S+)?", rf"(?:-\S+)?-clause-{re.escape(clause)}(?:-\d+)?"
    rests = [unnamed] * (is_only or clause == UNNAMED) + [named] * (clause != UNNAMED)
    return any(re.fullmatch(rf"(?:\w+-)?returns{rest}", goal) for rest in rests)


OF_A_REASON = "(r : Reason) → result ≡ Err (Bad r)"

# Clauses and texts with what has to be said of them.
SAMPLES = [
    ("IfOk result (λ x. x ≡ n)", "n", "return Err(1);", True),
    ("IfOk result (λ x. x ≡ n)", "Ok(n)", "Err(n)", True),
    ("IfOk result (λ x. x ≡ n) × IfErr result (λ e. e ≡ 0)", "Ok(n)", "Err(n)", False),
    ("(x n : ℕ) → Taken b x n → OnOk result ⊤", "a?", "match a { Ok(v) => v, Err(_) => return Err(F) }", True),
    (f"{OF_A_REASON} → pool.new ≡ pool.old", "a?", "{ pool.clear(); return Ok(0); }", True),
    (f"{OF_A_REASON} → pool.new ≡ pool.old", "a?", "{ pool.clear(); return Err(Bad); }", False),
    ("IfErr result (λ e. e ≡ NoMemory)", "Ok(n)", "Ok(n + 1)", False),
    ("IfSome result (λ x. x ≡ n)", "Some(n)", "None", True),
    ("result ≡ find n", "Some(n)", "None", False),
    ("IfNone result (n ≡ 0)", "if n == 0 {", "if n == 1 {", False),
]

# Goals and clauses, whether that is the function's only one, and whether it is the goal's.
GOALS = [
    ("returns-in-Err-clause-broken", "broken", False, True),
    ("returns-clause-broken-2", "broken", False, True),
    ("returns-in-Err-clause-found", "broken", False, False),
    ("left-returns-in-Some-clause-told", "told", False, True),
    ("loop-width-init", "some", True, False),
    ("returns-then-m", "returns", True, True),
    ("returns-in-Four", "spelling", True, True),
    ("returns-in-Four", "spelling", False, False),
    ("returns-clause-broken", "returns", True, False),
    ("invariant_of-result", "returns", True, False),
]


def fails_itself():
    """What this module says otherwise than it has to of its samples."""
    wrong = [str(it) for it in SAMPLES if says_nothing_of(*it[:3]) != it[3]]
    return [*wrong, *(str(it) for it in GOALS if is_goal_of(*it[:3]) != it[3])]
