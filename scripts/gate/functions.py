"""The functions of a crate, by the text of its files: where each stands, how rattle names it, its proof files."""

import functools
import hashlib
import os
import re
from dataclasses import dataclass

import clones

PUB = r"(?:pub(?:\([\w: ]+\))? )?"

FUNCTION = re.compile(rf"(?m)^( *){PUB}(?:(?:const|unsafe|extern \"C\") )*fn (\w+)")

CYCLE = re.compile(r"#\[cycle\((\w+)\)\]\n *")

OWNER = re.compile(rf"(?m)^(?:unsafe )?(?:impl(?:<.*?>)? (.*?)(?: {{)?|{PUB}trait (\w+).*)$")

# An item of a file, and of a constant or a macro its name.
ITEM = re.compile(
    rf"(?m)^{PUB}(?:(const|static|macro_rules!) (?!fn\b)(\w+)"
    r"|(?:unsafe |const |extern \"C\" )*(?:fn|struct|enum|impl|trait|mod|use)\b)"
)


@dataclass(eq=False)
class Judged:
    """A crate in a clone, and what the checks of it took. `words` tell a check of the libraries that `rt ci` proved:
    then the crate's own functions have passed there too, and holes stand for their proofs."""

    name: str
    folder: str
    logs: str = ""
    words: list = None
    checks: int = 0
    seconds: float = 0.0


@dataclass
class Function:
    """A function of a file: its path below the crate, the key of its proof (its path, or its cycle of calls, and its
    name there where it isn't the only one), where it begins with its docs, where its name ends, where its body begins
    and ends, its cycle of calls, and whether it can be copied."""

    name: str
    key: str
    first: int
    named: int
    begin: int
    end: int
    cycle: str
    is_of_trait: bool
    can_be_copied: bool


# ---- files and functions


@functools.lru_cache(maxsize=None)
def text_of(crate, path):
    return clones.text_of(f"{crate.folder}/{path}")


def put_text(path, text):
    with open(path, "w", encoding="utf-8") as file:
        file.write(text)


@functools.lru_cache(maxsize=None)
def sources(crate):
    return [os.path.relpath(it, crate.folder) for it in clones.files_of(crate.folder) if it.endswith(".rt")]


def module_of(path):
    module = re.sub(r"^src/|/mod(?=\.rt$)|\.rt$", "", path).replace("/", "::")
    return [] if module in ("lib", "main") else [module]


def last_word(text):
    """The last name in a type's path, without its parameters."""
    return [it[0].upper() + it[1:] for it in re.findall(r"\w+$", re.sub(r"(?<=\w)<.*", "", text))]


def owner_of(crate, path, head):
    """The path of an impl or a trait as rattle names it: an impl stands in its type's module, and is named by its
    type, the trait, and the type that the trait is given."""
    if not head or head[2]:
        return [*module_of(path), *(head and [head[2]] or [])]
    trait, _, its = head[1].rpartition(" for ")
    given = re.search(r"<(?!')(.*)>", trait)
    name = last_word(its)
    of_type = re.compile(rf"(?m)^{PUB}(?:struct|enum) {name[0]}\b") if name else None
    homes = [it for it in sources(crate) if of_type and of_type.search(text_of(crate, it))]
    return [*module_of([*homes, path][0]), "".join([*name, *last_word(trait), *(last_word(given[1]) if given else [])])]


def first_of(text, at):
    """Where that begins of which the line at `at` is the last: with its docs and attributes, on lines of their own."""
    while at:
        before = text.rfind("\n", 0, at - 1) + 1
        if not text[before:at].lstrip().startswith(("//", "#[")):
            break
        at = before
    return at


def body_of(text, match):
    """Where the body of a function begins and ends, if it has one."""
    end = re.compile(rf"(?m)^{match[1]}}}$").search(text, match.end())
    if not end:
        return None
    starts = [re.compile(mark).search(text, match.end(), end.start()) for mark in (rf"(?m)^{match[1]}{{$", r"(?m){$")]
    return next(((it.end(), end.start()) for it in starts if it), None)


@functools.lru_cache(maxsize=None)
def functions_in(crate, path, text):
    """The functions of a file that have a body."""
    found = []
    for match in FUNCTION.finditer(text):
        body = body_of(text, match)
        if not body:
            continue
        heads = [None, *OWNER.finditer(text, 0, match.start())]
        owner = owner_of(crate, path, heads[-1]) if match[1] else module_of(path)
        name = "::".join([*owner, match[2]])
        first = first_of(text, match.start())
        cycle = CYCLE.search(text[first : match.start()])
        calls = r"\b(?:self\.|Self::)" if match[1] else r"(?<![\w.:])"
        itself = re.search(rf"{calls}({match[2]})\(", text[slice(*body)])
        key = f"+{cycle[1]}::{match[2]}" if cycle else f"+{itself[1]}" if itself else name
        is_of_trait = bool(match[1] and heads[-1] and (heads[-1][2] or " for " in heads[-1][1]))
        can_be_copied = (key == name or cycle and not match[1]) and not is_of_trait
        of_cycle = cycle[1] if cycle else ""
        found.append(Function(name, key, first, match.end(2), *body, of_cycle, is_of_trait, bool(can_be_copied)))
    return found


@functools.lru_cache(maxsize=None)
def all_functions(crate):
    return [(path, it) for path in sources(crate) for it in functions_in(crate, path, text_of(crate, path))]


def behind(text, function):
    """Where the line behind a function begins."""
    return text.find("\n", function.end) + 1


def sum_of_statements(top, crates):
    """A sum of what these crates say, which is all that a proof above them reads: their definitions and their
    contracts, without proofs, comments and the bodies of functions, however their lines are broken."""
    found = hashlib.sha256(clones.version().encode())
    for one in crates:
        crate = Judged(one.name, one.path(top))
        for file in clones.files_of(crate.folder):
            if file.endswith(clones.READ) and "/proofs/" not in file:
                path = os.path.relpath(file, crate.folder)
                found.update(repr((one.name, path, said_by(crate, path))).encode())
    return found.hexdigest()


def said_by(crate, path):
    """The words of a file besides comments and the bodies of its functions."""
    text = text_of(crate, path)
    for it in reversed(functions_in(crate, path, text) if path.endswith(".rt") else []):
        text = text[: it.begin] + text[it.end :]
    return re.sub(r"(?m)^ *(?://|--).*\n", "", text).split()


# ---- proof files


@dataclass
class Part:
    """A part of a proof file, with the goals that it answers, and those of the function's ends that it speaks of."""

    text: str
    names: list
    mentions: set


def parts_of(text):
    def part(it):
        return Part(it, re.findall(r"(?m)^pub (\S+) : goal\.", it), set(re.findall(r"(?<![\w-])returns[\w-]*", it)))

    return [part(it) for it in re.split(r"\n\n(?! )", text)]


def proof_of(crate, function):
    """The answers of a function's proof file."""
    path = f"proofs/{function.name.replace('::', '/')}/Answers.antt"
    return text_of(crate, path) if os.path.isfile(f"{crate.folder}/{path}") else ""
