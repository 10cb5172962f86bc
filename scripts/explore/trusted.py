#!/usr/bin/env python3
"""What must be believed: the lines of the definitions that public clauses cite, crate by crate.

Usage: scripts/explore/trusted.py [--list] [--files]

A contract says what its definitions say. So who trusts the proofs has to read the clauses of public functions, what the
values of public types stand for (`impl Model`), and the definitions that these name, directly or through others. All
else that is in `specs/` or in `proofs/` is proved, and may be wrong only in that it doesn't say anything.

Printed is, for each crate, how many lines its folder `specs/` has, how many of these must be believed, and how many
definitions these are, as far as the text tells: a name is taken for what it stands for in its file. A file of `specs/`
of which no line must be believed and which no crate above names belongs into `proofs/`: each is told of, and the status
is then 1. --list prints the definitions, --files counts by files.
"""

import argparse
import os
import re
import sys
from dataclasses import dataclass, field

sys.path.insert(1, os.path.join(os.path.dirname(os.path.dirname(os.path.abspath(__file__))), "gate"))

import clones  # noqa: E402

USE = re.compile(r"(?m)^\s*(pub )?(?:ghost )?use Rattle\.([\w.+◌]+?)(?:\.\{([^}]*)\}| as (\w+))?;?$")
# Where an item begins: what it is, if that is said, and its name.
ITEM = re.compile(
    r"(?:  )?(?:unfoldable )?(?:(abbrev|record|data) )?(?:pub )?(?:(record|data) )?([^\s(){}:]+)(?=\s+[:({]|$)(\s+:)?"
)
# Lines that are of no item, and words that are no names.
OTHERS = re.compile(r"(?:pub )?(?:use|mod|open) |mutual|module ")
NO_NAMES = ("unfolding", "where", "let", "in", "infixr", "infixl", "→", "pub")
TOKEN = re.compile(r"[^\s(){}\[\],;:\"]+")


@dataclass
class Item:
    """A definition or a lemma: its lines, and where they stand."""

    module: str
    name: str
    has_fields: bool
    lines: list = field(default_factory=list)

    def text(self):
        return "\n".join(it for it in self.lines if not it.lstrip().startswith("--"))


@dataclass
class Module:
    """A file: its items by their names, and what its other names stand for."""

    name: str
    path: str
    items: dict = field(default_factory=dict)
    # a name of it, by the module and the name there
    names: dict = field(default_factory=dict)
    aliases: dict = field(default_factory=dict)
    used: set = field(default_factory=set)
    count: int = 0


def imports(text, module):
    for is_pub, path, names, alias in USE.findall(text):
        module.used.add(path)
        if alias:
            module.aliases[alias] = path
        for it in names.split(",") if names else []:
            name, _, other = it.strip().partition(" as ")
            if name:
                module.names[other or name] = (path, name)


def item_at(line, current):
    """The name of the item that begins with this line, and whether it has fields, or None."""
    match = ITEM.match(line)
    if not match or match[3] in NO_NAMES or line.startswith("   "):
        return None
    kind = match[1] or match[2] or ""
    is_declared = kind or re.match(r"(?:  )?(?:unfoldable )?pub ", line) or match[4]
    # (the fields of a record look like items of a module)
    is_field = line.startswith("  ") and current is not None and current.has_fields and kind == ""
    return (match[3], kind in ("record", "data")) if is_declared and not is_field else None


def module_of(crate, path, text):
    """What a file has."""
    found = Module(f"{crate}.{path.removesuffix('.antt').replace('/', '.')}", path)
    found.count = sum(bool(it.strip()) for it in text.split("\n"))
    imports(text, found)
    current, above = None, []
    for line in filter(str.strip, text.split("\n")):
        begins = item_at(line, current)
        equation = re.match(r"[^\s(){}:]+", line)
        if OTHERS.match(line):
            current, above = None, []
            continue
        if line.lstrip().startswith("--"):
            above.append(line)
            continue
        if begins:
            current = found.items.setdefault(begins[0], Item(found.name, *begins))
        elif equation and equation[0] in found.items:
            current = found.items[equation[0]]
        if current is not None:
            current.lines += [*above, line]
        above = []
    return found


PUBLIC_TYPE = re.compile(r"(?m)^\s*pub (?:struct|enum|union|trait) (\w+)")
PUBLIC = r"\s*pub (?:const |unsafe )?(?:extern \"C\" )?fn "
IMPL = re.compile(r"(?m)^impl(?:<[^>]*>)? (?:([\w:<>', ]+?) for )?(\w+)")


def public_text(text, types):
    """Of a file of a crate what must be believed: the clauses of its public functions, and models of its public
    types."""
    found, owner, trait, lines = [], "", "", text.split("\n")
    for at, line in enumerate(lines):
        match = IMPL.match(line)
        if match:
            owner, trait = match[2], match[1] or ""
        elif line == "}":
            owner = trait = ""
        is_known = not owner or owner in types
        if re.match(PUBLIC, line) and is_known or trait and is_known and re.match(r"\s*fn ", line):
            found += up_to(lines[at:], lambda it, of=indent(line): it == of + "{" or it.endswith((" {", " {}")))
        elif trait == "Model" and is_known and re.match(r"\s*ghost (?:Value|view|coded)", line):
            found += up_to(lines[at:], lambda it: it.rstrip().endswith(";"))
        elif trait not in ("", "Model") and is_known and re.match(r"\s*ghost (?!use)", line):
            found.append(line)
    return "\n".join(found)


def indent(line):
    return line[: len(line) - len(line.lstrip())]


def up_to(lines, is_last):
    """The lines up to the first that is the last one, and that line."""
    found = []
    for line in lines:
        found.append(line)
        if is_last(line):
            break
    return found


def names_in(text):
    found = set()
    for token in TOKEN.findall(text):
        found.add(token)
        head, _, rest = token.partition(".")
        found.add(head)
        if rest:
            found.add((head, rest.partition(".")[0]))
    return found


def resolve(modules, module, token):
    """The item that a name stands for, or None."""
    if isinstance(token, tuple):
        path = module.aliases.get(token[0])
        return find(modules, path, token[1]) if path else None
    if token in module.items:
        return module.items[token]
    if token in module.names:
        return find(modules, *module.names[token])
    return None


def find(modules, path, name):
    for _ in range(8):
        module = modules.get(path)
        if module is None:
            return None
        if name in module.items:
            return module.items[name]
        if name not in module.names:
            return None
        path, name = module.names[name]
    return None


def mixfix(module):
    """The words of names such as `◌then◌`, with the names."""
    for name in [*module.items, *module.names]:
        if "◌" in name:
            for word in filter(None, name.split("◌")):
                yield word, name


def main():
    ask = argparse.ArgumentParser()
    ask.add_argument("--list", action="store_true")
    ask.add_argument("--files", action="store_true")
    ask.add_argument("--top", default=clones.TOP)
    given = ask.parse_args()
    crates, modules, seeds, users = clones.crates_in(given.top), {}, [], {}
    for name, crate in crates.items():
        folder = crate.path(given.top)
        for file in clones.files_of(folder):
            path = os.path.relpath(file, folder)
            if path.startswith("specs/") and path.endswith(".antt") and path != "specs/Lib.antt":
                module = module_of(name, path, clones.text_of(file))
                modules[module.name] = module
    for name, crate in crates.items():
        folder = crate.path(given.top)
        texts = {it: clones.text_of(it) for it in clones.files_of(folder) if it.endswith((".rt", ".antt"))}
        types = {it for file, text in texts.items() if file.endswith(".rt") for it in PUBLIC_TYPE.findall(text)}
        for file, text in texts.items():
            one = Module(name, file)
            imports(text, one)
            for path in one.used:
                users.setdefault(path, set()).add(name)
            if file.endswith(".rt"):
                seeds.append((one, public_text(text, types)))
    trusted, todo = {}, []

    def reach(module, text):
        tokens = names_in(text)
        words = {it for it in tokens if isinstance(it, str)}
        tokens |= {whole for word, whole in mixfix(module) if word in words}
        for token in tokens:
            item = resolve(modules, module, token)
            if item and (item.module, item.name) not in trusted:
                trusted[item.module, item.name] = item
                todo.append(item)

    for module, text in seeds:
        reach(module, text)
    while todo:
        item = todo.pop()
        reach(modules[item.module], item.text())
    alone = []
    print("| Crate | Lines of `specs/` | must be believed | definitions |\n|---|--:|--:|--:|")
    total = [0, 0, 0]
    for name in crates:
        own = [it for key, it in modules.items() if key.startswith(f"{name}.")]
        lines = sum(it.count for it in own)
        items = [it for it in trusted.values() if it.module.startswith(f"{name}.")]
        believed = sum(len(it.lines) for it in items)
        if own:
            print(f"| `{name}` | {lines} | {believed} | {len(items)} |")
            total = [total[0] + lines, total[1] + believed, total[2] + len(items)]
        for module in own:
            of_it = sum(len(it.lines) for it in items if it.module == module.name)
            above = users.get(module.name, set()) - {name}
            if given.files:
                print(f"    {module.path}: {module.count}, {of_it} believed, {len(above)} crates above")
            if not of_it and not above:
                alone.append((name, module))
    print(f"| all | {total[0]} | {total[1]} | {total[2]} |")
    if given.list:
        for item in sorted(trusted.values(), key=lambda it: (it.module, it.name)):
            print(f"{item.module}.{item.name}: {len(item.lines)}")
    for name, module in alone:
        print(f"{name}/{module.path}: no public clause and no crate above cites it ({module.count} lines)")
    return 1 if alone else 0


if __name__ == "__main__":
    sys.exit(main())
