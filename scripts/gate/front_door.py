#!/usr/bin/env python3
"""Looks whether what users are told fits the program: its manual page, its completions, the commands of the README, and
the links of the documents.

Usage: scripts/gate/front_door.py PROGRAM

PROGRAM is the built `dwarf` (crates/dwarf/out/dwarf). What `--help` says of it and of each command decides which
commands and options there are; the manual page (docs/dwarf.1) and the completions (scripts/completions) have to name
each of them and no other, and tell of a command in the same words where they do. The commands of the README are run as
they stand there, but for `.ci/run`, which runs this, and `rt run`, in whose place PROGRAM runs; FILE is a small C
program that the C compiler of the machine makes, and FOLDER where it is. `scripts/dwarf` is run over files of both byte
orders and classes, too. The program is installed into an empty folder and taken away again. Each link of a document to
a file has to lead to one, to a heading that it has, and to the line where what it names is declared. The last line is
`N passed, M failed`, and the status is 0 where none failed.
"""

import glob
import os
import re
import shutil
import struct
import subprocess
import sys
import tempfile
import zlib

sys.path.insert(1, os.path.dirname(os.path.dirname(os.path.abspath(__file__))))

import section_names  # noqa: E402

TOP = os.path.dirname(os.path.dirname(os.path.dirname(os.path.abspath(__file__))))


class Judged:
    """How many things hold of those that a script looks at, and how many don't."""

    def __init__(self, script):
        self.script, self.passed, self.failed = script, 0, 0

    def judge(self, holds, what):
        if holds:
            self.passed += 1
        else:
            self.failed += 1
            print(f"{self.script}: {what}")

    def same(self, found, wanted, what):
        found, wanted = set(found), set(wanted)
        self.judge(found == wanted, f"{what}: without {sorted(wanted - found)}, besides {sorted(found - wanted)}")


def text_of(name):
    with open(os.path.join(TOP, name), encoding="utf-8") as file:
        return file.read()


def run(words, program=None, **how):
    """What a command does and says; where there is a PROGRAM, it is the one that scripts find."""
    env = {**os.environ, "DWARF": program} if program else None
    return subprocess.run(words, **{"cwd": TOP, "env": env, "capture_output": True, "check": False, **how})


# ---- the program


def help_of(program, *words):
    return subprocess.run([program, *words, "--help"], capture_output=True, text=True, check=True).stdout


def commands_of(program):
    """The commands with what they are for."""
    listed = help_of(program).partition("Commands:\n")[2].partition("\n\n")[0]
    return dict(re.findall(r"^  (\S+) +(.*)$", listed, re.MULTILINE))


def options_of(program, command):
    """The long options of a command, with what they are for."""
    listed = help_of(program, command).partition("Options:\n")[2]
    return dict(re.findall(r"^ +(?:-\w, )?(--[\w-]+)(?: <\w+>)? +(.*)$", listed, re.MULTILINE))


def judge_manual(judged, commands, options):
    page = text_of("docs/dwarf.1").replace("\\-", "-")
    section = page.partition(".SH COMMANDS")[2].partition(".SH OPTIONS")[0]
    told = re.findall(r'^\.TP\n\.(?:B|BI|BR) (\w+)', section, re.MULTILINE)
    judged.same(told, commands, "docs/dwarf.1 has other commands than --help")
    section = page.partition(".SH OPTIONS")[2].partition(".SH EXIT")[0]
    told = re.findall(r"^\.TP\n\.(?:B|BI|BR) (?:-\w \", \" )?(--[\w-]+)", section, re.MULTILINE)
    judged.same(told, options, "docs/dwarf.1 has other options than --help")


def judge_bash(judged, commands, options):
    script = text_of("scripts/completions/dwarf.bash")
    listed = re.search(r'commands="([^"]*)"', script)[1].split()
    judged.same(listed, commands, "the completions of bash have other commands than --help")
    files = re.search(r'files="([^"]*)"', script)[1]
    of_each = {}
    for names, words in re.findall(r'^ +([\w |]+)\) options="([^"]*)"', script, re.MULTILINE):
        for name in names.split("|"):
            of_each[name.strip()] = words.replace("$files", files).split()
    for command in options:
        what = f"the completions of bash have other options of {command} than --help"
        judged.same(of_each.get(command, []), options[command], what)


def judge_zsh(judged, commands, options):
    script = text_of("scripts/completions/_dwarf")
    listed = dict(re.findall(r"^ +'(\w+):(.*)'$", script, re.MULTILINE))
    judged.judge(listed == commands, f"the completions of zsh tell of other commands than --help: {listed}")
    told = dict(re.findall(r"'(--[\w-]+)\[([^\]]*)\]", script))
    if re.search(r"\{-h,--help\}'\[Print help\]'", script):
        told["--help"] = "Print help"
    every = {name: what for each in options.values() for name, what in each.items()}
    judged.judge(told == every, f"the completions of zsh tell of other options than --help: {told}")


def judge_fish(judged, commands, options):
    script = text_of("scripts/completions/dwarf.fish")
    listed = dict(re.findall(r"-a (\w+) -d '(.*)'$", script, re.MULTILINE))
    judged.judge(listed == commands, f"the completions of fish tell of other commands than --help: {listed}")
    found = re.findall(r"-l ([\w-]+) (?:-r -F )?-d '(.*)'$", script, re.MULTILINE)
    told = {f"--{name}": what for name, what in found}
    every = {name: what for each in options.values() for name, what in each.items()}
    judged.judge(told == every, f"the completions of fish tell of other options than --help: {told}")


# ---- the commands of the README

# A program of a user's own.
SOURCE = "struct point { int x; int y; }; struct point origin; int main(void) { return origin.x; }\n"

# The commands that run elsewhere: the gate itself, and what scripts/gate/bindings.sh does with the library for C.
ELSEWHERE = (
    ".ci/run",
    "(cd crates/rothelduf_c && rt lib)",
    "scripts/install.sh PREFIX",
    "cc program.c $(pkg-config --cflags --libs rothelduf)",
)

# How each command of the README ends over it, and what it writes at the least.
SHOWN = {"show": (0, "DW_TAG_structure_type"), "find main": (0, "DW_TAG_subprogram"), "check": (0, "")}


# How many commands the README has at least, and how many links, and of those to lines of sources, all documents: where
# there are fewer, they may just be written in a way that isn't found.
LEAST_COMMANDS, LEAST_LINKS, LEAST_LINES = 10, 143, 56

# A block of a document between fences, with its language; and the languages of commands.
FENCED = re.compile(r"^ {0,3}(```+|~~~+)[ \t]*(\w*)[^\n]*\n(.*?)^ {0,3}\1[`~]*[ \t]*$\n?", re.MULTILINE | re.DOTALL)
OF_COMMANDS = ("sh", "bash", "shell", "console")


def judge_readme(judged, program, folder):
    """Runs the commands of the README, where they stand in it. What a block right behind them has, without a language,
    is what they print."""
    own, count, text = own_program(folder), 0, text_of("README.md")
    blocks = list(FENCED.finditer(text))
    for at, block in enumerate(blocks):
        if block[2] not in OF_COMMANDS:
            continue
        behind = blocks[at + 1] if at + 1 < len(blocks) else block
        is_output = not behind[2] and not text[block.end() : behind.start()].strip()
        for line in block[3].strip().split("\n"):
            judge_command(judged, program, line, behind[3] if is_output else "", own, folder)
            count += 1
    judged.judge(count >= LEAST_COMMANDS, f"README.md: only {count} commands were found, and not {LEAST_COMMANDS}")


def own_program(folder):
    """The program of a user's own, or nothing where the machine has no C compiler."""
    if not shutil.which("cc"):
        print("front_door.py: there is no C compiler here, so nothing is run over a file that it links")
        return None
    with open(f"{folder}/own.c", "w", encoding="utf-8") as file:
        file.write(SOURCE)
    subprocess.run(["cc", "-g", "-gdwarf-5", "-o", f"{folder}/own", f"{folder}/own.c"], check=True)
    return f"{folder}/own"


def judge_command(judged, program, line, output, own, folder):
    said = re.fullmatch(r"\(cd (\S+) && rt (try|run) .*?-- (.*)\)", line)
    if line in ELSEWHERE:
        return
    if said and said[2] == "try":
        ran = run(line, shell=True, text=True)
        holds = ran.returncode == 0 and ran.stdout.startswith(output) and output
        judged.judge(holds, f"README.md: {line}: {ran.stdout}{ran.stderr}")
    elif said:
        ran = run([program, *said[3].split()], cwd=f"{TOP}/{said[1]}", text=True)
        judged.judge(ran.returncode == 0 and ran.stdout, f"README.md: {line}: {ran.stdout}{ran.stderr}")
    elif line.startswith("scripts/dwarf FILE "):
        judge_own(judged, program, line, own)
    elif line == "scripts/audit FOLDER":
        judge_audit(judged, program, own, folder)
    else:
        judged.judge(False, f"README.md: {line}: this script doesn't know how it ends")


def judge_own(judged, program, line, own):
    if own:
        words = line.removeprefix("scripts/dwarf FILE ")
        ran = run(["scripts/dwarf", own, *words.split()], program, text=True)
        status, least = SHOWN.get(words, (0, ""))
        holds = ran.returncode == status and least in ran.stdout and bool(least) == bool(ran.stdout)
        judged.judge(holds, f"README.md: {line}: {ran.stdout}{ran.stderr}")


def judge_audit(judged, program, own, folder):
    if own:
        ran = run(["scripts/audit", folder], program, text=True)
        holds = ran.returncode == 0 and re.search(rf"(?m)^{re.escape(own)},\d+,sound,0,", ran.stdout)
        judged.judge(holds, f"README.md: scripts/audit: {ran.stdout}{ran.stderr}")


# The first unit of version 5 that there can be, in both byte orders, and its table.
UNITS = {"<": "0b000000 0500 01 08 00000000 01 6100", ">": "0000000b 0005 01 08 00000000 01 6100"}
TABLE = "01 11 00 03 08 00 00 00"
INFO, ABBREV = map(section_names.file_of, ("info", "abbrev"))


def elf_file(order, wide, packed, kind, contents):
    """An ELF file of this byte order, class and type of file, with these sections. They are compressed in the way of
    this number, or not where that is 0. One that is named `rel` and a dot has relocations of the first."""
    names = b"\0" + b"".join(f".{name}\0".encode() for name in contents) + b".shstrtab\0"
    size, at = (64, "Q") if wide else (52, "I")
    body, headers = b"", bytes(64 if wide else 40)
    for name, content in [*contents.items(), ("shstrtab", names)]:
        is_packed = packed and name in contents
        if is_packed:
            length = len(content)
            head = ("IIQQ", packed, 0, length, 1) if wide else ("III", packed, length, 1)
            content = struct.pack(order + head[0], *head[1:]) + zlib.compress(content)
        kind_of_section, relocates = (9, 1) if name.startswith("rel.") else (1, 0)
        fields = names.index(f".{name}\0".encode()), kind_of_section, 0x800 if is_packed else 0, 0
        fields = *fields, size + len(body), len(content)
        headers += struct.pack(f"{order}II4{at}II2{at}", *fields, 0, relocates, 1, 0)
        body += content
    ident = b"\x7fELF" + bytes([2 if wide else 1, 1 if order == "<" else 2, 1]) + bytes(9)
    counts = [size, 0, 0, 64 if wide else 40, len(contents) + 2, len(contents) + 1]
    return ident + struct.pack(f"{order}HHI3{at}I6H", kind, 0, 1, 0, 0, size + len(body), 0, *counts) + body + headers


def contents_of(order):
    """The sections of an ELF file of this byte order."""
    return {INFO: bytes.fromhex(UNITS[order]), ABBREV: bytes.fromhex(TABLE)}


def broken_files(order, wide):
    """ELF files that can't be taken apart, by words of what is said of them."""
    contents = contents_of(order)
    empty = elf_file(order, wide, 1, 2, {**contents, INFO: b""})
    return {
        "isn't linked": elf_file(order, wide, 0, 1, {**contents, f"rel.{INFO}": bytes(24)}),
        "has no debugging entries": elf_file(order, wide, 0, 2, {"text": b"a"}),
        "another way than by zlib": elf_file(order, wide, 2, 2, contents),
        "another size": empty.replace(zlib.compress(b""), zlib.compress(b"a")[:8]),
        "ends before": elf_file(order, wide, 0, 2, contents)[:-40],
        "no ELF file": b"\x7fELF",
    }


def judge_linked(judged, program, folder):
    """Runs `scripts/dwarf` over files of both byte orders and classes, with sections that are compressed and that
    aren't, and over what it can't take apart."""
    path = f"{folder}/linked"

    def ran(file, *words):
        with open(path, "wb") as out:
            out.write(file)
        return run(["scripts/dwarf", path, *words], program)

    for order in UNITS:
        contents = contents_of(order)
        for wide in (True, False):
            for packed in (0, 1):
                file = elf_file(order, wide, packed, 2, contents)
                of = f"scripts/dwarf over a file of order {order}, {wide=}, {packed=}"
                copied, shown = ran(file, "copy"), ran(file, "show")
                judged.judge(copied.returncode == 0 and copied.stdout == contents[INFO], f"{of}: {copied}")
                judged.judge(shown.returncode == 0 and b'DW_AT_name "a"' in shown.stdout, f"{of}: {shown}")
            for why, file in broken_files(order, wide).items():
                refused = ran(file, "show")
                is_one_line = refused.stderr.count(b"\n") == 1 and why.encode() in refused.stderr
                holds = refused.returncode == 3 and not refused.stdout and is_one_line
                judged.judge(holds, f"a file of which {why}: {refused}")
        with open(path, "wb") as out:
            out.write(elf_file(order, True, 0, 2, contents))
        judge_lost_reader(judged, program, path)


def judge_lost_reader(judged, program, path):
    """Where the reader of a pipe has ended, the script says nothing, and a file that takes no more is told of."""
    reader, lost = os.pipe()
    os.close(reader)
    with open("/dev/full", "wb") as full:
        for output, status, said in ((lost, 141, b""), (full, 3, b"file standard output\n")):
            how = {"capture_output": False, "stdout": output, "stderr": subprocess.PIPE}
            ran = run(["scripts/dwarf", path, "show"], program, **how)
            judged.judge(ran.returncode == status and ran.stderr == said, f"scripts/dwarf {path} show, {output}: {ran}")
    os.close(lost)


def judge_install(judged, folder):
    prefix = f"{folder}/prefix"
    # (the library for C comes with it where that is built)
    library = 5 * os.path.isfile(f"{TOP}/crates/rothelduf_c/out/librothelduf_c.a")
    for words, wanted in (([], len(installed()) + library), (["--uninstall"], 0)):
        ran = run(["scripts/install.sh", prefix, *words], text=True)
        found = [it for it in glob.glob(f"{prefix}/**", recursive=True) if os.path.isfile(it)]
        judged.judge(ran.returncode == 0 and len(found) == wanted, f"scripts/install.sh {words}: {found} {ran.stderr}")


def installed():
    """The lines of scripts/install.sh for the files and the links that it installs."""
    listed = re.findall(r"<< END\n(.*?)^END$", text_of("scripts/install.sh"), re.MULTILINE | re.DOTALL)
    return "".join(listed).splitlines()


# ---- the documents


def anchors_of(text):
    """The names of the headings of a document, as links have them."""
    headings = re.findall(r"^#+ (.*)$", FENCED.sub("", text), re.MULTILINE)
    return {re.sub(r"[^\w\- ]", "", it.lower()).replace(" ", "-") for it in headings}


def links_in(text):
    """The places in the repository to which the links of a text lead."""
    return [it for it in re.findall(r"\]\(([^)\s]+)\)", text) if not re.match(r"\w+:", it)]


def judge_links(judged, document):
    """Looks where the links of a document lead, and returns how many there are, and how many to lines."""
    text = FENCED.sub("", text_of(document))
    targets = links_in(text)
    for target in targets:
        path, _, anchor = target.partition("#")
        there = os.path.normpath(os.path.join(os.path.dirname(document), path)) if path else document
        if not os.path.exists(os.path.join(TOP, there)):
            judged.judge(False, f"{document}: {target} leads nowhere")
        elif re.fullmatch(r"L\d+", anchor):
            holds = is_declared(text, target, there, int(anchor[1:]))
            judged.judge(holds, f"{document}: {target}: what it names isn't declared in that line")
        else:
            judged.judge(not anchor or anchor in anchors_of(text_of(there)), f"{document}: {target}: no such heading")
    return len(targets), sum(bool(re.search(r"#L\d+$", it)) for it in targets)


def judge_documents(judged):
    links, lines = (sum(it) for it in zip(*(judge_links(judged, it) for it in documents())))
    judged.judge(links >= LEAST_LINKS, f"only {links} links were found, and not {LEAST_LINKS}")
    judged.judge(lines >= LEAST_LINES, f"only {lines} links to lines were found, and not {LEAST_LINES}")


def is_declared(text, target, there, line):
    """Whether the last word of a link's text is declared in that line of a source."""
    name = re.search(rf"(\w+)`?\]\({re.escape(target)}\)", text)
    lines = text_of(there).split("\n")
    if not name or not 0 < line <= len(lines):
        return False
    return bool(re.search(rf"\b(?:fn|struct|enum|mod) {name[1]}\b", lines[line - 1]))


def judge_modules(judged):
    """Each module and each file of definitions of a library is told of on its first page."""
    tests = set(glob.glob(f"{TOP}/crates/*_tests/src/lib.rt"))
    for library in sorted(set(glob.glob(f"{TOP}/crates/dw_*/src/lib.rt")) - tests):
        crate = library.split("/")[-3]
        page = text_of(library)
        told = "".join(re.findall(r"^//!.*\n", page, re.MULTILINE))
        wanted = re.findall(r"^(?:pub )?mod (\w+);$", page, re.MULTILINE)
        untold = [it for it in wanted if f"`{it}`" not in told]
        judged.judge(not untold, f"{library}: nothing is told of {untold}")
        specs = f"crates/{crate}/specs/Lib.antt"
        if os.path.exists(os.path.join(TOP, specs)):
            page = text_of(specs)
            told = set(re.findall(r"\w+", "".join(re.findall(r"^--.*\n", page, re.MULTILINE))))
            wanted = re.findall(r"^pub mod (\w+)$", page, re.MULTILINE)
            judged.judge(told.issuperset(wanted), f"{specs}: nothing is told of {sorted(set(wanted) - told)}")


def documents():
    """The documents whose links are looked at, from the top of the repository."""
    found = glob.glob(f"{TOP}/*.md") + glob.glob(f"{TOP}/docs/**/*.md", recursive=True)
    return sorted(os.path.relpath(it, TOP) for it in found + glob.glob(f"{TOP}/examples/*/*.md"))


def main(program):
    judged = Judged("front_door.py")
    commands = commands_of(program)
    options = {command: options_of(program, command) for command in commands if command != "help"}
    every = {name for each in options.values() for name in each}
    judge_manual(judged, commands, every)
    for judge in (judge_bash, judge_zsh, judge_fish):
        judge(judged, commands, options)
    with tempfile.TemporaryDirectory(prefix="front-door-") as folder:
        judge_readme(judged, program, folder)
        judge_linked(judged, program, folder)
        judge_install(judged, folder)
    judge_modules(judged)
    judge_documents(judged)
    print(f"{judged.passed} passed, {judged.failed} failed")
    return 0 if judged.passed and not judged.failed else 1


if __name__ == "__main__":
    if len(sys.argv) != 2 or not os.access(sys.argv[1], os.X_OK):
        sys.exit("usage: scripts/gate/front_door.py PROGRAM")
    sys.exit(main(os.path.abspath(sys.argv[1])))
