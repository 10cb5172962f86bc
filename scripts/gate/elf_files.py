#!/usr/bin/env python3
"""Looks at what the scripts for ELF files do: `scripts/elf_sections.py`, `scripts/dwarf`, `scripts/audit` and
`scripts/install.sh`.

Usage: scripts/gate/elf_files.py PROGRAM

PROGRAM is the built `dwarf` (crates/dwarf/out/dwarf). A small program is compiled and linked in many ways, where there
is a C compiler, and changed at random 500 times in its headers: what is taken out of each file is compared with what
`readelf -SW` says of its sections. Files that say much of themselves have to be refused in little memory. The scripts
are run over folders and files as they shouldn't be, with a program that is missing, ended or none, and are ended by
signals. The last line is `N passed, M failed`, and the status is 0 where none failed and some passed. What can't be
tried here, for want of a compiler or of binutils, is said.
"""

import csv
import os
import random
import re
import resource
import shutil
import signal
import stat
import struct
import subprocess
import sys
import tempfile
import time
import zlib
from dataclasses import dataclass

sys.path.insert(1, os.path.dirname(os.path.dirname(os.path.abspath(__file__))))

import elf_sections  # noqa: E402
import front_door  # noqa: E402
import section_names  # noqa: E402

TOP = os.path.dirname(os.path.dirname(os.path.dirname(os.path.abspath(__file__))))

SOURCE = "struct point { int x, y; }; struct point origin; int main(void) { return origin.x; }\n"

# How the program is compiled, and what is done with it then.
WAYS = [
    *("-gdwarf-5", "-gdwarf-4", "-gdwarf-3", "-gdwarf-2", "-gdwarf-5 -gz=zlib", "-gdwarf-4 -gz=zlib"),
    *("-gdwarf-5 -O2", "-gdwarf-5 -g3", "-gdwarf-5 -gdwarf64", "-g0"),
    *("-gdwarf-5 -static", "-gdwarf-5 -shared -fPIC", "-gdwarf-5 -no-pie", "-gdwarf-5 -Wl,--emit-relocs"),
    *("-gdwarf-5 -c", "-gdwarf-5 -gz=zlib -c", "-gdwarf-5 -ffunction-sections", "-gdwarf-5 -gsplit-dwarf"),
    *("-gdwarf-5 -s", "-gdwarf-5 -fdebug-types-section"),
]
CHANGED = 500

# A line of `readelf -SW`: the section's name and kind, its address, offset, size and entry size, its flags.
SECTION = re.compile(
    r"(?m)^ +\[ *\d+\] (\.debug_\w+) +(\S.*?) +[0-9a-f]{8,} ([0-9a-f]{6,}) ([0-9a-f]{6,}) [0-9a-f]{2,} +([A-Za-z]*) "
)

# The memory of a process, in bytes, within which a file has to be refused.
ROOM = 300 << 20


# ---- sections, beside readelf


@dataclass
class Told:
    """What `readelf` tells of a section: where it lies in the file, and whether it is compressed."""

    offset: int
    size: int
    is_packed: bool


def told_by_readelf(path):
    """The sections of debugging entries by their names, as `readelf` tells of them; None where it complains."""
    ran = subprocess.run(["readelf", "-SW", path], capture_output=True, text=True, errors="replace", check=False)
    if ran.returncode or ran.stderr:
        return None
    found = {}
    for name, kind, offset, size, flags in re.findall(SECTION, ran.stdout):
        if name[1:] in section_names.FILES and kind != "NOBITS":
            found[name[1:]] = Told(int(offset, 16), int(size, 16), "C" in flags)
    return found


def wanted(path, told):
    """The bytes of the sections that `readelf` tells of."""
    with open(path, "rb") as file:
        whole = file.read()
    head = 24 if whole[4] == 2 else 12
    found = {}
    for name, it in told.items():
        content = whole[it.offset : it.offset + it.size]
        found[name] = zlib.decompress(content[head:]) if it.is_packed else content
    return found


def taken(path, folder):
    """What is taken out of a file, or why nothing is."""
    try:
        elf_sections.extract(path, folder)
    except elf_sections.Unreadable as why:
        return None, why.kind
    found = {}
    for name in section_names.FILES:
        with open(os.path.join(folder, name), "rb") as file:
            found[name] = file.read()
    return found, ""


def compare(judged, path, folder, what):
    """What is taken out of a file has to be what `readelf` tells of."""
    found, why = taken(path, folder)
    told = told_by_readelf(path)
    if found is None or told is None:
        return why
    try:
        given = wanted(path, told)
    except zlib.error:
        judged.judge(False, f"{what}: it is taken apart, and zlib can't inflate it")
        return why
    is_same = all(found[name] == given.get(name, b"") for name in section_names.FILES)
    judged.judge(is_same, f"{what}: {path}: other sections than readelf's")
    return why


def judge_sections(judged, folder):
    if not (shutil.which("cc") and shutil.which("readelf")):
        print("elf_files.py: there is no C compiler or no readelf here, so no sections are compared")
        return []
    source, made = f"{folder}/own.c", []
    with open(source, "w", encoding="utf-8") as file:
        file.write(SOURCE)
    for number, way in enumerate(WAYS):
        path = f"{folder}/elf{number}"
        words = ["cc", *way.split(), "-o", path, source]
        if subprocess.run(words, cwd=folder, capture_output=True, check=False).returncode == 0:
            made.append((path, way))
    judged.judge(len(made) >= 16, f"of {len(WAYS)} ways to compile {len(made)} are known here")
    room = f"{folder}/room"
    os.mkdir(room)
    kinds = {way: compare(judged, path, room, way) for path, way in made}
    for way, kind in kinds.items():
        is_object = "-c" in way.split()
        expected = "unlinked" if is_object else "none" if way == "-g0" or way.endswith(" -s") else ""
        judged.judge(kind == expected, f"{way}: {kind or 'taken apart'}, and not {expected or 'taken apart'}")
    judge_changed(judged, [path for path, way in made if "-static" not in way], folder, room)
    return made


def judge_changed(judged, paths, folder, room):
    """Files with some bytes of their headers changed: they are taken apart as readelf says, or refused in one line."""
    rng, path = random.Random(94), f"{folder}/changed"
    for _ in range(CHANGED):
        with open(rng.choice(paths), "rb") as file:
            whole = bytearray(file.read())
        start = int.from_bytes(whole[40:48], "little")
        for _ in range(rng.randint(1, 4)):
            at = rng.choice([rng.randrange(64), rng.randrange(min(start, len(whole) - 1), len(whole))])
            whole[at] = rng.choice([0, 1, 0x7F, 0x80, 0xFF, rng.randrange(256)])
        if not rng.randrange(8):
            del whole[rng.randrange(len(whole)) :]
        with open(path, "wb") as file:
            file.write(whole)
        compare(judged, path, room, "changed")


# ---- files that say much of themselves


def within(words, room=ROOM, seconds=60):
    """What a command says, with so much memory."""

    def limit():
        resource.setrlimit(resource.RLIMIT_AS, (room, room))

    how = {"capture_output": True, "text": True, "errors": "replace", "timeout": seconds, "check": False}
    return subprocess.run(words, preexec_fn=limit, **how)


def elf_with(count, names, each=b""):
    """An ELF file of so many section headers, all of whose names begin somewhere in a table of this size."""
    places = (at % max(1, names) for at in range(1, count - 1))
    headers = b"".join(struct.pack("<II4QII2Q", at, 1, 0, 0, 64, 0, 0, 0, 1, 0) for at in places)
    table = struct.pack("<II4QII2Q", 0, 3, 0, 0, 64, names, 0, 0, 1, 0)
    ident = b"\x7fELF" + bytes([2, 1, 1]) + bytes(9)
    start = 64 + names + len(each)
    # (how many sections there are, and which has the names, stands elsewhere where these are many)
    counts = (count, count - 1) if count < 0xFF00 else (0, 0xFFFF)
    head = ident + struct.pack("<HHI3QI6H", 2, 62, 1, 0, 0, start, 0, 64, 0, 0, 64, *counts)
    first = struct.pack("<II4QII2Q", 0, 0, 0, 0, 0, count, count - 1, 0, 0, 0)
    return head + b"a" * names + each + first + headers + table


def judge_hostile(judged, folder):
    script, path, room = f"{TOP}/scripts/elf_sections.py", f"{folder}/hostile", f"{folder}/hostile.d"
    os.mkdir(room)

    def refused(what, kind):
        ran = within([sys.executable, script, path, room])
        is_one_line = ran.stderr.count("\n") == 1 and kind in ran.stderr
        judged.judge(ran.returncode == 1 and is_one_line, f"{what}: {ran}")

    # many names that end nowhere, in 392 KB
    with open(path, "wb") as file:
        file.write(elf_with(4000, 130_000))
    refused("names without an end", "has no debugging entries")
    # sections without number, in a file that takes no room
    with open(path, "wb") as file:
        head = b"\x7fELF", 2, 1, 1, 2, 62, 1, 0, 0, 64, 0, 64, 0, 0, 64, 0, 0xFFFF
        file.write(struct.pack("<4sBBB9xHHI3QI6H", *head))
        file.write(struct.pack("<II4QII2Q", 0, 0, 0, 0, 0, 1 << 34, 0, 0, 0, 0))
        file.truncate(1 << 40)
    refused("sections without number", "sections")
    # compressed zeros: more than is announced, and more than may be
    contents = {front_door.INFO: b"\0" * (64 << 20), front_door.ABBREV: b"\0"}
    with open(path, "wb") as file:
        file.write(front_door.elf_file("<", True, 1, 2, contents))
    began = time.monotonic()
    ran = within([sys.executable, script, path, room])
    took = time.monotonic() - began
    judged.judge(ran.returncode == 0 and took < 8, f"64 MB of zeros take {took:.1f} seconds: {ran}")
    ran = within([sys.executable, script, path, room, "--most", "1000000"])
    judged.judge(ran.returncode == 1 and "more than the 1000000" in ran.stderr, f"more than is asked for: {ran}")
    with open(path, "rb") as file:
        whole = file.read()
    with open(path, "wb") as file:
        file.write(whole.replace((64 << 20).to_bytes(8, "little"), (64 << 40).to_bytes(8, "little"), 1))
    refused("a section of 64 TB", "more bytes than it can have")
    # (nobody writes to it, so that it would be waited for)
    os.remove(path)
    os.mkfifo(path)
    refused("a fifo", "is no file")


# ---- the scripts


def script(name, *words, env=None, **how):
    """What a script does and says, with these variables besides."""
    how |= {"capture_output": True, "text": True, "errors": "surrogateescape", "timeout": 120, "check": False}
    return subprocess.run([f"{TOP}/scripts/{name}", *words], env={**os.environ, **(env or {})}, **how)


def rows_in(text):
    return {row["file"]: row for row in csv.DictReader(text.splitlines())}


def judge_dwarf(judged, program, own, folder):
    env = {"DWARF": program}
    for words, status in ((["--help"], 0), ([own], 2), ([], 2)):
        ran = script("dwarf", *words, env=env)
        said = ran.stderr if status else ran.stdout
        judged.judge(ran.returncode == status and said.startswith("Runs"), f"scripts/dwarf {words}: {ran}")
    here, there = script("dwarf", own, "show", env=env), script("dwarf", "show", own, env=env)
    is_same = here.returncode == 0 and here.stdout and here.stdout == there.stdout
    judged.judge(is_same, f"scripts/dwarf show FILE: {there}")
    named = script("dwarf", "find", own, "main", env=env)
    holds = named.returncode == 0 and "DW_TAG_subprogram" in named.stdout
    judged.judge(holds, f"scripts/dwarf find FILE main: {named}")
    for none in (f"{folder}/no-such-program", f"{folder}/own.c"):
        ran = script("dwarf", own, "show", env={"DWARF": none})
        judged.judge(ran.returncode == 3 and not ran.stdout, f"scripts/dwarf without a program ({none}): {ran}")
    text = f"{folder}/no-program"
    with open(text, "wb") as file:
        file.write(b"\x7fELF but no more")
    os.chmod(text, 0o755)
    ran = script("dwarf", own, "show", env={"DWARF": text})
    judged.judge(ran.returncode == 3 and "can't be run" in ran.stderr, f"scripts/dwarf with what is no program: {ran}")


def judge_signals(judged, own, folder):
    """TERM and INT leave no folder behind, and end what was begun."""
    slow, room = f"{folder}/slow", f"{folder}/tmp"
    os.mkdir(room)
    with open(slow, "w", encoding="utf-8") as file:
        file.write(f"#!/bin/sh\necho $$ >> {folder}/began\nexec sleep 60\n")
    os.chmod(slow, 0o755)
    below = f"{folder}/below"
    os.mkdir(below)
    shutil.copy(own, below)
    env = {**os.environ, "DWARF": slow, "TMPDIR": room}
    how = {"env": env, "stdout": subprocess.DEVNULL, "stderr": subprocess.DEVNULL}
    for name, words in (("dwarf", [own, "show"]), ("audit", [below])):
        for number in (signal.SIGTERM, signal.SIGINT):
            open(f"{folder}/began", "w", encoding="utf-8").close()
            ran = subprocess.Popen([f"{TOP}/scripts/{name}", *words], **how)
            pids = waited_for(lambda: open(f"{folder}/began", encoding="utf-8").read().split())
            ran.send_signal(number)
            status = ran.wait(timeout=30)
            gone = waited_for(lambda: not any(is_there(int(pid)) for pid in pids))
            left = os.listdir(room)
            holds = pids and gone and status == 128 + number and not left
            judged.judge(holds, f"scripts/{name} ended by {number.name}: status {status}, {left}, {pids}")


def waited_for(what):
    for _ in range(200):
        if found := what():
            return found
        time.sleep(0.05)
    return None


def is_there(pid):
    try:
        os.kill(pid, 0)
    except ProcessLookupError:
        return False
    return True


# What becomes of the program, by how it is compiled.
RESULTS = {
    **dict.fromkeys(("-gdwarf-5", "-gdwarf-4", "-gdwarf-5 -Wl,--emit-relocs"), "sound"),
    **dict.fromkeys(("-gdwarf-3", "-gdwarf-2"), "unread"),
    "-gdwarf-5 -c": "unlinked",
    "-g0": "none",
}


def judge_audit(judged, program, made, folder):
    env, below = {"DWARF": program}, f"{folder}/-audited"
    os.mkdir(below)
    named = {way: shutil.copy(path, below) for path, way in made}
    odd = f'{below}/a "quoted"\nname, too'
    shutil.copy(made[0][0], odd)
    judge_results(judged, env, named, odd, folder)
    for words, status in (([f"{folder}/nowhere"], 2), ([odd], 2), ([], 2)):
        ran = script("audit", *words, env=env)
        judged.judge(ran.returncode == status, f"scripts/audit {words}: {ran}")
    ran = script("audit", below, env={"DWARF": f"{folder}/nowhere"})
    judged.judge(ran.returncode == 3 and not ran.stdout, f"scripts/audit without a program: {ran}")
    judge_killed(judged, made[0][0], folder)
    judge_rows(judged, env, made[:3], folder)
    judge_unreadable(judged, env, made[0][0], folder)


def judge_results(judged, env, named, odd, folder):
    """What is said of the files by how they were compiled, and of one with an odd name."""
    ran = script("audit", "--", "-audited", cwd=folder, env=env)
    rows = list(csv.DictReader(ran.stdout.splitlines(keepends=True)))
    results = {f"{folder}/{row['file']}": row for row in rows}
    for way, result in RESULTS.items():
        if way in named:
            found = results.get(named[way])
            judged.judge((found or {}).get("result") == result, f"audit: {way}: {found}")
    judged.judge(results.get(odd, {}).get("result") == "sound", f"audit: a path with a newline: {results.get(odd)}")
    holds = len(rows) == len(named) + 1 and ran.returncode == 1
    judged.judge(holds, f"audit: {len(rows)} rows of {len(named) + 1} files, status {ran.returncode}")


def judge_killed(judged, own, folder):
    """A checker that is killed leaves a row of its own, and so do the files behind it."""
    killer, below = f"{folder}/killer", f"{folder}/killed"
    with open(killer, "w", encoding="utf-8") as file:
        file.write("#!/bin/sh\nkill -9 $PPID\n")
    os.chmod(killer, 0o755)
    os.mkdir(below)
    for name in "abc":
        shutil.copy(own, f"{below}/{name}")
    ran = script("audit", below, "--jobs", "1", env={"DWARF": killer})
    rows = rows_in(ran.stdout)
    are_killed = all(it["result"] == "failed" and "SIGKILL" in it["which"] for it in rows.values())
    holds = len(rows) == 3 and ran.returncode == 1 and are_killed
    judged.judge(holds, f"scripts/audit, each checker killed: {ran}")


def without_seconds(rows):
    """The lines of rows, without what differs from run to run."""
    return {it.rpartition(",")[0] for it in rows.decode("utf-8", "surrogateescape").splitlines()}


def judge_rows(judged, env, made, folder):
    """A run goes on from its rows, from a line that was cut, and not from others' rows; rows that others made are taken
    up."""
    path, below = f"{folder}/rows.csv", f"{folder}/few"
    os.mkdir(below)
    for one, _ in made:
        shutil.copy(one, below)
    first = script("audit", below, "--csv", path, env=env)
    with open(path, "rb") as file:
        whole = file.read()
    for cut in (len(whole), len(whole) - 3, len(whole) - 40, 60, 0):
        with open(path, "wb") as file:
            file.write(whole[:cut])
        again = script("audit", below, "--csv", path, env=env)
        with open(path, "rb") as file:
            now = file.read()
        is_same = without_seconds(now) == without_seconds(whole) and len(now.splitlines()) == len(whole.splitlines())
        holds = again.returncode == first.returncode and is_same
        judged.judge(holds, f"scripts/audit --csv, cut at {cut}: {again}")
    with open(path, "w", encoding="utf-8") as file:
        file.write("a,b\n1,2\n")
    other = script("audit", below, "--csv", path, env=env)
    is_kept = open(path, encoding="utf-8").read() == "a,b\n1,2\n"
    judged.judge(other.returncode == 2 and is_kept, f"scripts/audit --csv over another file: {other}")
    os.remove(path)
    judge_shared(judged, env, first.returncode, below, path)


def judge_shared(judged, env, status, below, path):
    """Rows that others made, of the paths that have none, are taken up."""
    audit, how = os.fsencode(f"{TOP}/scripts/audit"), {"env": {**os.environ, **env}, "timeout": 60, "check": False}
    listed = subprocess.run([audit, below, "--csv", path, "--left"], capture_output=True, **how)
    left = listed.stdout.split(b"\0")
    with open(path, "ab") as file:
        for one in filter(None, left):
            ran = subprocess.run([audit, b"--one=" + one], stdout=file, **how)
            judged.judge(ran.returncode == 0, f"scripts/audit --one={one}: {ran}")
    again = script("audit", below, "--csv", path, env=env)
    with open(path, newline="", encoding="utf-8") as file:
        rows = rows_in(file.read())
    holds = again.returncode == status and len(left) > 2 and len(rows) > 2
    judged.judge(holds, f"scripts/audit, rows that others made: {again}")


def judge_unreadable(judged, env, own, folder):
    """A file and a folder that may not be read have rows (where the tests run as a user to whom something can be
    forbidden)."""
    below = f"{folder}/closed"
    os.makedirs(f"{below}/folder")
    shutil.copy(own, f"{below}/file")
    shutil.copy(own, f"{below}/open")
    os.chmod(f"{below}/file", 0)
    os.chmod(f"{below}/folder", 0)

    def as_nobody():
        if os.geteuid() == 0:
            os.setgroups([])
            os.setgid(65534)
            os.setuid(65534)

    for it in (folder, below):
        os.chmod(it, os.stat(it).st_mode | stat.S_IROTH | stat.S_IXOTH)
    room = f"{folder}/nobody"
    os.mkdir(room)
    os.chmod(room, 0o777)
    ran = script("audit", below, env={**env, "TMPDIR": room, "PYTHONDONTWRITEBYTECODE": "1"}, preexec_fn=as_nobody)
    rows = rows_in(ran.stdout)
    results = {os.path.relpath(path, below): row["result"] for path, row in rows.items()}
    holds = results.get("file") == results.get("folder") == "failed" and ran.returncode == 1
    judged.judge(holds, f"scripts/audit over what may not be read: {results} {ran.stderr[:300]}")
    os.chmod(f"{below}/folder", 0o755)


def judge_install(judged, folder):
    if not os.path.isfile(f"{TOP}/crates/dwarf/out/dwarf"):
        return
    ran = script("install.sh", "")
    judged.judge(ran.returncode == 2, f"scripts/install.sh with an empty PREFIX: {ran}")
    prefix, stage = "/usr/local/a b & c|d", f"{folder}/stage with spaces"
    os.makedirs(f"{stage}{prefix}/bin")
    with open(f"{folder}/elsewhere", "w", encoding="utf-8") as file:
        file.write("mine")
    os.symlink(f"{folder}/elsewhere", f"{stage}{prefix}/bin/dwarf")
    ran = script("install.sh", prefix.removeprefix("/"), env={"DESTDIR": stage})
    judged.judge(ran.returncode == 0, f"scripts/install.sh: {ran}")
    is_kept = open(f"{folder}/elsewhere", encoding="utf-8").read() == "mine"
    holds = is_kept and not os.path.islink(f"{stage}{prefix}/bin/dwarf")
    judged.judge(holds, "scripts/install.sh writes through a link")
    how = {"capture_output": True, "text": True, "check": False}
    for name in ("dwarf-elf", "dwarf-audit"):
        ran = subprocess.run([f"{stage}{prefix}/bin/{name}", "--help"], env={"PATH": os.environ["PATH"]}, **how)
        judged.judge(ran.returncode == 0 and "Usage" in ran.stdout, f"{name} where it is installed: {ran}")
    configured = f"{stage}{prefix}/lib/pkgconfig"
    if os.path.isfile(f"{configured}/rothelduf.pc") and shutil.which("pkg-config"):
        env = {**os.environ, "PKG_CONFIG_PATH": configured}
        named = subprocess.run(["pkg-config", "--cflags", "rothelduf"], env=env, **how)
        judged.judge(named.returncode == 0 and "opt/a" in named.stdout, f"pkg-config: {named}")
    ran = script("install.sh", prefix.removeprefix("/"), "--uninstall", env={"DESTDIR": stage})
    left = [name for _, _, names in os.walk(stage) for name in names]
    judged.judge(ran.returncode == 0 and not left, f"scripts/install.sh --uninstall leaves {left}")


def main(program):
    judged = front_door.Judged("elf_files.py")
    with tempfile.TemporaryDirectory(prefix="elf-files-") as folder:
        made = judge_sections(judged, folder)
        judge_hostile(judged, folder)
        if made:
            judge_dwarf(judged, program, made[0][0], folder)
            judge_signals(judged, made[0][0], folder)
            judge_audit(judged, program, made, folder)
        judge_install(judged, folder)
    print(f"{judged.passed} passed, {judged.failed} failed")
    return 0 if judged.passed and not judged.failed else 1


if __name__ == "__main__":
    if len(sys.argv) != 2 or not os.access(sys.argv[1], os.X_OK):
        sys.exit("usage: scripts/gate/elf_files.py PROGRAM")
    sys.exit(main(os.path.abspath(sys.argv[1])))
