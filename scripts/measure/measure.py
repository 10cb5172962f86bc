#!/usr/bin/env python3
"""Measures the seconds of processor and the most memory that `dwarf` takes.

Usage: scripts/measure/measure.py units PROGRAM [COUNT]
       scripts/measure/measure.py section PROGRAM FILE
       scripts/measure/measure.py peers PROGRAM FILE [--gimli WALK] [--turns N] [--csv OUT]

PROGRAM is the built `dwarf` (crates/dwarf/out/dwarf). Of a run that takes less memory than some 7 MB so much is told
(scripts/measured.py), so small sections tell nothing of memory.

units: over large units that compilers write. A C program of COUNT structures and as many functions (12,000 by default)
is written, compiled as one unit by each compiler that is there, copied and shown. Printed are the size of the section,
and of each run the seconds, the peak of memory, and that peak by the section's bytes. The status is 1 where a copy
differs from the section, a run fails or takes more than 12 bytes a byte, or no compiler is there, else 0.

section: over the whole .debug_info of a linked FILE, which has at least 20 MB of it, as a C++ program of some twenty
sources that include much of the standard library. Printed are, for the fastest of a few runs of `copy` and `show`, the
seconds, the megabytes of .debug_info a second, the peak of memory, and that peak by the section's bytes; the same of
`readelf` and `llvm-dwarfdump` where they are there; the seconds over 1, 2, 4 and 8 copies of the section, one behind
the other; and the memory that each of 100,000 units of 20 bytes takes. The status is 1 where a copy differs, a run
fails, a peak is above 7 bytes a byte, the seconds for 8 copies are more than 10 % off those of linear growth, or a unit
takes more than 400 bytes besides its entries, else 0.

peers: beside other readers over FILE, a linked ELF file of version 5 or a folder that bench/inputs.py made. These are
`readelf` and `llvm-dwarfdump`, where they are there and FILE is no folder, and with --gimli a program that walks
(`raw`), checks and shows such sections by gimli, called `WALK JOB DIR` over a folder of files `info`, `abbrev`, `str`,
`line_str` and `str_offsets`. They take turns, N of them (by default nine), and the middle one counts. What is told of
each job and reader are the seconds, the megabytes of .debug_info a second, and the most memory that it took at any time
for each byte of all sections, as a table, and with --csv as lines `job,reader,seconds,megabytes_a_second`, of which
scripts/measure/chart.py draws a chart.
"""

import argparse
import csv
import os
import shutil
import statistics
import subprocess
import sys
import tempfile
from dataclasses import dataclass

sys.path.insert(1, os.path.dirname(os.path.dirname(os.path.abspath(__file__))))

import elf_sections  # noqa: E402
import measured  # noqa: E402
import section_names  # noqa: E402

READERS = [["readelf", "--debug-dump=info"], ["llvm-dwarfdump", "--debug-info"]]

# The sections that every command needs, without those of texts.
ENTRIES = ("info", "abbrev")


def readers(file):
    """The other readers that are there, with their words over a file."""
    return [[*words, file] for words in READERS if shutil.which(words[0])]


def dwarf(runner, program, command, paths, output=os.devnull):
    return runner.run([program, command, *section_names.words_of(paths)], output)


def same(path, other):
    with open(path, "rb") as one, open(other, "rb") as two:
        return one.read() == two.read()


# ---- large units

COMPILERS = [["gcc", "-gdwarf-5"], ["gcc", "-gdwarf-5", "-gdwarf64"], ["clang", "-gdwarf-5"]]

# The most memory, in bytes for each byte of the section.
MOST_OF_UNITS = 12


def source(count):
    """A program of so many structures and functions."""
    lines = []
    for at in range(count):
        lines.append(f"struct pair_{at} {{ int first_{at}; long second_{at}; struct pair_{at} *next; }};")
        lines.append(f"int sum_{at}(struct pair_{at} *pair, int more) {{")
        lines.append(f"    int total = pair->first_{at} + more;")
        lines.append(f"    for (int turn = 0; turn < {at % 7}; turn++) {{ total += (int)pair->second_{at}; }}")
        lines.append("    return total;")
        lines.append("}")
    lines.append("void _start(void) { for (;;) { } }")
    return "\n".join(lines) + "\n"


def compiled(compiler, count, room):
    """The sections of such a program, in files of the folder."""
    with open(f"{room}/large.c", "w", encoding="utf-8") as file:
        file.write(source(count))
    words = [*compiler, "-O0", "-ffreestanding", "-nostdlib", "-static", "-o", f"{room}/large", f"{room}/large.c"]
    subprocess.run(words, check=True)
    elf_sections.extract(f"{room}/large", room)
    return section_names.paths_in(room, ENTRIES)


def measure_units(given, runner, room):
    there = [it for it in COMPILERS if shutil.which(it[0])]
    well = bool(there)
    for compiler in there:
        paths = compiled(compiler, given.count, room)
        size = os.path.getsize(paths["info"])
        print(f"{' '.join(compiler)}: {size} bytes")
        for command in ("copy", "show"):
            ran = dwarf(runner, given.program, command, paths, f"{room}/written")
            is_right = ran.status == 0 and is_written(command, paths["info"], f"{room}/written")
            answer = "well" if is_right else "NOT WELL"
            each = f"{ran.peak / size:.1f} a byte"
            print(f"  {command}: {ran.seconds:.2f} s, peak {ran.peak} bytes, {each}, {answer}")
            well = well and is_right and ran.peak <= MOST_OF_UNITS * size
    return 0 if well else 1


def is_written(command, section, written):
    """Whether a copy has the section's bytes, and a text is a unit's."""
    if command == "copy":
        return same(section, written)
    with open(written, "rb") as file:
        return file.read(5) == b"unit "


# ---- a whole section

# The most memory, in bytes for each byte of the section, and for each unit besides its entries.
MOST_OF_SECTION, MOST_OF_UNIT = 7, 400

# How often a command is run; the fewest seconds count.
RUNS = 24

# A table of one declaration without attributes, and a unit of 20 bytes: its root, and the padding behind it.
TABLE = bytes.fromhex("0111000000" + "00")
SMALL = bytes.fromhex("10000000" + "0500" + "01" + "08" + "00000000" + "01" + "00" * 7)
SMALL_UNITS = 100_000


def best(times, run):
    """The run of the fewest seconds of so many, or one that failed."""
    runs = [run() for _ in range(times)]
    return next((it for it in runs if it.status), None) or min(runs, key=lambda it: it.seconds)


def section_row(name, size, ran):
    speed = size / max(ran.seconds, 0.001) / 1e6
    print(f"| {name} | {ran.seconds:.3f} | {speed:.1f} | {ran.peak / 1e6:.0f} | {ran.peak / size:.1f} |")


def tell_commands(given, runner, paths, room):
    """Prints what each command takes, and then the other readers; whether all went well."""
    size, well = os.path.getsize(paths["info"]), True
    print(f"{size} bytes\n\n| Run | Seconds | MB a second | Peak (MB) | Peak a byte |\n|---|--:|--:|--:|--:|")
    for command in ("copy", "show"):
        ran = best(RUNS, lambda command=command: dwarf(runner, given.program, command, paths))
        section_row(f"`dwarf {command}`", size, ran)
        well = well and ran.status == 0 and ran.peak <= MOST_OF_SECTION * size
    dwarf(runner, given.program, "copy", paths, f"{room}/written")
    well = well and same(paths["info"], f"{room}/written")
    for words in readers(given.file):
        section_row(f"`{' '.join(words[:-1])}`", size, runner.run(words))
    return well


def tell_copies(given, runner, paths, room):
    """Prints the seconds over copies of the section; whether they grow as those do."""
    with open(paths["info"], "rb") as file:
        section = file.read()
    print("\n| Copies | `copy` (seconds) | `show` (seconds) |\n|--:|--:|--:|")
    copies, took = {**paths, "info": f"{room}/copies"}, {}
    for count in (1, 2, 4, 8):
        with open(copies["info"], "wb") as file:
            file.writelines([section] * count)
        # (a short run is disturbed by more, so it has more tries)
        for command in ("copy", "show"):
            ran = best(RUNS // count, lambda command=command: dwarf(runner, given.program, command, copies))
            took[command, count] = ran.seconds if ran.status == 0 else 0.0
        print(f"| {count} | {took['copy', count]:.3f} | {took['show', count]:.3f} |")
    return all(abs(took[it, 8] / 8 - took[it, 1]) <= 0.1 * took[it, 1] for it in ("copy", "show"))


def tell_small_units(given, runner, room):
    """Prints what a small unit takes in memory; whether that is little."""
    paths = {"info": f"{room}/small", "abbrev": f"{room}/table"}
    for path, content in ((paths["info"], SMALL * SMALL_UNITS), (paths["abbrev"], TABLE)):
        with open(path, "wb") as file:
            file.write(content)
    each = dwarf(runner, given.program, "copy", paths).peak / SMALL_UNITS
    print(f"\nA unit of 20 bytes among {SMALL_UNITS:,} takes {each:.0f} bytes, its entry included.")
    return each <= MOST_OF_UNIT + 100


def measure_section(given, runner, room):
    elf_sections.extract(given.file, room)
    paths = section_names.paths_in(room, ENTRIES)
    commands, copies = tell_commands(given, runner, paths, room), tell_copies(given, runner, paths, room)
    return 0 if tell_small_units(given, runner, room) and commands and copies else 1


# ---- beside other readers

# The jobs, each with the command of `dwarf` and the word of WALK.
JOBS = {"walk": ("copy", "raw"), "check": ("check", "check"), "text": ("show", "show")}


@dataclass
class Row:
    """What a reader takes for a job: the seconds, the megabytes of .debug_info a second, and the most memory in bytes
    for each byte of all sections."""

    job: str
    reader: str
    seconds: float
    speed: float
    peak: float


def put_sections(file, folder):
    """Puts the sections of an ELF file, or of a folder of inputs, into files of a folder, those that aren't there
    empty."""
    paths = {name: f"{folder}/{section_names.word_of(name)}" for name in section_names.NAMES}
    if not os.path.isdir(file):
        elf_sections.extract(file, folder)
    for name, path in paths.items():
        given = os.path.join(file, name)
        if not os.path.isdir(file):
            os.rename(section_names.path_in(folder, name), path)
        elif os.path.isfile(given):
            shutil.copyfile(given, path)
        else:
            open(path, "wb").close()
    return paths


def peer_commands(given, paths, folder):
    """The commands by their jobs and readers."""
    found = {}
    for job, (command, _) in JOBS.items():
        over = {name: paths[name] for name in ENTRIES} if command == "copy" else paths
        found[job, f"dwarf {command}"] = [given.program, command, *section_names.words_of(over)]
    if given.gimli:
        found |= {(job, "gimli"): [given.gimli, word, folder] for job, (_, word) in JOBS.items()}
    if not os.path.isdir(given.file):
        found |= {("text", words[0]): words for words in readers(given.file)}
    return found


def rows_of(taken, sizes):
    """A row for each job and reader of which no run failed; 1 is the status of a check that finds something."""
    for (job, reader), runs in taken.items():
        if all(it.status in (0, 1) for it in runs):
            seconds = statistics.median(it.seconds for it in runs)
            peak = max(it.peak for it in runs) / sum(sizes.values())
            yield Row(job, reader, seconds, sizes["info"] / 1e6 / seconds, peak)


def measure_peers(given, runner, folder):
    paths = put_sections(given.file, folder)
    sizes = {name: os.path.getsize(path) for name, path in paths.items()}
    commands = peer_commands(given, paths, folder)
    taken = {key: [] for key in commands}
    for _ in range(given.turns):
        for key, words in commands.items():
            taken[key].append(runner.run(words))
    rows = list(rows_of(taken, sizes))
    print(f"{sizes['info'] / 1e6:.1f} MB of .debug_info; the middle one of {given.turns} turns\n")
    print("| Job | Reader | Seconds | MB a second | Bytes a byte |\n|---|---|--:|--:|--:|")
    for it in rows:
        print(f"| {it.job} | {it.reader} | {it.seconds:.3f} | {it.speed:.1f} | {it.peak:.1f} |")
    if given.csv:
        with open(given.csv, "w", encoding="utf-8", newline="") as file:
            out = csv.writer(file, lineterminator="\n")
            out.writerow(("job", "reader", "seconds", "megabytes_a_second"))
            out.writerows((it.job, it.reader, f"{it.seconds:.3f}", f"{it.speed:.1f}") for it in rows)
    return 0


# ---- words


def asked():
    ask = argparse.ArgumentParser(description=__doc__, formatter_class=argparse.RawDescriptionHelpFormatter)
    words = ask.add_subparsers(metavar="units|section|peers", required=True)
    measures = {"units": measure_units, "section": measure_section, "peers": measure_peers}
    parsers = {}
    for word, measure in measures.items():
        parsers[word] = words.add_parser(word)
        parsers[word].add_argument("program", metavar="PROGRAM", type=os.path.abspath)
        parsers[word].set_defaults(measure=measure)
    parsers["units"].add_argument("count", metavar="COUNT", nargs="?", type=int, default=12_000)
    parsers["section"].add_argument("file", metavar="FILE")
    parsers["peers"].add_argument("file", metavar="FILE")
    parsers["peers"].add_argument("--gimli", metavar="WALK")
    parsers["peers"].add_argument("--turns", metavar="N", type=int, default=9)
    parsers["peers"].add_argument("--csv", metavar="OUT")
    given = ask.parse_args()
    if not os.access(given.program, os.X_OK):
        ask.error(f"there is no program {given.program}")
    return given


def main():
    given = asked()
    with tempfile.TemporaryDirectory(prefix="measure-") as room, measured.Runner() as runner:
        try:
            return given.measure(given, runner, room)
        except elf_sections.Unreadable as why:
            sys.exit(f"measure.py: {given.file} {why}")


if __name__ == "__main__":
    sys.exit(main())
