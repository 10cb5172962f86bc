"""The names of the sections of debugging entries: each has four.

Here a section is called as the program's option for its file is, without the two hyphens in front: `line-str`. So are
the files of a case (scripts/gate/case_reader.py) and those that bench/inputs.py makes. `--line-str` is the option,
`debug_line_str` the file that scripts/sections.sh writes, which is the section's name in an ELF file without its dot,
and `line_str` the word for it in Python.
"""

import os

# In the order of the program's options.
NAMES = ("info", "abbrev", "str", "line-str", "str-offsets")


def option_of(name):
    return f"--{name}"


def word_of(name):
    return name.replace("-", "_")


def named(word):
    """The section of a word in Python."""
    return word.replace("_", "-")


def file_of(name):
    return f"debug_{word_of(name)}"


FILES = tuple(map(file_of, NAMES))


def path_in(folder, name):
    """The file of a section in a folder where scripts/sections.sh wrote."""
    return os.path.join(folder, file_of(name))


def paths_in(folder, names=NAMES):
    """The files of these sections in such a folder."""
    return {name: path_in(folder, name) for name in names}


def words_of(paths):
    """The words by which the program is given the files of sections."""
    return [word for name, path in paths.items() for word in (option_of(name), path)]
