"""Reads files of cases. scripts/gate/cases.py says how they are written."""

import ast
import dataclasses
import os
import re
import sys

sys.path.insert(1, os.path.dirname(os.path.dirname(os.path.abspath(__file__))))

import section_names  # noqa: E402

TOP = os.path.dirname(os.path.dirname(os.path.dirname(os.path.abspath(__file__))))

MARK = re.compile(r"(!\^|[$%=~!?|^])(?: |$)")
NAME = re.compile(r"([a-z][a-z0-9_-]+) =(?: |$)")
TITLE = re.compile(r"\[.*\]")
WORD = re.compile(r'"(?:[^"\\]|\\.)*"\S*|\S+')


@dataclasses.dataclass
class Answer:
    """What a command has to answer."""

    output: bytes = b""
    output_begins: bytes = b""
    counts: list = dataclasses.field(default_factory=list)
    error: bytes = b""
    error_begins: bytes = b""
    status: int = 0


@dataclasses.dataclass
class Case:
    """A command: the line where it stands, its words and the files that lie beside it, and what it has to answer."""

    place: str
    words: list
    files: dict
    answer: Answer


def words_of(text):
    """The words of a line, without its comment."""
    words = WORD.findall(text)
    return words[:next((at for at, word in enumerate(words) if word.startswith("#")), len(words))]


def unquoted(word):
    return ast.literal_eval("b" + word) if word.startswith('"') else word.encode()


def piece_of(word, names):
    """The bytes of one word of BYTES."""
    word, count = re.fullmatch(r"(.*?)(?:\*([0-9]+))?", word).groups()
    if re.fullmatch("[0-9a-f]{2}", word):
        piece = bytes.fromhex(word)
    elif word.startswith("file:"):
        with open(os.path.join(TOP, word[5:]), "rb") as file:
            piece = file.read()
    else:
        piece = unquoted(word) if word.startswith('"') else names[word]
    return piece * int(count or 1)


def bytes_of(words, names):
    """What BYTES spell."""
    whole, at = b"", None
    for word in words:
        if word.startswith("@"):
            at = int(word[1:])
        elif word.startswith(".."):
            whole = whole[:int(word[2:])]
        else:
            piece = piece_of(word, names)
            start = len(whole) if at is None else at
            if at is not None:
                at += len(piece)
                if at > len(whole):
                    raise ValueError("no such bytes to replace")
            whole = whole[:start] + piece + whole[start + len(piece):]
    return whole


class Reader:
    """Reads the cases of a file, line by line."""

    def __init__(self, file, text):
        self.cases, self.names, self.files = [], {}, {}
        self.name, self.spelled, self.answer, self.is_asked = None, [], None, False
        for number, line in enumerate(text.split("\n") + ["[end]"], 1):
            self.place = f"{file}:{number}"
            try:
                self.take(line)
            except (KeyError, ValueError, SyntaxError, OSError) as error:
                sys.exit(f"{self.place}: not understood: {error!r}")

    def take(self, line):
        name, mark = NAME.match(line), MARK.match(line)
        if not line or line.startswith("#"):
            return
        if self.name and line.startswith(" "):
            self.spell(line)
        elif name or TITLE.fullmatch(line):
            self.begin(name, line)
        elif mark and mark[1] in "$%":
            self.ask(mark[1], line[2:])
        elif self.answer is None:
            raise ValueError("an answer without a command")
        else:
            self.is_asked = False
            self.say(self.answer, mark[1] if mark else "|", line[mark.end():] if mark else line)

    def begin(self, name, line):
        if self.is_asked:
            raise ValueError("the command above has no answer")
        self.name, self.spelled, self.answer = name and name[1], [], None
        if name:
            self.spell(line[name.end():])
        else:
            self.files = {}

    def spell(self, text):
        self.spelled += words_of(text)
        self.names[self.name] = bytes_of(self.spelled, self.names)
        if self.name in section_names.NAMES:
            self.files[self.name] = self.names[self.name]

    def ask(self, mark, text):
        if not self.is_asked:
            self.name, self.answer, self.is_asked = None, Answer(), True
        words = [unquoted(word) for word in WORD.findall(text)]
        if mark == "$":
            files = {name: name for name in section_names.NAMES if name in self.files}
            words += [word.encode() for word in section_names.words_of(files)]
        self.cases.append(Case(self.place, words, dict(self.files), self.answer))

    def say(self, answer, mark, text):
        if mark == "|":
            answer.output += text.encode() + b"\n"
        elif mark == "^":
            answer.output_begins += text.encode() + b"\n"
        elif mark == "=":
            answer.output += bytes_of(words_of(text), self.names)
        elif mark == "~":
            count, start = WORD.findall(text)
            answer.counts.append((int(count), unquoted(start)))
        elif mark == "!":
            answer.error += text.encode() + b"\n"
        elif mark == "!^":
            answer.error_begins = text.encode()
        else:
            answer.status = int(text)
