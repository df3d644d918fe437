"""The rows of a file."""

import re
from dataclasses import dataclass

from .words import Unread, Words


@dataclass
class Row:
    """A row of a file. Rows are numbered from 1."""

    file: str
    number: int
    name: str
    mode: str
    lines: str
    #: the number of the first of its lines
    first: int

    def calls(self):
        """Each call that is made, with the number of its line and the line."""
        for number, line in enumerate(self.lines.split("\n"), self.first):
            if not line.startswith("#"):
                for words, _ in calls_of(line):
                    yield number, line, words

    def commands(self):
        """The lines without the written answers."""
        return [line.partition(" -> ")[0] for line in self.lines.split("\n")]


def calls_of(line):
    """Each call of a line, with its answer, if one is written. Commas stand between several calls, as between
    their answers."""
    calls, mark, written = line.partition(" -> ")
    words, numbers = Words(calls), (0,)
    if words.words[:1] == ["each"]:
        words.next()
        numbers = range(words.number(), words.number() + 1)
    calls = " ".join(words.words[words.read :]).split(", ")
    answers = written.split(", ") if mark else [None] * len(calls)
    if len(calls) != len(answers):
        raise Unread
    for n in numbers:
        for call, answer in zip(calls, answers):
            yield Words(call, n), answer and re.sub(r"\bn\b", str(n), answer)


def rows_of(path, file):
    """The rows of the file at the path. Lines between rows that begin with `#` belong to no row."""
    rows, lines, place = [], path.read_text().split("\n"), 0
    while place < len(lines):
        if not lines[place] or lines[place].startswith("#"):
            place += 1
            continue
        end = lines.index("", place)
        if end - place < 3:
            raise Unread(f"{file}:{place + 1}: a row has three lines at least")
        name, mode, *body = lines[place:end]
        rows.append(Row(file, len(rows) + 1, name, mode, "\n".join(body), place + 3))
        place = end
    return rows


def files_of_rows(top):
    """The files of rows that the program is run with, which have to be all that there are."""
    crate = top / "crates/test_rows"
    named = (crate / "args").read_text().split()
    for file in sorted(it.name for it in (crate / "data").glob("*")):
        if named.count(file) != 1:
            raise Unread(f"crates/test_rows/args names {file} {named.count(file)} times")
    return named
