"""Compares the output of `test_rows --say` for a row with the answers and the contents of the reference
model."""

import re

from .caches import CacheModel, WeightedModel
from .commands import command
from .curves import CurveModel
from .model import Model
from .sets import SetModel, call_sets
from .texts import cut_row, is_answer
from .words import MEMORY, Answers, Unread, Words, is_word

HASHERS = ("default", "same_hash", "two_hashes")
#: the hashers to which a row may be restricted
KINDS = {
    **dict.fromkeys(("map", "copied_map"), Model),
    **dict.fromkeys(("set", "copied_set"), SetModel),
    "cache": CacheModel,
    "weighted": WeightedModel,
    "curve": CurveModel,
}
#: how many numbers each word for counts answers
COUNTED = {"cost": 2, "clones": 1, "count_anew": 0}
SAID = re.compile(r"row |=|\+ |\| |(left out|refused)$")
SUMMARY = re.compile(
    r"(\d+) rows: each answer is right, and (\d+) of them refused; (\d+) rows had no memory of their own"
)


class WrongRow(Exception):
    """What is wrong with a row: the place, the answer and the expected answer."""


class LeftOut(Exception):
    """There was no memory for the row, and it has no more output."""


class Section:
    """The lines of output for a row under a hasher, and how many refusals they have."""

    def __init__(self, row, lines):
        self.row = row
        self.lines = iter(lines)
        self.refused = 0
        #: the containers that lose what forgotten drains had not given
        self.models = ()

    def next(self):
        line = next(self.lines, None)
        if line == "left out":
            raise LeftOut
        return line

    def hear(self, where):
        """The words of the answer, or nothing if a whole run was refused."""
        line = self.next()
        if line == "refused":
            self.refused += 1
            return None
        if line is None or not line.startswith("="):
            raise self.wrong(where, line, "an answer")
        words = line.split(" ")[1:]
        self.refused += words.count(MEMORY)
        return words

    def compare(self, where, answers):
        if answers.words != answers.heard:
            raise self.wrong(where, " ".join(answers.heard), " ".join(answers.words))

    def stand(self, where, model):
        """Compares the contents of a container with the model's."""
        line = self.next()
        if line is None or not line.startswith("+ ") or not model.is_like(line[2:].split(" ")):
            raise self.wrong(where, line, f"+ {model.state()}")

    def wrong(self, where, came, wanted):
        number, line = where
        return WrongRow(
            f"{self.row.file}:{number}: {self.row.name}: {line}\n  came {came}\n  a plain list has {wanted}"
        )

    def end(self):
        line = self.next()
        if line is not None:
            raise self.wrong((self.row.first, self.row.mode), line, "no more")


def judge_section(row, lines):
    """How many refusals the output for the row under one hasher has, whether the row was left out, and the
    models at its end."""
    section, words = Section(row, lines), Words(row.mode)
    try:
        kind = words.word()
        if kind in HASHERS:
            kind = words.word()
        if kind in KINDS:
            sizes = [words.size() for _ in words.words[words.read :]]
            judge_calls(section, row, lambda: KINDS[kind](*sizes))
        elif kind == "commands":
            judge_runs(section, row, Model(), words.next())
        elif kind == "cache_commands":
            judge_runs(section, row, CacheModel(words.size()), words.next())
        elif kind == "pair_commands":
            sizes = (words.size(), words.size())
            judge_found(section, row, (min(sizes), sizes[1]))
        elif kind == "uses":
            judge_found(section, row, (words.size(),))
        elif kind == "text":
            judge_text(section, row)
        else:
            raise Unread
        section.end()
    except LeftOut:
        return section.refused, True, section.models
    except Unread:
        raise WrongRow(f"{row.file}:{row.first}: {row.name}: {row.mode}\n  this is no such row") from None
    return section.refused, False, section.models


def judge_calls(section, row, make):
    """Compares each call with two models."""
    models = section.models = (make(), make())
    for number, line, words in row.calls():
        where = (number, line)
        answers = Answers(section.hear(where) or [])
        try:
            say(models, words, answers)
        except Unread:
            raise section.wrong(where, " ".join(answers.heard), "no such line") from None
        section.compare(where, answers)
        for model in models:
            section.stand(where, model)


def say(models, words, answers):
    """Lets the first model answer; after `other` the second, and after `both` the two."""
    rest = words.copy()
    name = rest.word()
    if name == "other":
        models[1].answer(rest, answers)
    elif name == "both":
        call_both(models, rest, answers)
    elif name == "lost":
        answers.count(sum(model.lost for model in models))
        for model in models:
            model.lost = 0
    elif name in COUNTED:
        for _ in range(COUNTED[name]):
            answers.echo_number()
    else:
        rest = words.copy()
        models[0].answer(rest, answers)
    if rest.are_left():
        raise Unread


def call_both(models, words, answers):
    if models[0].kind == "set":
        call_sets(*models, words, answers)
        return
    if models[0].kind != "map":
        raise Unread
    name = words.word()
    first, second = ([(key[0], value[0]) for key, value in model.list.pairs] for model in models)
    if name in ("eq", "hash"):
        answers.tell(first == second)
    elif name == "less":
        answers.tell(first < second)
    elif name == "cmp":
        answers.words += [is_word(first < second), is_word(first == second), is_word(first > second)]
    else:
        raise Unread


def judge_runs(section, row, model, whole):
    """Two runs, each of a list of commands, which changes nothing if it is refused; or after `whole` one run,
    whose closure returns true for every pair."""
    commands = row.commands()
    half = len(commands) // 2
    for run in (commands,) if whole else (commands[:half], commands[half:]):
        where = (row.first, f"the run of {len(run)} commands that begins with {run[0] if run else 'none'}")
        heard = section.hear(where)
        if heard is not None:
            answers = Answers(heard, "whole replies" if whole else "replies")
            for line in run:
                command(model, line, answers)
            section.compare(where, answers)
        section.stand(where, model)


def judge_found(section, row, capacities):
    """What caches of these capacities find by the lines, if none is refused. The number of a key is that of
    its line."""
    for capacity in capacities:
        where = (row.first, row.mode)
        heard = section.hear(where)
        if heard is None:
            return
        model, answers = CacheModel(capacity), Answers(heard, "text")
        for number, line in enumerate(row.commands(), 1):
            name, key, *rest = line.split(" ")
            command(model, " ".join((name, f"{key}.{number}", *rest)), answers)
        section.compare(where, answers)
        section.stand(where, model)


def judge_text(section, row):
    """The answer to a text."""
    text, _ = cut_row(row.lines)
    line, said = section.next(), []
    if line == "refused":
        section.refused += 1
        return
    while line is not None:
        if not line.startswith("| "):
            raise section.wrong((row.first, row.mode), line, "a line of an answer")
        said.append(line[2:])
        line = section.next()
    if not said or not is_answer(text, "\n".join(said)):
        raise section.wrong((row.first, row.mode), "\n".join(said), "another answer to the text")


class Judge:
    """Judges the output for rows. The same output for a row under a hasher is judged once."""

    def __init__(self):
        self.judged = {}
        #: how many blocks of memory the rows that were judged last lost
        self.lost = 0

    def judge(self, rows, said):
        """How many refusals the output has, and how many rows were left out. If the program had no memory to
        begin with, it prints nothing, or that the rows are left out."""
        self.lost = 0
        lines = said.split("\n")
        found = next((place for place, line in enumerate(lines) if SUMMARY.fullmatch(line)), None)
        if found is None:
            if said:
                reports = [line for line in lines if line and not SAID.match(line)] or lines[-4:]
                raise WrongRow("\n".join(["what is said has no end, or a report in it:", *reports]))
            return None
        told = tuple(map(int, SUMMARY.fullmatch(lines[found]).groups()))
        refused, left_out, counted = 0, 0, set()
        sections = sections_of(lines[:found])
        if not sections and told[0] == 0 and told[2] > 0:
            return 0, told[2]
        for row in rows:
            for hasher in hashers_of(row):
                head = f"row {row.first} {hasher}"
                if not sections or sections[0][0] != head:
                    place = f"{row.file}#{row.number}: {row.name}"
                    raise WrongRow(f"{place}: nothing is said under the hasher {hasher}")
                more, is_left_out, models = self.judge_once(row, sections.pop(0)[1])
                refused += more
                left_out += is_left_out
                for model in models:
                    self.lost += model.lost_nodes + model.lost_items
                    counted |= {row.file} if model.lost_items else set()
                if is_left_out:
                    break
        if sections or told != (len(rows), refused, left_out):
            counted = f"{refused} answers are refusals, and {left_out} rows are left out"
            raise WrongRow(f"{lines[found]}\n  but {counted}")
        # The lost items of a file share their counts, which are a block too.
        self.lost += len(counted)
        return refused, left_out

    def judge_once(self, row, lines):
        key = (row.file, row.number, "\n".join(lines))
        if key not in self.judged:
            self.judged[key] = judge_section(row, lines)
        return self.judged[key]


def hashers_of(row):
    """The hashers under which a row is run."""
    kind = row.mode.split(" ")[0]
    if kind in HASHERS:
        return (kind,)
    return HASHERS[:1] if kind in ("pair_commands", "uses", "text") else HASHERS


def sections_of(lines):
    """The first line of each section, and the lines after it."""
    sections = []
    for line in lines:
        if line.startswith("row "):
            sections.append((line, []))
        elif not sections:
            raise WrongRow(f"{line}\n  this is said before any row")
        else:
            sections[-1][1].append(line)
    return sections
