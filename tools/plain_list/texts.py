"""Texts of `linkrun` and their answers."""

import re
from functools import partial

from .caches import CacheModel, WeightedModel
from .commands import answer_text, is_line, show
from .model import Model
from .words import MEMORY, Answers, number

SHOWN_BYTES = {"\\r": "\r", "\\x": "\xff", "\\": ""}
#: how many numbers follow the name of each mode
MODE_NUMBERS = {"map": 0, "cache": 1, "weighted": 1, "pair": 2}
PAIR_WORDS = ("insert", "use", "remove", "peek")


def meant(text):
    """The text of a row: `\\r` is byte 13, `\\x` byte 255, and another `\\` nothing."""
    return re.sub(r"\\[rx]?", lambda found: SHOWN_BYTES[found[0]], text)


def cut_row(lines):
    """The text of a row, and the answer after a line `=`, if there is one."""
    text, mark, written = (lines + "\n").partition("\n=\n")
    return meant(text if mark else lines), written.removesuffix("\n") if mark else None


def mode_of(line):
    """What the first line of a text names, or nothing if it is bad."""
    name, *words = line.split(" ")
    numbers = [number(word) for word in words]
    if None in numbers or len(numbers) != MODE_NUMBERS.get(name):
        return None
    if name == "pair" and numbers[0] > numbers[1]:
        return None
    return name, numbers


def answers_to(text):
    """The answers to the lines of a text, each compared with a line of the given answer."""
    if not text:
        return []
    first, *lines = text.removesuffix("\n").split("\n")
    mode = mode_of(first)
    if mode is None:
        return [say_bad]
    name, numbers = mode
    if name == "pair":
        caches = [CacheModel(number) for number in numbers]
        return [partial(answer_pair, caches, line) for line in lines] + [partial(show, it) for it in caches]
    model = {"map": Model, "cache": CacheModel, "weighted": WeightedModel}[name](*numbers)
    return [partial(answer_text, model, line) for line in lines]


def say_bad(answers):
    answers.say("bad")


def answer_pair(caches, line, answers):
    """Lets both caches answer a line."""
    if line.split(" ")[0] in PAIR_WORDS and is_line("cache", line):
        for cache in caches:
            answer_text(cache, line, answers)
    else:
        say_bad(answers)


def is_answer(text, answer):
    """Whether a text may have this answer. No insert into two caches is refused."""
    lines = answers_to(text)
    if not lines:
        return not answer
    said = answer.split("\n")
    if MEMORY in answer and text.startswith("pair "):
        return False
    return len(said) == len(lines) and all(is_said(heard, line) for heard, line in zip(said, lines))


def is_said(heard, line):
    """Whether the given line is what the model answers."""
    answers = Answers(heard.split(" "), "text")
    line(answers)
    return answers.words == answers.heard


def answer_of(text):
    """The model's answer to a text, if nothing is refused."""
    said = []
    for line in answers_to(text):
        answers = Answers([], "text")
        line(answers)
        said.append(" ".join(answers.words) + "\n")
    return "".join(said)
