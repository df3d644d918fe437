"""The grammar of rows of random calls, by the lines of calls.py."""

import itertools
import re
from functools import cache

from plain_list.judge import COUNTED, HASHERS
from plain_list.rows import Row, rows_of

from .calls import KINDS, SIMPLE, SYMBOLS

NAME = "random calls"
#: the symbols that rows.py draws, and the patterns that match them
DIGITS = r"(?:0|[1-9]\d{0,18}|1844674407370955161[0-5])"  # less than GREATEST
WRITTEN = {
    **dict.fromkeys(("KEY", "VALUE", "NEW", "WEIGHED"), rf"{DIGITS}(?:\.{DIGITS})?"),
    **dict.fromkeys(("SIZE", "CAPACITY"), rf"(?:{DIGITS}|max)"),
    **dict.fromkeys(("COUNT", "NUMBER"), DIGITS),
    "RANGE": f"{DIGITS} {DIGITS}",
}
#: the questions that only worked rows ask
NOT_DRAWN = ("lost", "is_reserved")
#: the words before a call: the numbers for which it is made, which container it calls, and whether it calls a
#: cache's map
BEFORE = re.compile(rf"(each {WRITTEN['RANGE']} )?(other )?(inside )?(both )?")


@cache
def weights_of(lines):
    """The lines, and the weight of each."""
    return dict(map(parted, lines))


def parted(line):
    often, _, rest = line.partition(" ")
    return (rest, int(often)) if often.isdigit() else (line, 1)


def are_two(calls):
    """Whether a row of these calls has two containers. A list of commands has one."""
    return "command" not in calls


def with_words(words, call):
    """The call with words before it, but after `each` and its numbers."""
    before = BEFORE.match(call)[1] or ""
    return f"{before}{words} {call.removeprefix(before)}"


@cache
def reader_of(symbol):
    """The pattern for the symbol, with a space before each word."""
    if symbol.endswith(("?", "*")):
        return f"(?:{reader_of(symbol[:-1])}){symbol[-1]}"
    if symbol in SYMBOLS:
        return reader_of_lines(SYMBOLS[symbol])
    return f" {WRITTEN.get(symbol, re.escape(symbol))}"


@cache
def reader_of_lines(lines):
    readers = ("".join(map(reader_of, line.split(" "))) for line in weights_of(lines))
    return f"(?:{'|'.join(readers)})"


def is_one_of(lines, words):
    return re.fullmatch(reader_of_lines(lines), f" {words}") is not None


def is_line(calls, line):
    """Whether a row of these calls has the line."""
    before = BEFORE.match(line)
    each, other, inside, both = before.groups("")
    call = each + line[before.end() :]
    if other and not are_two(calls):
        return False
    if both:
        return line == both + call and is_one_of(calls.get("both", ()), call)
    groups = calls.get("inside", {}) if inside else calls
    return any(is_one_of(lines, call) for name, lines in groups.items() if name not in ("both", "inside"))


def calls_of(kind):
    """The calls of rows with this second line, if there are any."""
    return next((calls for line, (_, calls) in KINDS.items() if is_one_of((line,), kind)), None)


def is_row(text):
    """Whether the text is a row."""
    lines = text.split("\n")
    if len(lines) < 4 or lines[0] != NAME or lines[-1]:
        return False
    calls = calls_of(lines[1])
    return calls is not None and all(is_line(calls, line) for line in lines[2:-1])


def row_of(text):
    """The row with this text."""
    name, kind, lines = text.removesuffix("\n").split("\n", 2)
    return Row(NAME, 1, name, kind, lines, 3)


def short_lines(lines, at):
    """The lines that may replace one of a row, the shortest first, then the least."""
    calls = calls_of(lines[1]) or {}
    if at == 1:
        short = [it for kind in KINDS for it in with_small_numbers(kind)]
    elif at > 1:
        lines = [line for name in SIMPLE for line in weights_of(calls.get(name, ()))]
        simple = [it for line in lines for it in with_small_numbers(line)]
        short = simple + [f"other {line}" for line in simple]
    else:
        short = []
    return sorted(short, key=lambda it: (len(it), it))


def with_small_numbers(line):
    """The line with each choice of small numbers, if all its symbols are numbers or items."""
    words = line.split(" ")
    if any(word.upper() == word and word not in WRITTEN for word in words) or "RANGE" in words:
        return []
    choices = ("012" if word in WRITTEN else (word,) for word in words)
    return [" ".join(chosen) for chosen in itertools.product(*choices)]


def bound(text, hasher):
    """The row under this hasher only."""
    return text.replace("\n", f"\n{hasher} ", 1)


def forgotten(folder):
    """The lines of worked rows that no random row can have, with their places."""
    hashers = "|".join(HASHERS)
    for file in sorted(folder.glob("*.rows")):
        for row in rows_of(file, file.name):
            calls = calls_of(re.sub(f"^({hashers}) ", "", row.mode))
            for number, line in enumerate(row.commands() if calls else [], row.first):
                if not line.startswith("#") and not all(is_drawn(calls, it) for it in calls_in(line)):
                    yield f"{file.name}:{number}", line


def is_drawn(calls, call):
    """Whether a row of these calls has the call, or it asks for a count."""
    return call in (*COUNTED, *NOT_DRAWN) or is_line(calls, call)


def calls_in(line):
    """The calls of a line, those of `each` made for the number 1 only."""
    return re.sub(r"\bn\b", "1", re.sub(r"^each \d+ \d+ ", "", line)).split(", ")
