"""Shortens a text that shows a difference."""

import itertools
import re
import time

#: shorter texts are tried for this many seconds
PATIENCE = 120
#: at most this many consecutive pieces are left out wherever they occur
FEW = 4
#: numbers less than this replace others
SMALL = 64


def shortest(text, short_lines, is_kept):
    """The text without the lines, words and bytes that can be left out, and with the shortest lines, words
    and numbers that can replace the others, as long as `is_kept` holds. `short_lines` has the lines that may
    replace one of the lines, in the order in which they are tried."""
    end = time.monotonic() + PATIENCE

    def is_kept_in_time(text):
        return time.monotonic() < end and is_kept(text)

    before = None
    while text != before:
        before = text
        for piece in (r"[^\n]*\n|[^\n]+", r"[^ \n]*[ \n]|[^ \n]+", r" [^ \n]*|\n?[^ \n]+|\n", r"(?s)."):
            text = "".join(less(re.findall(piece, text), is_kept_in_time))
        text = without_words(text, is_kept_in_time)
        text = with_short_lines(text.split("\n"), short_lines, is_kept_in_time)
        text = with_less_words(text, is_kept_in_time)
        text = with_two_less(text, is_kept_in_time)
    return text


def less(pieces, is_kept):
    """Leaves out many pieces at a time first, and one at a time last."""
    for size in sizes(len(pieces)):
        at = 0
        while at < len(pieces):
            rest = pieces[:at] + pieces[at + size :]
            if is_kept("".join(rest)):
                pieces = rest
            else:
                at += 1 if size <= FEW else size
    return pieces


def sizes(count):
    """How many pieces are left out at a time."""
    size = count // 2
    while size > FEW:
        yield size
        size //= 2
    yield from range(FEW, 0, -1)


def with_short_lines(lines, short_lines, is_kept):
    """Replaces each line by the first line that can replace it."""
    for at, line in enumerate(lines):
        for other in short_lines(lines, at):
            if (len(other), other) >= (len(line), line):
                break
            if is_kept("\n".join([*lines[:at], other, *lines[at + 1 :]])):
                lines[at] = other
                break
    return "\n".join(lines)


def without_words(text, is_kept):
    """Leaves out words, each wherever it occurs."""
    for word in sorted(set(text.split())):
        shorter = re.sub(rf"(?<!\S){re.escape(word)} ", "", text)
        if is_kept(shorter):
            text = shorter
    return text


def with_less_words(text, is_kept):
    """Replaces each word by a shorter word of the text, or a lesser one, wherever it occurs, and numbers by
    lesser numbers."""
    for word in words_of(text):
        if word.isdigit():
            others = [str(number) for number in range(min(int(word), SMALL))]
        else:
            others = [other for other in words_of(text) if (len(other), other) < (len(word), word)]
        for other in others:
            shorter = re.sub(rf"(?a)\b{word}\b", other, text)
            if is_kept(shorter):
                text = shorter
                break
    return text


def with_two_less(text, is_kept):
    """Lowers two numbers by the same amount, wherever they occur."""
    numbers = [word for word in words_of(text) if word.isdigit()]
    for two in itertools.combinations(numbers, 2):
        by = min(map(int, two))
        while by:
            less = re.sub(rf"(?a)\b({'|'.join(two)})\b", lambda found: str(int(found[0]) - by), text)
            if less != text and is_kept(less):
                text = less
                break
            by //= 2
    return text


def words_of(text):
    """The words of letters and digits, the shortest first, then the least."""
    return sorted(set(re.findall(r"(?a)\w+", text)), key=lambda it: (len(it), it))
