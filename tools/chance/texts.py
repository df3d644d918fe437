"""Random texts of linkrun (docs/guide/text.md), with bad lines among the others."""

import itertools
import random

from plain_list.commands import ENTRY_NUMBERS, NUMBERS, OFTEN, SELDOM, STEP_NUMBERS
from plain_list.texts import MODE_NUMBERS, PAIR_WORDS
from plain_list.words import GREATEST

#: texts with any first line: this many for each of the others, of at most this many lines, because nothing is
#: answered after a bad first line
FIRST_LINE, FIRST_TEXTS, FIRST_LINES = "first", 10, 5
#: words that replace a word, or are added
BAD_WORDS = ("", "01", "-1", "+1", "1.0", "0x1", str(GREATEST), "1_0", "up", "GET", "1\r", "\t", "\0", "\xff")


class RandomText:
    """Random lines over a random number of keys."""

    def __init__(self, seed, modes):
        self.random = random.Random(seed)
        self.modes = modes
        self.keys = self.random.choice((3, 10, 30, 300))

    def below(self, number):
        return self.random.randrange(number)

    def number(self):
        return self.below(self.keys) if self.below(50) else GREATEST - 1

    def with_numbers(self, word, count):
        """A word with the given number of numbers after it."""
        return " ".join([word, *(str(self.number()) for _ in range(count))])

    def word_of(self, words):
        """One of the words, some more often than others."""
        weights = [6 if word in OFTEN else 0.2 if word in SELDOM else 2 for word in words]
        return self.random.choices(words, weights)[0]

    def good_line(self, mode):
        numbers = NUMBERS["cache" if mode == "pair" else mode]
        if mode == "pair":
            words = PAIR_WORDS
        else:
            words = [*numbers, "iter", *(("cursor", "entry") if mode == "map" else ())]
        word = self.word_of(words)
        if word == "cursor":
            steps = self.random.choices(list(STEP_NUMBERS), k=1 + self.below(5))
            return " ".join([word, *(self.with_numbers(step, STEP_NUMBERS[step]) for step in steps)])
        if word == "entry":
            step = self.random.choice(list(ENTRY_NUMBERS))
            return f"{self.with_numbers(word, 1)} {self.with_numbers(step, ENTRY_NUMBERS[step])}"
        return self.with_numbers(word, numbers.get(word, 0))

    def first_line(self, mode):
        numbers = sorted(self.number() for _ in range(MODE_NUMBERS[mode]))
        return " ".join([mode, *map(str, numbers)])

    def damaged(self, line):
        """A line that is bad in most cases: a word is replaced, left out, repeated or added, words are
        swapped, or it is a line of any mode."""
        words = line.split(" ")
        at = self.below(len(words))
        damage = self.below(6)
        if damage == 0:
            words[at] = self.random.choice(BAD_WORDS)
        elif damage == 1:
            del words[at]
        elif damage == 2:
            words.insert(at, words[at])
        elif damage == 3:
            words.insert(at + self.below(2), self.random.choice(BAD_WORDS))
        elif damage == 4:
            self.random.shuffle(words)
        else:
            mode = self.random.choice(self.modes)
            return self.first_line(mode) if self.below(3) == 0 else self.good_line(mode)
        return " ".join(words)

    def line(self, line, among):
        """The line or, one time in `among`, a damaged one."""
        return line if self.below(among) else self.damaged(line)

    def text(self, mode, count):
        """A text of the mode with this many lines after the first, which is good; or a text of any mode with
        few lines, whose first line is damaged in half of the cases."""
        if mode == FIRST_LINE:
            mode, count, among = self.random.choice(self.modes), self.below(FIRST_LINES + 1), 2
            lines = [self.line(self.first_line(mode), among)]
        else:
            lines = [self.first_line(mode)]
        lines += [self.line(self.good_line(mode), 25) for _ in range(count)]
        return "\n".join(lines) + ("\n" if self.below(2) else "")


def short_lines(modes, lines, at):
    """The lines that may replace one of a text, the shortest first, then the least."""
    first = lines[0].split(" ")[0]
    if at == 0:
        return with_small_numbers({mode: MODE_NUMBERS[mode] for mode in modes})
    return with_small_numbers(NUMBERS.get("cache" if first == "pair" else first, {}))


def with_small_numbers(numbers):
    """Each word with small numbers, as many as it takes, and `iter`, the shortest first, then the least."""
    lines = ["iter"]
    for word, count in numbers.items():
        lines += [" ".join([word, *these]) for these in itertools.product("012", repeat=count)]
    return sorted(lines, key=lambda it: (len(it), it))
