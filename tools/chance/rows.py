"""Rows of random calls (docs/dev/rows.md)."""

import contextlib
import random

from plain_list.judge import KINDS as LISTS
from plain_list.judge import say
from plain_list.rows import Row
from plain_list.words import DONE, GREATEST, Answers, Words

from .calls import AFTER, EMPTYING, GROUPS, KINDS, LEAVING, MOODS, SYMBOLS
from .grammar import NAME, WRITTEN, are_two, weights_of, with_words

#: the greatest number of repetitions of a symbol that may be repeated
MANY = (0, 2, 3, 5, 12)
#: how often a call is made on the second container, and how often on each: in rows with few or no calls on
#: both, and in rows whose two containers stay alike, up to a few calls
APART, ALIKE = ((0, 0), (0.3, 0)), ((0.1, 0.7), (0.02, 0.95))


class RandomRow:
    """Random lines over a random number of keys. The reference model follows them, so that some calls are
    about present keys, and some steps go up to an end."""

    def __init__(self, seed):
        self.random = random.Random(seed)
        # The reader of rows makes at most 64 steps of an iterator over two sets.
        self.keys = self.random.choice((3, 8, 20, 40, 60))
        self.mood = "grow"
        #: the group of the last call, and whether the other groups soon meet the state that it leaves
        self.last, self.is_followed = None, self.below(2) == 0
        #: how often a call is made on the second container, and how often on each
        self.other, self.alike = 0, 0
        self.lists = ()

    def chosen(self, weights):
        """One of the keys of a dictionary, by its weights."""
        return self.random.choices(list(weights), weights.values())[0]

    def below(self, number):
        return self.random.randrange(number)

    def text(self):
        kind = self.chosen({kind: often for kind, (often, _) in KINDS.items()})
        calls = KINDS[kind][1]
        if are_two(calls):
            self.other, self.alike = self.random.choice(APART + ALIKE if "both" in calls else APART)
        lines = [NAME, self.words(kind)]
        words = Words(lines[1])
        if words.word() in LISTS:
            sizes = [words.size() for _ in words.words[1:]]
            self.lists = [LISTS[words.words[0]](*sizes) for _ in range(2)]
        for _ in range(self.random.choice((5, 20, 60, 120))):
            more = self.lines(calls)
            self.follow(lines[1], "\n".join(more))
            lines += more
        return "\n".join(lines) + "\n"

    def follow(self, kind, lines):
        """Lets the models answer the lines. The judge finds what is wrong with a line."""
        with contextlib.suppress(Exception):
            for _, _, words in Row(NAME, 1, NAME, kind, lines, 3).calls() if self.lists else ():
                say(self.lists, words, Answers([DONE]))

    def there(self):
        """The pairs of the first list."""
        return self.lists[0].list.pairs if self.lists else []

    def lines(self, calls):
        """A call of one of two containers, of both together, or of each. If both are alike, a call of one is
        at times followed by a call of both."""
        call = self.call(calls)
        draw = self.random.random()
        if call.startswith("both "):
            return [call]
        if draw < self.alike and (self.last != "room" or self.below(2)):
            return [call, with_words("other", call)]
        last = [self.both(calls)] if self.alike and self.below(2) else []
        return [with_words("other", call) if draw < self.alike + self.other else call, *last]

    def call(self, calls):
        """A call of one container, or of both together."""
        if self.below(8) == 0:
            self.mood = self.random.choice(list(MOODS))
        left_out = () if self.other else ("both",)
        moods = MOODS[self.mood]
        often = self.often()
        group = self.chosen({it: often.get(it, 0.1) * moods.get(it, 1) for it in calls if it not in left_out})
        self.last = group
        if group in EMPTYING and self.below(2):
            self.mood = "grow"
        if group == "inside":
            return with_words("inside", self.call(calls["inside"]))
        return self.both(calls) if group == "both" else self.line_of(calls[group])

    def often(self):
        """The weight of each group now."""
        if self.is_followed and self.last in LEAVING:
            return AFTER
        return LEAVING if self.is_followed and self.below(3) == 0 else GROUPS

    def both(self, calls):
        return f"both {self.line_of(calls['both'])}"

    def line_of(self, lines):
        return self.words(self.chosen(weights_of(lines)))

    def words(self, line):
        """The line with each symbol replaced."""
        return " ".join(words for symbol in line.split(" ") if (words := self.symbol(symbol)))

    def symbol(self, symbol):
        if symbol.endswith("?"):
            return self.symbol(symbol[:-1]) if self.below(2) else ""
        if symbol.endswith("*"):
            count = self.below(self.random.choice(MANY) + 1)
            return " ".join(self.symbol(symbol[:-1]) for _ in range(count))
        if symbol in SYMBOLS:
            return self.line_of(SYMBOLS[symbol])
        return getattr(self, symbol.lower())() if symbol in WRITTEN else symbol

    def group(self):
        """A key's group, which at times is present, at times absent, and at times the greatest."""
        there = [key[0] for key, _ in self.there()]
        if there and self.below(3) == 0:
            return self.random.choice(there)
        absent = sorted(set(range(self.keys)) - set(there))
        if absent and self.below(4) == 0:
            return self.random.choice(absent)
        return self.below(self.keys) if self.below(50) else GREATEST - 1

    def item(self, group):
        """An item of the group, whose number shows which of several equal items it is."""
        return f"{group}.{1 + self.below(9)}" if self.below(3) == 0 else str(group)

    def key(self):
        return self.item(self.group())

    def value(self):
        return self.item(self.below(10))

    def new(self):
        return self.value()

    def number(self):
        return str(self.group())

    def weighed(self):
        """A value whose number is its weight, which at times is more than any budget except the greatest."""
        return f"{self.below(10)}.{self.random.choice((0, 1, 1, 2, 3, self.below(10), self.below(200)))}"

    def size(self):
        return str(self.below(self.random.choice((4, 12, 2 * self.keys)))) if self.below(12) else "max"

    def capacity(self):
        """A capacity, in half of the cases one for which few pairs are too many."""
        if self.there() and self.below(2):
            return str(max(len(self.there()) - self.below(4), 0))
        return str(self.random.choice((0, 1, 2, 3, 5, 12, 25, 50, "max")))

    def count(self):
        """A number of steps, in half of the cases one after which few are left."""
        if self.below(2):
            return str(max(len(self.there()) - self.below(4), 0))
        return str(self.below(self.keys + 2))

    def range(self):
        """The first and the last of some consecutive numbers, all of them keys, and at times all keys."""
        if self.below(6) == 0:
            return f"0 {self.keys - 1}"
        first = self.below(self.keys)
        return f"{first} {min(first + self.below(30), self.keys - 1)}"
