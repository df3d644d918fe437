"""The words of lines and of answers."""

import re

GREATEST = 2**64
NOTHING = "-"
DONE = "ok"
MEMORY = "memory"
OVERFLOW = "overflow"
WRONG = "wrong"


class Unread(Exception):
    """It is not a line of such a row."""


def number(word):
    """A number as texts have it: only digits, without leading zeros. Nothing if the word is none."""
    if word is None or not re.fullmatch("0|[1-9][0-9]*", word, re.ASCII):
        return None
    read = int(word)
    return read if read < GREATEST else None


def name_of(word):
    """The group and the number of an item, which is written with a dot between them, or without a number."""
    group, _, rest = word.partition(".")
    group, rest = number(group), number(rest) if "." in word else 0
    if group is None or rest is None:
        raise Unread
    return (group, rest)


def item_word(name):
    """An item as it is written, or that there is none."""
    if name is None:
        return NOTHING
    return f"{name[0]}.{name[1]}" if name[1] else str(name[0])


def pair_word(pair):
    """A key and its value, or that there are none."""
    return NOTHING if pair is None else f"{item_word(pair[0])}:{item_word(pair[1])}"


def is_word(is_so):
    return "yes" if is_so else "no"


class Words:
    """The words of a line, and how many of them have been read."""

    def __init__(self, line, n=0):
        self.words = line.split(" ")
        if not self.words[-1]:
            self.words.pop()
        self.read = 0
        self.n = n

    def copy(self):
        other = Words("", self.n)
        other.words, other.read = self.words, self.read
        return other

    def are_left(self):
        return self.read < len(self.words)

    def drop(self):
        """Skips the rest."""
        self.read = len(self.words)

    def next(self):
        """The next word, if there is one."""
        if not self.are_left():
            return None
        self.read += 1
        return self.words[self.read - 1]

    def word(self):
        word = self.next()
        if word is None:
            raise Unread
        return word

    def optional(self):
        """The next word as a name, if there is one."""
        word = self.next()
        if word is None:
            return None
        return (self.n, 0) if word == "n" else name_of(word)

    def name(self):
        name = self.optional()
        if name is None:
            raise Unread
        return name

    def pair(self):
        key = self.name()
        return (key, self.name())

    def number(self):
        word = self.word()
        read = self.n if word == "n" else number(word)
        if read is None:
            raise Unread
        return read

    def size(self):
        """A number, or `max`."""
        if self.words[self.read : self.read + 1] == ["max"]:
            self.read += 1
            return GREATEST - 1
        return self.number()


class Answers:
    """The model's answers, beside the answers of the container, which is called first."""

    def __init__(self, heard, form="calls"):
        self.heard = heard
        self.words = []
        #: `calls`; `replies`, which answer for a pair that is read whether its value is even; `whole
        #: replies`, which answer true for every pair; or `text`, which shows no numbers and returns nothing
        #: that was refused
        self.form = form

    def say(self, word):
        self.words.append(word)

    def done(self):
        self.say(DONE)

    def tell(self, is_so):
        self.say(is_word(is_so))

    def count(self, count):
        self.say(str(count))

    def item(self, name):
        self.say(item_word(self.shown(name)))

    def pair(self, pair):
        self.say(pair_word(pair and (self.shown(pair[0]), self.shown(pair[1]))))

    def value(self, pair):
        self.item(pair and pair[1])

    def key(self, pair):
        self.item(pair and pair[0])

    def shown(self, name):
        return (name[0], 0) if name and self.form == "text" else name

    def seen(self, pair, is_whole):
        """A pair that was read; only its value, unless it is shown whole."""
        if pair and self.form in ("replies", "whole replies"):
            self.tell(self.form == "whole replies" or pair[1][0] % 2 == 0)
        elif is_whole:
            self.pair(pair)
        else:
            self.value(pair)

    def back(self, why, pair):
        """A pair that is returned for this reason."""
        self.say(why)
        if self.form != "text":
            self.pair(pair)

    def element_back(self, element):
        """An element that is returned because an allocation failed."""
        self.say(MEMORY)
        self.item(element)

    def hears(self):
        """The word that the container answered here."""
        place = len(self.words)
        return self.heard[place] if place < len(self.heard) else None

    def is_refused(self):
        """Whether the container answered here that an allocation failed."""
        return self.hears() == MEMORY

    def echo(self, *known):
        """Answers what the container answered, of which the model only knows that it is one of these
        words."""
        heard = self.hears()
        self.say(heard if heard in known else WRONG)

    def echo_number(self):
        """Answers what the container answered, of which the model only knows that it is a number."""
        heard = self.hears()
        self.say(WRONG if number(heard) is None else heard)

    def taken(self):
        """How many items were put in before one that was refused, by the container's answer, if one was."""
        if len(self.heard) > 2 and self.heard[0] == MEMORY:
            return number(self.heard[2])
        return None

    def read(self, count):
        """How many of this many items were put in before one that was refused, by how many the container
        answers it did not read, if one was refused."""
        left = number(self.heard[1]) if len(self.heard) > 1 and self.heard[0] == MEMORY else None
        return None if left is None else count - left - 1
