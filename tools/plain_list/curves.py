"""The model's answers to the lines of miss curves."""

from .model import Model
from .words import MEMORY, Unread, is_word


class CurveModel(Model):
    """The model of a miss curve. Its list has the keys in the order of their last uses."""

    kind = "curve"

    LINES = {
        "read": ("2 misses SIZE", "distinct", "accesses", "falls"),
        "put": ("8 record KEY", "4 record_with KEY", "2 each RANGE record n"),
    }

    #: there are places for this many more uses
    often = 30
    FREE = (
        (
            "curve\nrecord 1\nrecord 2\neach 1 70 record 1",
            {
                0: ("misses 0", "misses 1", "distinct", "accesses", "falls", "is_reserved"),
                1: ("record 1",),
                # The line makes a key too.
                2: ("record_with 2",),
            },
        ),
    )

    def __init__(self):
        super().__init__()
        #: how many uses there were at each distance
        self.reuses = []

    def is_like(self, words):
        return words == self.state().split(" ")

    def state(self):
        falls = [f"{place + 1}:{self.misses(place + 1)}" for place, count in enumerate(self.reuses) if count]
        return " ".join([str(len(self.list.pairs)), str(self.misses(0)), *falls])

    def misses(self, capacity):
        """The first use of each key, and each use at no lesser distance."""
        return len(self.list.pairs) + sum(self.reuses[capacity:])

    def answer(self, words, answers):
        name = words.word()
        if name == "record":
            self.record(words.name(), answers, answers.element_back)
        elif name == "record_with":
            self.record(words.name(), answers, lambda _: answers.say(MEMORY))
        elif name == "misses":
            answers.count(self.misses(words.size()))
        elif name == "distinct":
            answers.count(len(self.list.pairs))
        elif name == "accesses":
            answers.count(self.misses(0))
        elif name == "falls":
            answers.count(sum(count > 0 for count in self.reuses))
        elif name == "is_reserved":
            answers.echo(is_word(True), is_word(False))
        else:
            raise Unread

    def record(self, key, answers, refuse):
        """Uses the key, and answers how many other keys were used since its last use."""
        if answers.is_refused():
            refuse(key)
            return
        place = self.list.place_of(key)
        if place is None:
            self.put("back", (key, key))
            self.reuses.append(0)
            answers.item(None)
            return
        distance = len(self.list.pairs) - 1 - place
        self.list.use_key(key)
        self.reuses[distance] += 1
        answers.count(distance)
