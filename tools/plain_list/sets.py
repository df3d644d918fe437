"""The models' answers to the lines of sets. An element is a key whose value is its own name."""

from .model import POP_LINES, ROOM_LINES, SHARED_FREE, SIZE_LINES, Model, named
from .words import MEMORY, NOTHING, item_word


class SetModel(Model):
    """The model of a set."""

    kind = "set"
    items = 1

    LINES = {
        "read": (
            *("contains KEY", "get KEY", "front", "back", "len", "is_empty", "new"),
            *SIZE_LINES,
        ),
        "put": (
            *("6 insert KEY", "3 replace KEY", "3 get_or_insert KEY", "3 get_or_insert_with KEY"),
            "2 each RANGE insert n",
        ),
        "take": ("4 remove KEY", "4 take KEY", *POP_LINES, "each RANGE remove n"),
        "lend": ("to_front KEY", "to_back KEY"),
        "walk": ("iter STEP* CLONED?",),
        "drain": Model.LINES["drain"],
        "retain": ("retain SET_KEEP", "retain_with_order SET_KEEP", "retain_from SET_KEEP"),
        "room": ROOM_LINES,
        "many": ("extend KEY*", "extend_from KEY*", "extend_kept KEY*", "extend_by_trait KEY*"),
        "make": (
            *("2 from_iter KEY*", "from_iter_kept KEY*", "2 clear", "with_capacity SIZE", "try_take"),
        ),
        "both": (
            *("eq", "hash", "is_disjoint", "is_subset", "is_superset", "|", "&", "^", "-"),
            *("2 union COUNT?", "2 intersection COUNT?", "2 difference COUNT?"),
            "2 symmetric_difference COUNT?",
        ),
    }

    FREE = (
        (
            "set\nextend 1 2 3\nremove 3",
            {
                0: (
                    *SHARED_FREE,
                    "retain odd",
                    "retain_with_order odd",
                    "retain_from odd",
                    "both is_subset",
                    "both is_superset",
                    "both is_disjoint",
                    "both union 3",
                    "both intersection 3",
                    "both difference 3",
                    "both symmetric_difference 3",
                ),
                1: (
                    "contains 1",
                    "get 1",
                    "insert 1",
                    "replace 1",
                    "get_or_insert 1",
                    "remove 1",
                    "take 1",
                    "to_front 1",
                    "to_back 1",
                ),
                # The line makes an element too.
                2: ("get_or_insert_with 1",),
            },
        ),
    )

    def shown(self):
        return [item_word(key) for key, _ in self.list.pairs]

    def is_element_refused(self, element, answers):
        """Whether the container failed to allocate for the element, as it may, and so returned it."""
        if answers.is_refused() and self.list.may_refuse(element):
            answers.element_back(element)
            return True
        return False

    def put_element(self, name, words, answers):
        element = words.name()
        if self.is_element_refused(element, answers):
            return
        pair = self.list.find(element)
        old = pair and pair[0]
        if name == "replace" and old:
            self.list.write((element, element))
        else:
            self.put("back", (element, element))
        if name == "insert":
            answers.tell(old is None)
        elif name == "replace":
            answers.item(old)
        else:
            answers.item(old or element)

    def move(self, goal, words, answers):
        old = self.list.find(words.name())
        if old:
            self.put(goal, old)
        answers.tell(old is not None)

    def step(self, name, ends, word, written):
        """An iterator over the elements answers them as one over keys does."""
        return super().step("keys", ends, word, None)

    def next_of_many(self, words):
        element = words.name()
        return (element, element)

    def back_of_many(self, pair, answers):
        return self.is_element_refused(pair[0], answers)

    OWN = {
        "front": lambda m, words, answers: answers.key(m.list.first()),
        "back": lambda m, words, answers: answers.key(m.list.last()),
        "pop_front": lambda m, words, answers: answers.key(m.list.take_first()),
        "pop_back": lambda m, words, answers: answers.key(m.list.take_last()),
        "contains": lambda m, words, answers: answers.tell(m.list.find(words.name()) is not None),
        "get": lambda m, words, answers: answers.key(m.list.find(words.name())),
        "remove": lambda m, words, answers: answers.tell(m.list.take(words.name()) is not None),
        "take": lambda m, words, answers: answers.key(m.list.take(words.name())),
        "to_front": lambda m, words, answers: m.move("front", words, answers),
        "to_back": lambda m, words, answers: m.move("back", words, answers),
        **named(put_element, ("insert", "replace", "get_or_insert", "get_or_insert_with")),
    }


def call_sets(model, other, words, answers):
    """Answers the call of two sets with this name."""
    name = words.word()
    keys, others = ([pair[0] for pair in each.list.pairs] for each in (model, other))
    inside = sum(other.list.find(key) is not None for key in keys)
    if name in ("eq", "hash"):
        answers.tell([key[0] for key in keys] == [key[0] for key in others])
    elif name == "is_disjoint":
        answers.tell(inside == 0)
    elif name == "is_subset":
        answers.tell(inside == len(keys))
    elif name == "is_superset":
        answers.tell(inside == len(others))
    elif name in ("union", "intersection", "difference", "symmetric_difference"):
        iterate(model, other, name, words.optional(), answers)
    else:
        operate(model, other, name, answers)


def comes(model, other, name, element, is_first):
    """Whether the iterator returns an element of the first set, or of the second."""
    is_in_both = model.list.find(element) is not None and other.list.find(element) is not None
    if name in ("union", "|"):
        return is_first or not is_in_both
    if name in ("intersection", "&"):
        return is_first and is_in_both
    if name in ("difference", "-"):
        return is_first and not is_in_both
    return not is_in_both


def iterate(model, other, name, steps, answers):
    """Answers the bounds of how many are left and the next element, for the given number of steps, even after
    the end. A union has at least the elements left in the first set; an intersection or a difference has at
    most these."""
    begin = len(answers.words)
    left = [len(model.list.pairs), len(other.list.pairs)]
    bounds(name, left, answers)
    for place, each in enumerate((model, other)):
        for key, _ in each.list.pairs:
            left[place] -= 1
            if comes(model, other, name, key, place == 0):
                answers.item(key)
                bounds(name, left, answers)
    answers.say(NOTHING)
    if steps:
        while len(answers.words) < begin + 3 * steps[0]:
            bounds(name, left, answers)
            answers.say(NOTHING)
        del answers.words[begin + 3 * steps[0] :]


def bounds(name, left, answers):
    answers.count(left[0] if name == "union" else 0)
    answers.count(sum(left) if name in ("union", "symmetric_difference") else left[0])


def operate(model, other, name, answers):
    """The first model continues with the result of an operator."""
    if answers.is_refused():
        answers.say(MEMORY)
        return
    new = SetModel()
    for place, each in enumerate((model, other)):
        for pair in each.list.pairs:
            if comes(model, other, name, pair[0], place == 0):
                new.put("back", pair)
    model.list, model.room = new.list, new.room
    answers.done()
