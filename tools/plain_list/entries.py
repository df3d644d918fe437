"""The model's answers to calls of entries and of raw entries."""

from functools import partial

from .words import NOTHING, Answers, Unread


class Entries:
    """The calls of entries, for a model."""

    def entry(self, words, answers):
        """Calls of the entry of a given key."""
        self.drop_first(1)
        key, name = words.name(), words.word()
        if name == "vacant":
            self.vacant(key, words, answers)
        elif name in EITHER:
            EITHER[name](self, key, words, answers)
        else:
            self.occupied(OCCUPIED, key, name, words, answers)

    def raw(self, start, words, answers):
        """Calls of raw entries, and of the entries at the ends."""
        self.drop_first(1)
        if start == "raw":
            words.word()
            key = words.name()
        else:
            end = self.list.first() if start == "front_entry" else self.list.last()
            key = end and end[0]
        name = words.word()
        if key and name in RAW_EITHER:
            RAW_EITHER[name](self, key, words, answers)
        else:
            self.occupied(RAW_OCCUPIED, key, name, words, answers)

    def occupied(self, calls, key, name, words, answers):
        """A call of an occupied entry, one of these. There is none of an absent key."""
        old = key and self.list.find(key)
        if name not in calls:
            raise Unread
        if old:
            calls[name](self, old, key, words, answers)
        else:
            words.drop()
            answers.say(NOTHING)

    def vacant(self, key, words, answers):
        """A call of a vacant entry. There is none of a present key."""
        name, old = words.word(), self.list.find(key)
        value, written = words.optional(), words.optional()
        if name not in VACANT:
            raise Unread
        if old:
            answers.say(NOTHING)
        else:
            VACANT[name](self, (key, value), written, answers)

    def or_insert(self, pair, value, answers):
        """Moves a present pair last, or puts the pair there, and writes the value. Returns the pair before
        the write, unless it was refused."""
        if self.is_refused(pair, answers):
            return None
        stands = self.list.find(pair[0]) or pair
        self.put("back", stands)
        self.write(pair[0], value)
        return stands

    def try_insert(self, key, words, answers):
        """Like `or_insert`; but after `fail` nothing is made, and if the key is absent, it is returned with
        the reason. Returns the pair that is then present."""
        rest = words.copy()
        if rest.word() != "fail":
            stands = self.or_insert((key, words.name()), words.optional(), answers)
        else:
            words.read = rest.read
            why, stands = words.name(), self.list.find(key)
            if stands:
                self.put("back", stands)
            else:
                answers.say(NOTHING)
                answers.pair((key, why))
        if stands:
            answers.value(stands)
        return stands



def key_of(model, key, words, answers):
    answers.key(model.list.find(key) or (key, None))


def or_insert(answer, model, key, words, answers):
    stands = model.or_insert((key, words.name()), words.optional(), answers)
    if stands:
        answer(answers, stands)


def insert(model, pair, written, answers):
    """Puts a pair whose key is absent, and writes its value, unless it is refused."""
    is_refused = model.is_refused(pair, answers)
    if not is_refused:
        model.put("back", pair)
        model.write(pair[0], written)
    return not is_refused


def raw_insert(is_entry, model, key, words, answers):
    """Puts a pair whose key is absent. A new entry answers the pair after the write, a loan the pair before
    it."""
    pair, written = (key, words.name()), words.optional()
    if model.list.find(key):
        answers.say(NOTHING)
    elif insert(model, pair, written, answers):
        answers.pair(model.list.find(key) if is_entry else pair)


def vacant_insert(answer, model, pair, written, answers):
    if insert(model, pair, written, answers):
        answer(answers, pair)


def vacant_take(model, pair, written, answers):
    if insert(model, pair, written, answers):
        answers.pair(model.list.take(pair[0]))


def modify(answer, model, old, key, words, answers):
    model.write(key, words.name())
    answer(answers, model.list.find(key))


def lend(model, old, key, words, answers):
    model.write(key, words.optional())
    answers.value(old)


def move(goal, answer, model, old, key, words, answers):
    model.put(goal, old)
    answer(answers, old)


def replace_key(answer, model, old, key, words, answers):
    model.list.write((key, old[1]))
    answer(answers, old)


def replace_value(model, old, key, words, answers):
    model.list.write((old[0], words.name()))
    answers.value(old)


def replace_pair(model, old, key, words, answers):
    model.list.write((key, words.name()))
    answers.pair(old)


def insert_value(model, old, key, words, answers):
    model.put("back", (key, words.name()))
    answers.value(old)


def insert_entry(model, old, key, words, answers):
    replace_pair(model, old, key, words, answers)
    model.put("back", model.list.find(key))


def cursor(model, old, key, words, answers):
    model.steps_at(model.list.place_of(key), words, answers)


#: calls of an occupied entry and of a raw one
SHARED = {
    "get": lambda m, old, key, words, answers: answers.pair(old),
    "get_mut": lend,
    "into_mut": lend,
    "remove": lambda m, old, key, words, answers: answers.value(m.list.take(key)),
    "remove_entry": lambda m, old, key, words, answers: answers.pair(m.list.take(key)),
    "cursor": cursor,
}
#: calls of an entry, whether its key is present or not
EITHER = {
    "key": key_of,
    **dict.fromkeys(("or_insert", "or_insert_with"), partial(or_insert, Answers.value)),
    "or_try_insert_with": lambda m, key, words, answers: m.try_insert(key, words, answers),
}
OCCUPIED = SHARED | {
    "and_modify": partial(modify, Answers.value),
    "to_front": partial(move, "front", Answers.value),
    "to_back": partial(move, "back", Answers.value),
    "replace_key": partial(replace_key, Answers.key),
    "into_key": lambda m, old, key, words, answers: answers.item(key),
    "insert": insert_value,
    "raw_replace_value": replace_value,
    "insert_entry": insert_entry,
    "replace_entry": replace_pair,
}
#: by the pair of the entry's key and the given value, which may be none
VACANT = {
    **dict.fromkeys(("key", "into_key"), lambda m, pair, written, answers: answers.key(pair)),
    "raw": lambda m, pair, written, answers: answers.done(),
    "insert": partial(vacant_insert, Answers.value),
    "insert_entry": partial(vacant_insert, Answers.pair),
    "take": vacant_take,
}
RAW_EITHER = {
    **dict.fromkeys(("or_insert", "or_insert_with"), partial(or_insert, Answers.pair)),
    **dict.fromkeys(("insert", "insert_hashed", "insert_with_hasher"), partial(raw_insert, False)),
    **dict.fromkeys(
        ("insert_entry", "insert_entry_hashed", "insert_entry_with_hasher"), partial(raw_insert, True)
    ),
}
RAW_OCCUPIED = SHARED | {
    "get_key_value": lambda m, old, key, words, answers: answers.pair(old),
    "get_key_value_mut": lend,
    "into_key_value": lend,
    "and_modify": partial(modify, Answers.pair),
    "to_front": partial(move, "front", Answers.pair),
    "to_back": partial(move, "back", Answers.pair),
    "replace_value": replace_value,
    "replace_key": partial(replace_key, Answers.pair),
    "into_key": lambda m, old, key, words, answers: answers.key(old),
}
