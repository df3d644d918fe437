"""The model's answers to lists of commands and to the lines of texts."""

from .words import Words, number

NUMBERS = {
    "map": {
        **dict.fromkeys(("insert", "insert_front", "replace"), 2),
        **dict.fromkeys(("get", "remove", "to_front", "to_back"), 1),
        **dict.fromkeys(("pop_front", "pop_back", "front", "back", "len", "clear", "shrink", "keep"), 0),
    },
    "cache": {
        **dict.fromkeys(("insert", "use"), 2),
        **dict.fromkeys(("get", "peek", "remove", "set_capacity"), 1),
        **dict.fromkeys(("len", "clear", "remove_lru"), 0),
    },
    "weighted": {"insert": 3, "get": 1, "peek": 1, "remove": 1, "len": 0, "total": 0},
}
ENTRY_NUMBERS = {
    **dict.fromkeys(("get", "to_front", "to_back", "remove"), 0),
    **dict.fromkeys(("or_insert", "insert", "insert_entry", "replace_entry"), 1),
}
STEP_NUMBERS = {
    **dict.fromkeys(("next", "prev", "cur", "peek_next", "peek_prev"), 0),
    **dict.fromkeys(("before", "after"), 2),
}
FULL_MAP = ("map", "insert 1 10", "insert 2 20", "insert 3 30", "remove 3")
FULL_CACHE = ("cache 2", "insert 1 10", "insert 2 20", "insert 3 30")
FULL_WEIGHTED = ("weighted 2", "insert 1 10 1", "insert 2 20 1")
#: words that random texts and lists of commands have often, and words that they have seldom, since little is
#: left after them
OFTEN = ("insert", "use", "cursor", "entry")
SELDOM = ("clear", "keep", "set_capacity")
#: lines of a text after which these lines request no memory
FREE = (
    (FULL_MAP, ("insert 1 10", "insert_front 1 10", "replace 1 10", "remove 9", "len", "keep")),
    (FULL_MAP, ("entry 1 or_insert 10", "entry 1 insert 10", "entry 1 insert_entry 10")),
    (FULL_MAP, ("entry 1 replace_entry 10", "get 1", "to_front 1", "to_back 1", "front", "back")),
    (FULL_MAP, ("insert 9 90", "pop_back", "insert_front 9 90", "pop_front", "replace 9 90", "remove 9")),
    (FULL_MAP, ("entry 9 or_insert 90", "entry 9 remove", "entry 9 get", "entry 9 replace_entry 90")),
    (FULL_CACHE, ("insert 2 20", "use 2 20", "get 2", "peek 2", "remove 9", "len")),
    (FULL_CACHE, ("insert 4 40", "use 5 50", "insert 6 60", "remove_lru", "insert 7 70")),
    (FULL_WEIGHTED, ("insert 1 10 1", "get 1", "insert 3 30 1", "insert 2 20 1")),
)


def are_numbers(words, count):
    """Whether exactly this many numbers follow."""
    return len(words) == count and all(number(word) is not None for word in words)


def are_steps(words):
    """Whether these are steps of a cursor, at least one."""
    place = 0
    while place < len(words):
        count = STEP_NUMBERS.get(words[place])
        if count is None or not are_numbers(words[place + 1 : place + 1 + count], count):
            return False
        place += 1 + count
    return place > 0


def is_line(kind, line):
    """Whether a text may have the line: its words with their numbers, and no more."""
    name, *words = line.split(" ")
    if kind == "map" and name == "cursor":
        return are_steps(words)
    if kind == "map" and name == "entry":
        count = ENTRY_NUMBERS.get(words[1]) if len(words) > 1 else None
        return count is not None and are_numbers(words[:1], 1) and are_numbers(words[2:], count)
    return name in NUMBERS[kind] and are_numbers(words, NUMBERS[kind][name])


def answer_text(model, line, answers):
    """Answers a line of a text."""
    if line == "iter":
        show(model, answers)
    elif is_line(model.kind, line):
        command(model, line, answers)
    else:
        answers.say("bad")


def show(model, answers):
    """Shows all pairs."""
    if not model.list.pairs:
        answers.say("empty")
    for pair in model.list.pairs:
        answers.pair(pair)


def command(model, line, answers):
    """Answers a command."""
    words = Words(line)
    name = words.word()
    if name == "front":
        answers.seen(model.list.first(), True)
    elif name == "back":
        answers.seen(model.list.last(), True)
    elif name == "get":
        key = words.name()
        answers.seen(model.list.find(key) if model.kind == "map" else model.list.use_key(key), False)
    elif name == "peek":
        answers.seen(model.list.find(words.name()), False)
    elif name == "keep":
        if answers.form == "whole replies":
            answers.done()
        else:
            model.retain("even", answers)
    elif name in ("to_front", "to_back"):
        move(model, name[3:], words.name(), answers)
    elif name == "use":
        use(model, words.pair(), answers)
    elif name == "entry":
        model.drop_first(1)
        entry(model, words.name(), words, answers)
    elif name == "cursor":
        model.steps_at(0, words, answers)
    elif name == "insert" and model.kind == "weighted":
        key, value, weight = words.name(), words.number(), words.number()
        model.insert_weighted(name, (key, (value, weight)), answers)
    else:
        model.answer(Words(line), answers)


def move(model, goal, key, answers):
    pair = model.list.find(key)
    if pair:
        model.put(goal, pair)
    answers.seen(pair, False)


def use(model, pair, answers):
    """Moves the key's pair last, or puts the pair there."""
    used = model.list.use_key(pair[0])
    if not used:
        if model.is_refused(pair, answers):
            return
        model.put("back", pair)
        model.drop_first()
    answers.seen(used, False)


def entry(model, key, words, answers):
    """Makes a step of the entry of the key."""
    step = words.word()
    value = words.optional() or key
    if step == "get":
        answers.seen(model.list.find(key), False)
    elif step in ("to_front", "to_back"):
        move(model, step[3:], key, answers)
    elif step == "replace_entry":
        answers.pair(model.list.write((key, value)))
    elif step == "replace_key":
        answers.key(model.list.find(key))
    elif step == "remove":
        answers.value(model.list.take(key))
    elif step == "remove_entry":
        answers.pair(model.list.take(key))
    else:
        entry_insert(model, step, (key, value), answers)


def entry_insert(model, step, pair, answers):
    if model.is_refused(pair, answers):
        return
    old = model.list.find(pair[0])
    if step == "or_insert":
        stands = old or pair
        model.put("back", stands)
        answers.seen(stands if answers.form == "text" else old, False)
        return
    model.put("back", pair)
    if step == "insert":
        answers.value(old)
    else:
        answers.pair(old)
