"""The model's answers to the lines of a map, and to the lines of a cache that are calls of maps."""

from .cursors import Cursors
from .entries import Entries
from .plain import PlainList
from .words import DONE, GREATEST, MEMORY, NOTHING, OVERFLOW, WRONG
from .words import Unread, is_word, item_word, number, pair_word

NO_CAPACITY = GREATEST - 1
#: the calls after which the row answers how many items were not read
KEPT = ("extend_from", "extend_kept", "extend_ref", "extend_by_trait")
WALKS = ("iter", "keys", "values", "iter_mut", "values_mut", "drain", "forgotten_drain", "into_iter")
#: calls of a map and of a cache, as lines of random rows
MANY_LINES = ("extend PAIR*", "extend_from PAIR*", "extend_kept PAIR*", "extend_by_trait PAIR*")
WALK_LINES = (
    *("2 iter STEP* CLONED?", "keys STEP* CLONED?", "values STEP* CLONED?"),
    "2 iter_mut PAIR_STEP*",
)
READ_LINES = ("get KEY", "contains_key KEY", "len", "is_empty", "back")
#: calls of a map and of a set without a key
POP_LINES = ("3 pop_front", "3 pop_back")
SIZE_LINES = ("room SIZE", "capacity SIZE", "under SIZE")
ROOM_LINES = ("3 reserve SIZE", "3 try_reserve SIZE", "5 shrink", "4 clone")
#: calls of a map and of a set that request no memory
SHARED_FREE = (
    *("front", "len", "pop_front", "pop_back", "clear", "iter next back"),
    *("drain next back", "forgotten_drain next back"),
    *("both eq", "both hash", "into_iter next back", "try_take", "new", "with_capacity 0", "reserve 0"),
)


def named(method, names):
    """Calls by these names of a method that is given the name."""

    def call_of(name):
        return lambda m, words, answers: method(m, name, words, answers)

    return {name: call_of(name) for name in names}


class Model(Entries, Cursors):
    """The model of a map. Without a capacity it has the greatest one, and a budget is a capacity."""

    kind = "map"
    #: how many items an entry has, each with a block of memory of its own
    items = 2

    #: the calls by their groups, as lines of random rows (tools/chance/calls.py)
    LINES = {
        "read": (
            *(*READ_LINES, "front", "get_key_value KEY", "index KEY", "2 raw_read WAY KEY", "new"),
            *SIZE_LINES,
        ),
        "put": (
            *("6 insert KEY VALUE", "3 insert_front KEY VALUE", "3 replace KEY VALUE"),
            *("3 get_or_insert_with KEY VALUE NEW?", "2 each RANGE insert n n"),
            *("each RANGE insert_front n VALUE", "each RANGE entry n or_insert VALUE"),
        ),
        "take": (
            *("4 remove KEY", "4 remove_entry KEY", *POP_LINES, "each RANGE remove n"),
            *("each RANGE raw WAY n remove_entry", "cursor END MOVE* take_entry"),
        ),
        "lend": (
            *("get_mut KEY NEW?", "to_front KEY NEW?", "to_back KEY NEW?", "index_mut KEY NEW?"),
            "back_value_mut NEW?",
        ),
        "entry": ("entry KEY ENTRY",),
        "raw": ("6 raw WAY KEY RAW", "front_entry FOUND", "back_entry FOUND"),
        "cursor": ("3 cursor END MOVE* LAST?", "2 cursor_of KEY MOVE*"),
        "walk": (*WALK_LINES, "values_mut VALUE_STEP*", "iter_from KEY"),
        "drain": ("2 drain STEP*", "3 forgotten_drain STEP*", "into_iter STEP*"),
        "retain": ("retain KEEP", "retain_with_order KEEP", "retain_from KEEP"),
        "room": (*ROOM_LINES, "collect"),
        "many": MANY_LINES,
        "make": (
            *("2 from_iter PAIR*", "from_iter_kept PAIR*", "2 clear", "with_capacity SIZE"),
            "try_take",
        ),
        "both": ("eq", "less", "cmp", "hash"),
    }

    #: how often calls that request no memory are made
    often = 1000
    #: lines after which these calls request no memory besides a block for each item that a call names. They
    #: are listed by the number of these items
    FREE = (
        (
            "map\nextend 1 10 2 20 3 30\nremove 3",
            {
                0: (
                    *SHARED_FREE,
                    "back_value_mut 5",
                    "reserve 1",
                    "try_reserve 1",
                    "retain even",
                    "retain odd",
                    "retain_with_order even",
                    "retain_from even",
                    "keys next back",
                    "values next back",
                    "iter_mut next back",
                    "iter_mut peek value value_back",
                    "values_mut next back",
                    "cursor front next prev at",
                    "cursor front write 7 write_pair 7 write_next 7 write_prev 7",
                    "cursor front entry",
                    "cursor front take_entry",
                    "cursor front take_into_entry",
                    "front_entry to_back",
                    "front_entry into_key",
                    "back_entry remove_entry",
                    "both less",
                    "both cmp",
                ),
                1: (
                    "get 1",
                    "get_mut 1 11",
                    "contains_key 1",
                    "get_key_value 1",
                    "index 1",
                    "remove 1",
                    "remove_entry 1",
                    "to_front 1",
                    "to_back 1",
                    "iter_from 1",
                    "cursor_of 1 next",
                    "entry 1 get",
                    "entry 1 and_modify 7",
                    "entry 1 replace_key",
                    "entry 1 into_mut 7",
                    "entry 1 to_front",
                    "entry 1 to_back",
                    "entry 1 cursor next",
                    "entry 1 remove",
                    "entry 1 remove_entry",
                    "entry 9 vacant key",
                    "entry 9 vacant into_key",
                    "entry 9 vacant raw",
                    "raw_read key 1",
                    "raw_read hash 1",
                    "raw_read test 1",
                    "raw key 1 get_mut",
                    "raw key 1 get_key_value_mut 7",
                    "raw key 1 into_key",
                    "raw key 1 into_mut 7",
                    "raw key 1 cursor next",
                    "raw key 1 remove",
                    "raw hash 1 to_front",
                    "raw test 1 to_back",
                    "raw of_key 1 replace_key",
                    "raw of_hash 1 get_mut",
                    "raw of_test 1 get_mut",
                ),
                2: (
                    "insert 1 10",
                    "insert_front 1 10",
                    "replace 1 10",
                    "get_or_insert_with 1 10",
                    "entry 1 or_insert 10",
                    "entry 1 insert 10",
                    "entry 1 insert_entry 10",
                    "entry 1 replace_entry 10",
                    "entry 1 raw_replace_value 10",
                    "entry 9 vacant take 90",
                    "cursor back before 1 10",
                    "cursor front next after 2 20",
                    "raw key 1 or_insert 10",
                    "raw key 1 replace_value 10",
                ),
            },
        ),
        # more room in as many slots
        ("map\nreserve 4", {0: ("reserve 14",)}),
        # so many pairs that each call removes one
        (
            "map\neach 1 1001 insert n 10",
            {
                0: ("pop_front", "front_entry remove", "back_entry remove_entry", "cursor front take_entry"),
                1: (
                    *("remove n", "entry n remove", "entry n remove_entry"),
                    *("raw key n remove", "raw key n remove_entry"),
                ),
            },
        ),
    )

    def __init__(self, capacity=NO_CAPACITY):
        self.list = PlainList()
        self.capacity = capacity
        #: at least this many pairs have room, by what was reserved
        self.room = 0
        #: how many entries forgotten drains had not given, since that was last asked
        self.lost = 0
        #: how many nodes and items they lost in all
        self.lost_nodes, self.lost_items = 0, 0

    def is_like(self, words):
        """Whether the words are its length, its capacity and its pairs, with room for them and for the free
        nodes."""
        length = len(self.list.pairs)
        room = number(words[1]) if len(words) > 1 else None
        has_room = room is not None and room >= length + self.list.spare
        return has_room and words[0] == str(length) and words[2:] == self.shown()

    def shown(self):
        return [pair_word(pair) for pair in self.list.pairs]

    def state(self):
        """The contents, as a report shows them."""
        length = len(self.list.pairs)
        return " ".join([str(length), f"{length + self.list.spare}..", *self.shown()])

    def answer(self, words, answers):
        """Answers the call of a line."""
        self.call({**Model.CALLS, **self.OWN}, words, answers)

    def call(self, calls, words, answers):
        """Answers the call that the next word names, one of these."""
        name = words.word()
        if name not in calls:
            raise Unread
        calls[name](self, words, answers)

    def drop_first(self, most=NO_CAPACITY):
        """Drops the first pairs that are too many, at most `most` of them."""
        surplus = max(len(self.list.pairs) - self.capacity, 0)
        for _ in range(min(surplus, most)):
            self.list.take_first()

    def get_or_insert_with(self, words, answers):
        stands = self.or_insert((words.name(), words.name()), words.optional(), answers)
        if stands:
            answers.value(stands)

    def raw_read(self, words, answers):
        words.word()
        answers.pair(self.list.find(words.name()))

    def ask_room(self, words, answers):
        words.size()
        answers.echo(is_word(True), is_word(False))

    def try_take(self, words, answers):
        answers.count(len(self.list.pairs))
        self.list.clear()
        self.forget_room(0)

    def clear(self, words, answers):
        self.list.clear()
        answers.done()

    def set_capacity(self, words, answers):
        self.capacity = words.size()
        self.drop_first()
        answers.done()

    def clone(self, words, answers):
        if not answers.is_refused():
            self.forget_room(0)
        answers.echo(DONE, MEMORY)

    def collect(self, words, answers):
        self.forget_room(0)
        if answers.is_refused():
            self.list.clear()
        answers.echo(DONE, MEMORY)

    def make(self, size, answers):
        """The model continues empty, with room."""
        if answers.hears() == DONE:
            self.list.clear()
            self.forget_room(size)
        answers.echo(DONE, MEMORY, OVERFLOW)

    def shrink(self, answers):
        self.forget_room(0)
        if answers.is_refused() and self.list.pairs:
            answers.say(MEMORY)
        else:
            answers.done()

    def forget_room(self, room):
        """No node is free, and at least this many pairs have room."""
        self.list.spare = 0
        self.room = room

    def reserve(self, size, answers):
        """Makes room for this many more, unless that is too much or was refused. It is not refused if there
        is room already."""
        wanted = min(len(self.list.pairs) + size, NO_CAPACITY)
        if answers.hears() == DONE or wanted <= self.room:
            self.room = max(self.room, wanted)
            answers.done()
        else:
            answers.echo(MEMORY, OVERFLOW)

    def insert(self, goal, pair, answers):
        """Puts a pair, and answers the old value, unless the pair is refused."""
        if self.is_refused(pair, answers):
            return
        old = self.put(goal, pair)
        self.drop_first()
        answers.item(old)

    def is_refused(self, pair, answers):
        """Whether the container failed to allocate for the pair, as it may, and so returned it."""
        if answers.is_refused() and self.list.may_refuse(pair[0]):
            answers.back(MEMORY, pair)
            return True
        return False

    def put(self, goal, pair):
        """Puts a pair first, last, or at the place of its key; there, an absent key is put last."""
        place = {"front": 0, "place": self.list.place_of(pair[0])}.get(goal)
        return self.list.put(len(self.list.pairs) if place is None else place, pair)

    def write(self, key, value):
        """Writes the value of a key, if one is given, and returns the old pair."""
        old = self.list.find(key)
        if old and value is not None:
            self.list.write((old[0], (value[0], old[1][1])))
        return old

    def lend(self, goal, words, answers):
        """Moves the pair of a key, if there is a goal, and lends its value."""
        key = words.name()
        old = self.list.find(key)
        if old and goal:
            self.put(goal, old)
        self.write(key, words.optional())
        answers.value(old)

    def lend_last(self, words, answers):
        last, value = self.list.last(), words.optional()
        if last:
            self.write(last[0], value)
        answers.value(last)

    def retain(self, keep, answers):
        """Keeps by the test, and answers on which keys it was called, if the line asks for them."""
        if keep == "odd":
            raised = [(key, (value[0] * 10 % GREATEST, value[1])) for key, value in self.list.pairs]
            self.list.pairs = raised
        if keep in ("others", "without_odd"):
            for key, _ in self.list.pairs:
                if keep == "others" or key[0] % 2 == 1:
                    answers.item(key)
        tests = {"even": lambda pair: pair[1][0] % 2 == 0, "odd": lambda pair: pair[0][0] % 2 == 1}
        self.list.keep(tests.get(keep, lambda pair: pair[0][0] % 2 == 0))
        answers.done()

    def walk(self, name, words, answers):
        """Makes steps of an iterator over the pairs between two places. After a word `clone` a clone makes
        the steps."""
        ends = [0, len(self.list.pairs)]
        self.steps(name, ends, words, answers)
        if words.are_left():
            again, clone = words.copy(), list(ends)
            self.steps(name, clone, words, answers)
            self.steps(name, ends, again, answers)
        if name == "drain":
            self.list.keep(lambda pair: False)
        if name == "forgotten_drain":
            self.lose(ends[1] - ends[0])
        if name == "into_iter":
            self.forget_room(0)
            self.list.clear()

    def lose(self, left):
        """Loses the entries that a forgotten drain had not given, each with its node and its items."""
        self.list.lose(left)
        self.lost += left
        self.lost_nodes += left
        self.lost_items += left * self.items

    def walk_from(self, key, answers):
        """Answers the pairs from that of the key on, and then that no more follow."""
        place = self.list.place_of(key)
        for pair in self.list.pairs[place:] if place is not None else []:
            answers.pair(pair)
        answers.pair(None)

    def steps(self, name, ends, words, answers):
        while (word := words.next()) not in (None, "clone"):
            if word == "left":
                answers.count(ends[1] - ends[0])
            elif word == "times":
                count, word = words.name()[0], words.word()
                for _ in range(count):
                    answers.say(self.step(name, ends, word, None))
            elif word in ("next", "back", "value", "value_back", "peek"):
                rest = words.copy()
                written = number(rest.next())
                if written is not None:
                    words.next()
                answers.say(self.step(name, ends, word, written))
            else:
                raise Unread

    def step(self, name, ends, word, written):
        """The word for a step from either end. If its value is lent for writing, it is written."""
        if ends[0] >= ends[1]:
            return NOTHING
        if word == "peek":
            return pair_word(self.list.pairs[ends[0]])
        if word in ("back", "value_back"):
            ends[1] -= 1
            place = ends[1]
        else:
            ends[0] += 1
            place = ends[0] - 1
        key, value = self.list.pairs[place]
        if written is not None:
            self.list.pairs[place] = (key, (written, value[1]))
        if name == "keys":
            return item_word(key)
        if name in ("values", "values_mut") or word in ("value", "value_back"):
            return item_word(value)
        return pair_word((key, value))

    def next_of_many(self, words):
        """The next pair that a line lists."""
        return words.pair()

    def back_of_many(self, pair, answers):
        """Returns one pair of many, which may be refused."""
        return self.is_refused(pair, answers)

    def extend(self, name, words, answers):
        """Puts each pair that the line lists, up to one that is refused, and answers how many were put before
        it."""
        if name == "from_iter":
            if answers.is_refused():
                words.drop()
                answers.say(MEMORY)
                return
            self.list.clear()
            self.forget_room(0)
        taken, went, is_back = answers.taken(), 0, False
        if name == "extend_by_trait":
            taken = answers.read(self.count_many(words))
        while words.are_left() and not is_back:
            pair = self.next_of_many(words)
            is_back = taken == went
            if not is_back:
                self.put("back", pair)
                self.drop_first()
                went += 1
            elif not self.stops(name, pair, went, answers):
                answers.say(WRONG)
                return
        if not is_back:
            answers.done()
        left = self.count_many(words)
        words.drop()
        if name in KEPT:
            answers.count(left)

    def make_of_kept(self, words, answers):
        """The model continues with the list that is made from the pairs of the line, if it is made. If a pair
        was refused, only the number of items after it is answered."""
        made = type(self)()
        made.extend("extend_by_trait", words, answers)
        words.drop()
        if answers.words[0] == DONE:
            self.list = made.list
            self.forget_room(0)

    def stops(self, name, pair, went, answers):
        """Answers that one pair of many was refused after this many, if that may be. std's `Extend` answers
        neither the pair nor the number."""
        if name != "extend_by_trait":
            is_back = self.back_of_many(pair, answers)
            if is_back:
                answers.count(went)
            return is_back
        is_refused = answers.is_refused() and self.list.may_refuse(pair[0])
        if is_refused:
            answers.say(MEMORY)
        return is_refused

    def count_many(self, words):
        """How many items of a line are not read."""
        words, count = words.copy(), 0
        while words.are_left():
            self.next_of_many(words)
            count += 1
        return count

    #: the calls of a map, and those that a cache answers as a map does
    CALLS = {
        "front": lambda m, words, answers: answers.pair(m.list.first()),
        "peek_lru": lambda m, words, answers: answers.pair(m.list.first()),
        "back": lambda m, words, answers: answers.pair(m.list.last()),
        "len": lambda m, words, answers: answers.count(len(m.list.pairs)),
        "is_empty": lambda m, words, answers: answers.tell(not m.list.pairs),
        "contains_key": lambda m, words, answers: answers.tell(m.list.find(words.name()) is not None),
        "get_key_value": lambda m, words, answers: answers.pair(m.list.find(words.name())),
        "get": lambda m, words, answers: answers.value(m.list.find(words.name())),
        "peek": lambda m, words, answers: answers.value(m.list.find(words.name())),
        "index": lambda m, words, answers: answers.value(m.list.find(words.name())),
        "raw_read": raw_read,
        "insert": lambda m, words, answers: m.insert("back", words.pair(), answers),
        "insert_front": lambda m, words, answers: m.insert("front", words.pair(), answers),
        "replace": lambda m, words, answers: m.insert("place", words.pair(), answers),
        "get_or_insert_with": get_or_insert_with,
        "get_mut": lambda m, words, answers: m.lend(None, words, answers),
        "peek_mut": lambda m, words, answers: m.lend(None, words, answers),
        "index_mut": lambda m, words, answers: m.lend(None, words, answers),
        "to_front": lambda m, words, answers: m.lend("front", words, answers),
        "to_back": lambda m, words, answers: m.lend("back", words, answers),
        "back_value_mut": lend_last,
        "remove": lambda m, words, answers: answers.value(m.list.take(words.name())),
        "remove_entry": lambda m, words, answers: answers.pair(m.list.take(words.name())),
        "pop_front": lambda m, words, answers: answers.pair(m.list.take_first()),
        "remove_lru": lambda m, words, answers: answers.pair(m.list.take_first()),
        "pop_back": lambda m, words, answers: answers.pair(m.list.take_last()),
        "clear": clear,
        **dict.fromkeys(
            ("retain", "retain_with_order", "retain_from"),
            lambda m, words, answers: m.retain(words.word(), answers),
        ),
        "iter_from": lambda m, words, answers: m.walk_from(words.name(), answers),
        "cursor": Cursors.cursor,
        "cursor_of": Cursors.cursor_of,
        "entry": Entries.entry,
        "reserve": lambda m, words, answers: m.reserve(words.size(), answers),
        "try_reserve": lambda m, words, answers: m.reserve(words.size(), answers),
        "room": ask_room,
        "capacity": ask_room,
        "under": ask_room,
        "try_take": try_take,
        "new": lambda m, words, answers: answers.count(0),
        "set_capacity": set_capacity,
        "shrink": lambda m, words, answers: m.shrink(answers),
        "with_capacity": lambda m, words, answers: m.make(words.size(), answers),
        "clone": clone,
        "collect": collect,
        "from_iter_kept": make_of_kept,
    }
    CALLS |= named(walk, WALKS) | named(extend, ("extend", *KEPT, "from_iter"))
    CALLS |= named(Entries.raw, ("raw", "front_entry", "back_entry"))
    #: the calls that a container answers in its own way
    OWN = {}
