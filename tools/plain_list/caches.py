"""The model's answers to the lines of caches."""

from .model import MANY_LINES, NO_CAPACITY, READ_LINES, WALK_LINES, Model, named


class CacheModel(Model):
    """The model of a cache with a capacity."""

    kind = "cache"

    LINES = {
        "read": (
            *READ_LINES,
            *("2 get KEY", "peek KEY", "2 evicted_by KEY", "peek_lru", "capacity", "raw_read WAY KEY"),
            "new",
        ),
        "put": (
            *("5 insert KEY VALUE", "5 push KEY VALUE", "3 get_or_insert_with KEY VALUE NEW?"),
            *("3 get_or_try_insert_with KEY MADE", "each RANGE insert n n"),
        ),
        "take": ("4 remove KEY", "4 remove_entry KEY", "3 remove_lru", "3 make_room", "each RANGE remove n"),
        "lend": ("get_mut KEY NEW?", "peek_mut KEY NEW?"),
        "entry": ("entry KEY ENTRY",),
        "raw": ("2 raw WAY KEY FOUND", "raw WAY KEY OR_INSERT"),
        "walk": WALK_LINES,
        "drain": ("2 drain STEP*", "forgotten_drain STEP*", "into_iter STEP*"),
        "retain": ("retain CACHE_KEEP", "retain_from CACHE_KEEP"),
        "room": ("3 set_capacity CAPACITY", "clone"),
        "many": MANY_LINES,
        "make": ("clear", "try_take"),
        # calls of the cache's map
        "inside": {name: lines for name, lines in Model.LINES.items() if name != "both"},
    }

    FREE = (
        (
            "cache 2\nextend 1 10 2 20 3 30",
            {
                0: (
                    *("peek_lru", "back", "make_room", "remove_lru", "set_capacity 2", "clear"),
                    *("inside front", "retain even", "retain odd", "retain_from even", "iter next back"),
                    *("keys next back", "values next back", "iter_mut next back", "drain next back"),
                    *("into_iter next back", "try_take", "new"),
                ),
                1: (
                    "get 2",
                    "get_mut 2",
                    "peek 2",
                    "peek_mut 2",
                    "contains_key 2",
                    "evicted_by 9",
                    "remove 2",
                    "remove_entry 2",
                    "raw_read key 2",
                    "raw key 2 get_mut",
                ),
                2: (
                    "insert 2 20",
                    "insert n 10",
                    "push 2 20",
                    "push n 10",
                    "get_or_insert_with n 10",
                    "get_or_try_insert_with n 10",
                    "entry n or_insert 10",
                ),
            },
        ),
        ("cache 2\nextend 1 10 2 20\ninside insert 3 30", {1: ("evicted_by 1",)}),
    )

    def is_like(self, words):
        return words == self.state().split(" ")

    def state(self):
        return " ".join([str(len(self.list.pairs)), str(self.capacity), *self.shown()])

    def make_room(self, words, answers):
        self.drop_first(1)
        answers.done()

    def inside(self, words, answers):
        """A call of the cache's map."""
        capacity, self.capacity = self.capacity, NO_CAPACITY
        self.call(self.CALLS, words, answers)
        self.capacity = capacity

    def use(self, words, answers):
        """Moves the pair of a key last, and lends its value."""
        key = words.name()
        used = self.list.use_key(key)
        self.write(key, words.optional())
        answers.value(used)

    def evicted_by(self, key):
        """The first pair that an insert of the key drops: the first with another key, if the others leave no
        room."""
        others = [pair for pair in self.list.pairs if pair[0][0] != key[0]]
        return others[0] if others and len(others) >= self.capacity else None

    def push(self, words, answers):
        """Puts a pair, and answers the given key with the old value, or else the first pair that is
        dropped."""
        pair = words.pair()
        if self.is_refused(pair, answers):
            return
        old = self.put("back", pair)
        surplus = self.list.pairs[:max(len(self.list.pairs) - self.capacity, 0)]
        self.drop_first()
        answers.pair((pair[0], old) if old else (surplus[0] if surplus else None))

    def get_or_insert(self, words, answers):
        """Uses a present pair, or puts the made one, which stays even if there is no room. After `fail`
        nothing is made."""
        key = words.name()
        is_absent = self.list.find(key) is None
        if self.try_insert(key, words, answers) and is_absent:
            capacity, self.capacity = self.capacity, max(self.capacity, 1)
            self.drop_first()
            self.capacity = capacity

    OWN = {
        "capacity": lambda m, words, answers: answers.count(m.capacity),
        "new": lambda m, words, answers: answers.count(m.capacity),
        "make_room": make_room,
        "inside": inside,
        "get": use,
        "get_mut": use,
        "get_or_insert_with": get_or_insert,
        "get_or_try_insert_with": get_or_insert,
        "evicted_by": lambda m, words, answers: answers.pair(m.evicted_by(words.name())),
        "push": push,
    }


class WeightedModel(Model):
    """The model of a cache with a budget, which is its capacity. The number of a value is its weight."""

    kind = "weighted"

    LINES = {
        "read": ("get KEY", "peek KEY", "len", "is_empty", "total", "budget", "new"),
        "put": ("6 insert KEY WEIGHED", "6 insert_evicting KEY WEIGHED", "each RANGE insert n WEIGHED"),
        "take": ("6 remove KEY", "each RANGE remove n"),
        "walk": ("iter STEP* CLONED?",),
        "make": ("try_take",),
    }

    FREE = (
        (
            "weighted 2\ninsert 1 10.1\ninsert 2 20.1\ninsert 3 30.1",
            {
                0: ("total", "budget", "is_empty", "iter next back", "try_take", "new"),
                1: ("get 3", "peek 3", "remove 9"),
                2: ("insert 3 30.1", "insert n 10.1", "insert_evicting n 10.1", "insert 1 10.3"),
            },
        ),
    )

    def is_like(self, words):
        return words == self.state().split(" ")

    def state(self):
        numbers = (len(self.list.pairs), self.capacity, self.total())
        return " ".join([*map(str, numbers), *self.shown()])

    def total(self):
        """The sum of all weights."""
        return sum(value[1] for _, value in self.list.pairs)

    def insert_weighted(self, name, pair, answers):
        """Puts a pair, unless it is refused. `insert_evicting` answers each dropped pair, in order."""
        if pair[1][1] > self.capacity:
            answers.back("heavy", pair)
            return
        if self.is_refused(pair, answers):
            return
        old = self.put("back", pair)
        while self.total() > self.capacity:
            evicted = self.list.take_first()
            if name == "insert_evicting":
                answers.pair(evicted)
        answers.item(old)

    def call_insert(self, name, words, answers):
        self.insert_weighted(name, words.pair(), answers)

    OWN = {
        "total": lambda m, words, answers: answers.count(m.total()),
        "budget": lambda m, words, answers: answers.count(m.capacity),
        "new": lambda m, words, answers: answers.count(m.capacity),
        "get": lambda m, words, answers: answers.value(m.list.use_key(words.name())),
        **named(call_insert, ("insert", "insert_evicting")),
    }
