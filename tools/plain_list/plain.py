"""What every container has in common."""


class PlainList:
    """A list of pairs, front first, and the number of free nodes. Keys are equal if their groups are."""

    def __init__(self):
        self.pairs = []
        self.spare = 0

    def place_of(self, key):
        if self.pairs and self.pairs[-1][0][0] == key[0]:  # as often in long rows
            return len(self.pairs) - 1
        for place, ((group, _), _) in enumerate(self.pairs):
            if group == key[0]:
                return place
        return None

    def find(self, key):
        place = self.place_of(key)
        return None if place is None else self.pairs[place]

    def at(self, place):
        return self.pairs[place] if 0 <= place < len(self.pairs) else None

    def first(self):
        return self.at(0)

    def last(self):
        return self.at(len(self.pairs) - 1)

    def may_refuse(self, key):
        """Whether an insert of the key may be refused: it is absent, and no node is free."""
        return self.spare == 0 and self.place_of(key) is None

    def take(self, key):
        """Removes the key's pair, whose node is then free."""
        place = self.place_of(key)
        if place is None:
            return None
        self.spare += 1
        return self.pairs.pop(place)

    def take_first(self):
        return self.take(self.pairs[0][0]) if self.pairs else None

    def take_last(self):
        return self.take(self.pairs[-1][0]) if self.pairs else None

    def clear(self):
        """Drops every pair. No node becomes free."""
        self.pairs = []

    def lose(self, left):
        """Loses every pair. The nodes become free, but for those of this many pairs."""
        self.spare += len(self.pairs) - left
        self.pairs = []

    def keep(self, test):
        """Keeps the pairs that pass. The nodes of the others become free."""
        before = len(self.pairs)
        self.pairs = [pair for pair in self.pairs if test(pair)]
        self.spare += before - len(self.pairs)

    def put(self, place, pair):
        """Puts the pair before the one that is at the place now, or last if there is none. A present key
        stays the stored one. Returns the old value."""
        there = self.place_of(pair[0])
        if there is not None and there < place:
            place -= 1
        old = self.take(pair[0])
        self.spare = max(self.spare - 1, 0)
        key = pair[0] if old is None else old[0]
        self.pairs.insert(place, (key, pair[1]))
        return old and old[1]

    def write(self, pair):
        """Replaces the pair of the key by the given pair, and returns the old one."""
        place = self.place_of(pair[0])
        if place is None:
            return None
        old = self.pairs[place]
        self.pairs[place] = pair
        return old

    def use_key(self, key):
        """Moves the key's pair to the end."""
        pair = self.find(key)
        if pair:
            self.put(len(self.pairs), pair)
        return pair
