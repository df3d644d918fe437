"""The model's answers to steps of a cursor, which is at a place in the list. The place after the last is the
guard's."""

from .words import NOTHING, Unread


class Cursors:
    """The calls of cursors, for a model."""

    def cursor(self, words, answers):
        """Steps of a cursor that starts at an end."""
        ends = {"front": 0, "back": max(len(self.list.pairs) - 1, 0)}
        end = words.word()
        if end not in ends:
            raise Unread
        self.steps_at(ends[end], words, answers)

    def cursor_of(self, words, answers):
        """Steps of a cursor that starts at a key."""
        place = self.list.place_of(words.name())
        if place is None:
            words.drop()
            answers.say(NOTHING)
        else:
            self.steps_at(place, words, answers)

    def steps_at(self, at, words, answers):
        """Steps of a cursor that starts at a place."""
        while (name := words.next()) is not None:
            here = self.list.at(at)
            if name == "entry":
                if here:
                    answers.pair(here)
                else:
                    self.around(at, answers)
                return
            if name in ("take_entry", "take_into_entry"):
                answers.pair(here and self.list.take(here[0]))
                return
            at = self.cursor_step(at, name, words, answers)

    def after(self, place):
        return 0 if place >= len(self.list.pairs) else place + 1

    def before(self, place):
        return place - 1 if place else len(self.list.pairs)

    def around(self, at, answers):
        for place in (self.before(at), at, self.after(at)):
            answers.pair(self.list.at(place))

    def cursor_step(self, at, name, words, answers):
        """Makes a step, and returns the cursor's place afterwards. A list of commands and a text show where
        they go."""
        if name in ("next", "prev"):
            at = self.after(at) if name == "next" else self.before(at)
            if answers.form != "calls":
                answers.seen(self.list.at(at), True)
        elif name in ("cur", "peek_next", "peek_prev"):
            place = {"cur": at, "peek_next": self.after(at), "peek_prev": self.before(at)}[name]
            answers.seen(self.list.at(place), True)
        elif name == "at":
            self.around(at, answers)
        elif name in ("before", "after"):
            return self.put_at(at, at if name == "before" else self.after(at), words.pair(), answers)
        else:
            self.write_at(at, name, words.name(), answers)
        return at

    def put_at(self, at, place, pair, answers):
        """Puts the pair before the one at the place. The cursor stays on its pair, or on the guard. If it is
        on the pair of the key, the pair stays at its place."""
        if self.is_refused(pair, answers):
            return at
        stands = self.list.at(at)
        if stands and stands[0][0] == pair[0][0]:
            place = at
        answers.item(self.list.put(place, pair))
        return self.list.place_of(stands[0]) if stands else len(self.list.pairs)

    def write_at(self, at, name, value, answers):
        places = {"write": at, "write_pair": at, "write_next": self.after(at), "write_prev": self.before(at)}
        if name not in places:
            raise Unread
        old = self.list.at(places[name])
        if old:
            self.write(old[0], value)
        if name == "write":
            answers.value(old)
        else:
            answers.pair(old)
