"""The measurements of tools/bench, and their tables."""

import statistics

#: the kinds of rows over which a mean is taken
MEANS = {
    "numbers": ("lookups", "inserts", "removals", "walks", "wholes", "sets", "algebra", "caches", "budgets"),
    "texts": ("texts",),
    "growth": ("growth",),
}
#: the end of the name of a row whose call has one caller in the program
FROM_ONE = "_from_one"
#: the name for the port where such a row and the same call from ten places are timed side by side
BESIDE_ONE = "beside one"


class Times:
    """The times of each program. The others are compared with the first.

    A row is timed at a size with several numbers of keys, if its kind is spread over the loads of a table.
    """

    def __init__(self, programs, sizes, turns):
        self.programs, self.sizes, self.turns = programs, sizes, turns
        #: the rows in the order of their first times, with their kinds
        self.rows = {}
        #: the time of a call in each turn, by program, row and size, and then by the number of keys
        self.ns = {}

    def add(self, turn, program, kind, row, size, keys, ns):
        self.rows.setdefault(row, kind)
        self.ns.setdefault((program, row, size), {}).setdefault(keys, {})[turn] = ns

    def median(self, program, row, size):
        """The median time of a call, if the program has the row: the mean over the numbers of keys."""
        by_keys = self.ns.get((program, row, size), {}).values()
        return mean_of(median_of(it.values()) for it in by_keys)

    def ratios(self, program, row, size, keys=None):
        """The time of a call divided by the program's in each turn, the least first: the mean over the
        numbers of keys, or at one of them."""
        return self.ratios_of((self.programs[0], row), (program, row), size, keys)

    def ratios_of(self, one, other, size, keys=None):
        """The same for a program and its row compared with another."""
        ones, others = self.ns.get((*one, size), {}), self.ns.get((*other, size), {})
        counts = [it for it in ones if it in others and keys in (None, it)]
        turns = [turn for turn in range(1, self.turns + 1) if all(turn in others[it] for it in counts)]
        return sorted(mean_of(ones[it][turn] / others[it][turn] for it in counts) for turn in turns if counts)

    def mean(self, program, kinds, sizes):
        """The geometric mean of the median ratios of the rows of these kinds."""
        rows = [row for row, kind in self.rows.items() if kind in kinds and not row.endswith(FROM_ONE)]
        return mean_of(median_of(self.ratios(program, row, size)) for row in rows for size in sizes)

    def tables(self, notes):
        """The lines of the tables: means by kind; all rows; rows by load; rows called from one place; the
        times."""
        yield "; ".join([*notes, f"medians of {self.turns} turns"])
        for program in self.programs[1:]:
            yield from ("", f"A call beside {program}, means by kind:", "")
            yield from self.means(program)
            yield from ("", f"A call beside {program}, and where the middle half of the turns lies:", "")
            yield from self.table(self.sizes, lambda row, size: self.shown_ratio(program, row, size))
            for size in self.sizes:
                yield from self.by_keys(program, size)
        yield from ("", "A call from ten places beside the same from one:", "")
        yield from self.table(self.sizes, self.shown_beside_one)
        yield from ("", f"ns of a call, of {', '.join(self.programs)}:", "")
        yield from self.table(self.sizes, self.shown_times)

    def means(self, program):
        """One mean for each kind, because a mean over different things has no meaning."""
        yield from head_of(self.sizes, "all sizes")
        for name, kinds in MEANS.items():
            means = [self.mean(program, kinds, sizes) for sizes in (*([it] for it in self.sizes), self.sizes)]
            if any(means):
                yield line_of(f"mean of {name}", map(shown, means))

    def by_keys(self, program, size):
        """The rows that are timed with several numbers of keys at the size."""
        of_size = [by_keys for key, by_keys in self.ns.items() if (key[0], key[2]) == (program, size)]
        counts = sorted({keys for by_keys in of_size for keys in by_keys})
        if len(counts) > 1:
            yield from ("", f"A call beside {program}, by the number of keys:", "")
            yield from self.table(
                counts, lambda row, keys: shown(median_of(self.ratios(program, row, size, keys))), 1
            )

    def table(self, sizes, cell, least=0):
        """A line for each row that has more cells than the least."""
        yield from head_of(sizes)
        for row in self.rows:
            cells = [cell(row, size) for size in sizes]
            if sum(map(bool, cells)) > least:
                yield line_of(row, cells)

    def shown_ratio(self, program, row, size):
        return shown_spread(self.ratios(program, row, size))

    def shown_beside_one(self, row, size):
        return shown_spread(self.ratios_of((BESIDE_ONE, row), (BESIDE_ONE, row + FROM_ONE), size))

    def shown_times(self, row, size):
        medians = [self.median(program, row, size) for program in self.programs]
        return ", ".join(f"{it:.1f}" for it in medians if it is not None)


def mean_of(values):
    """The geometric mean of the values that exist and are not 0, if there are any."""
    there = [it for it in values if it]
    return statistics.geometric_mean(there) if there else None


def median_of(values):
    return statistics.median(values) if values else None


def shown(number):
    return "" if number is None else f"{number:.2f}"


def shown_spread(ratios):
    """The median of sorted ratios, and where their middle half lies."""
    if not ratios:
        return ""
    low, middle, high = statistics.quantiles(ratios * 2 if len(ratios) == 1 else ratios, method="inclusive")
    return f"{middle:.2f} ({low:.2f} to {high:.2f})"


def head_of(sizes, *more):
    names = ["Row", *(f"{size:,}" for size in sizes), *more]
    return line_of(names[0], names[1:]), "|---" * len(names) + "|"


def line_of(name, cells):
    return f"| {' | '.join([name, *cells])} |"
