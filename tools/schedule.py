"""Proves crates in parallel, each after the crates on which it depends.

A crate's chain is the crate and the longest sequence of crates above it that have to follow one after
another, measured in lines of code. These are the lines that end in a brace or a semicolon, because a law
without a body is quickly proved. The crates with the longest chains begin first, and the first of them gets
the processors that are left over. A check that is split between processors takes half as much processor time
again.
"""

import os
import re
import sys
import tempfile
import time
from graphlib import TopologicalSorter
from pathlib import Path

from repository import all_below

CODE = re.compile(rb"^(?!ghost use|use|pub use|\{\}).*[;{}]$", re.M)
SPLIT = 1.5  # times the processor time
HALF_MINUTE = 30


class Schedule:
    """Which crates to begin next, and with how many processors."""

    def __init__(self, crates, folder, stands_on, processors=None):
        """The crates are in the folder. The crates on which they depend are among them, or done."""
        self.stands_on = stands_on
        self.waiting = [name for name in stands_on if name in crates]
        self.total, self.done, self.running, self.ready = len(self.waiting), 0, {}, []
        self.order = TopologicalSorter({name: self.below(name) for name in self.waiting})
        self.order.prepare()
        self.processors = processors or len(os.sched_getaffinity(0))
        self.lines = {name: lines_in(folder / name / "src") for name in self.waiting}
        self.chains = {name: self.chain(name) for name in reversed(self.waiting)}

    def chain(self, name):
        above = [self.chain(it) for it in self.waiting if name in self.stands_on[it]]
        return self.lines[name] + max(above, default=0)

    def below(self, name):
        return [it for it in all_below(name, self.stands_on)[:-1] if it in self.waiting]

    def begin(self):
        """Begins crates as long as processors are idle, and returns each with its number of processors. It is
        one, but the first crate also gets what is left over, and it gets all if every other crate left
        depends on it, because what still runs ends soon. Only the longest chain gets what is left over."""
        self.ready = sorted([*self.ready, *self.order.get_ready()], key=lambda it: -self.chains[it])
        idle = self.processors - sum(self.running.values())
        if not self.ready or (self.running and idle <= 0):
            return {}
        first, begun = self.ready[0], self.ready[: max(idle - 1, 1)]
        jobs = dict.fromkeys(begun, 1)
        if all(first in all_below(it, self.stands_on) for it in self.waiting):
            jobs = {first: self.processors}
        elif all(self.chains[it] <= self.chains[first] for it in self.running):
            jobs[first] = max(idle + 1 - len(begun), 1)
        self.running |= jobs
        self.waiting = [it for it in self.waiting if it not in jobs]
        self.ready = [it for it in self.ready if it not in jobs]
        return jobs

    def end(self, name):
        self.order.done(name)
        del self.running[name]
        self.done += 1


def lines_in(folder):
    return sum(len(CODE.findall(file.read_bytes())) for file in folder.rglob("*.rt"))


def planned(schedule):
    """When each crate is likely to begin, as a part of the whole, with its name and its processors."""
    clock, ends, begun = 0, {}, []
    while schedule.waiting or schedule.running:
        for name, jobs in schedule.begin().items():
            begun.append((clock, name, jobs))
            ends[name] = clock + schedule.lines[name] * (SPLIT / jobs if jobs > 1 else 1)
        name = min(schedule.running, key=ends.get)
        clock = ends[name]
        schedule.end(name)
    return [(at / clock, name, jobs) for at, name, jobs in begun]


class Log:
    """The output of a command."""

    def __init__(self):
        self.file = tempfile.NamedTemporaryFile()

    def read(self):
        return Path(self.file.name).read_text(errors="replace")


class Progress:
    """The progress on standard error: at a terminal in one line that is kept up to date, else in a line as
    each crate begins and ends, and at least every half minute."""

    def __init__(self, who, schedule):
        self.who, self.schedule = who, schedule
        self.started = self.shown = time.monotonic()
        self.is_terminal = sys.stderr.isatty()

    def line(self, text):
        seconds = int(time.monotonic() - self.started)
        done = f"{self.schedule.done} of {self.schedule.total} crates done"
        return f"{self.who}: {seconds // 60}:{seconds % 60:02}, {done}; {text}"

    def show(self, text):
        """A line that stays, except at a terminal."""
        self.shown = time.monotonic()
        if not self.is_terminal:
            print(self.line(text), file=sys.stderr, flush=True)

    def keep_up(self, runs):
        """Tells what is being proved, and how many of its functions are."""
        if time.monotonic() < self.shown + (1 if self.is_terminal else HALF_MINUTE):
            return
        text = f"proving {', '.join(map(how_far, runs.values()))}"
        self.show(text)
        if self.is_terminal:
            print(f"\r{self.line(text)[:118]:118}", end="", file=sys.stderr, flush=True)

    def end(self):
        if self.is_terminal:
            print(f"\r{'':118}\r", end="", file=sys.stderr, flush=True)


def how_far(run):
    """The name of the run's crate, and how many of its functions are proved, if that is known."""
    done, functions = run.functions()
    return f"{run.name} ({done} of {functions} functions)" if functions else run.name


def prove_all(who, schedule, begin):
    """Proves the crates of the schedule, and returns whether all are proved. `begin` begins a crate, by its
    name and its number of processors. It returns an object with the name and a process. Until it `has_ended`,
    `functions` returns how many functions are proved and how many there are, or zeros if that is not known.
    Then `ends_well` returns whether the crate is proved, and the log has the output."""
    progress, runs = Progress(who, schedule), {}
    try:
        while schedule.waiting or runs:
            for name, jobs in schedule.begin().items():
                runs[name] = begin(name, jobs)
                progress.show(f"proving {name}, on {jobs} processors" if jobs > 1 else f"proving {name}")
            progress.keep_up(runs)
            time.sleep(0.2)
            for name in [it for it in runs if runs[it].has_ended()]:
                run = runs.pop(name)
                schedule.end(name)
                if not run.ends_well():
                    progress.end()
                    print(f"{run.log.read()}{who}: {name} failed", file=sys.stderr)
                    return False
                progress.show(f"{name} is proved")
    finally:
        for run in runs.values():
            run.process.terminate()
            run.process.wait()
    progress.end()
    return True
