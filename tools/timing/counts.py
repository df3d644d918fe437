"""Counts the cost of a call of each row.

Each program is run under callgrind, with one round of each row and with two; the difference is the cost of
one round. Callgrind counts while the bench's clock runs. For each call it prints the instructions, the reads
and the writes of data, the misses of a cache of 1 MiB, and the mispredicted branches, as callgrind models
them. The counts of a program are the same on each machine, whatever else runs there. It needs valgrind with
its headers and a C compiler, and takes minutes.
"""

import re
import subprocess
import tempfile
from concurrent.futures import ThreadPoolExecutor
from pathlib import Path

#: the events of callgrind whose sum a number is
EVENTS = (("Ir",), ("Dr",), ("Dw",), ("DLmr", "DLmw"), ("Bcm", "Bim"))
PRELOAD = Path(__file__).resolve().parent.parent / "preload.c"


def counts_of(program, kind, size, rounds, room):
    """The cost of a round of each row of the kind, by its name, with its number of calls."""
    out = Path(room) / f"{kind}.{rounds}"
    tool = ["valgrind", "--tool=callgrind", "--collect-atstart=no", "--cache-sim=yes", "--branch-sim=yes"]
    tool.append("--LL=1048576,16,64")
    subprocess.run(
        [*tool, f"--callgrind-out-file={out}", program, kind, str(rounds), str(size)],
        env={"LD_PRELOAD": f"{Path(room).parent}/counts.so"},
        stdout=subprocess.DEVNULL,
        stderr=subprocess.DEVNULL,
        check=True,
    )
    found = {}
    for part in sorted(out.parent.glob(f"{out.name}.*"), key=lambda it: int(it.suffix[1:])):
        text = part.read_text()
        row = re.search(r"^desc: Trigger: Client Request: (\w+) \d+ \S+ (\d+)$", text, re.M)
        events = re.search(r"^events: (.*)$", text, re.M)
        totals = re.search(r"^(?:summary|totals): (.*)$", text, re.M)
        if row and events and totals:
            # Zeros at the end of the totals are left out.
            of = dict(zip(events[1].split(), map(int, totals[1].split())))
            found[row[1]] = [sum(of.get(it, 0) for it in kind) for kind in EVENTS], int(row[2])
    return found


def for_each_call(once, twice):
    """The cost of a call of each row."""
    return {
        row: [max(of_two - of_one, 0) / calls for of_one, of_two in zip(once[row][0], counts)]
        for row, (counts, calls) in twice.items()
    }


def begun(program, kinds, size, room, pool):
    """The runs of a program, for each kind one with one round and one with two."""
    Path(room).mkdir()
    return [[pool.submit(counts_of, program, kind, size, it, room) for it in (1, 2)] for kind in kinds]


def ended(runs):
    """The cost of a call of each row."""
    rows = {}
    for once, twice in runs:
        rows |= for_each_call(once.result(), twice.result())
    return rows


def print_counts(kinds, size, programs):
    """Prints a table of the cost of a call of each row, for the programs by their names."""
    with tempfile.TemporaryDirectory() as room:
        library = ["-shared", "-fPIC", "-o", f"{room}/counts.so", PRELOAD, "-ldl"]
        subprocess.run(["cc", "-DCOUNTS", "-O1", *library], check=True)
        with ThreadPoolExecutor() as pool:
            all_runs = [begun(it, kinds, size, f"{room}/{name}", pool) for name, it in programs.items()]
            rows = [ended(runs) for runs in all_runs]
    print(f"| N = {size:,} | {' | '.join(programs)} |")
    print("|---" * (1 + len(programs)) + "|")
    for row in rows[0]:
        cells = ["{:.0f}, {:.1f}, {:.1f}, {:.2f}, {:.2f}".format(*it[row]) for it in rows]
        print(f"| {row} | {' | '.join(cells)} |")
