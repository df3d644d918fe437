"""Counts the bytes of memory that a map takes for each entry.

Each program inserts N keys into an empty map (the row `insert`). The increase of its blocks of memory, with
what `malloc` adds to each, is the map's. Then it exchanges all keys of such a map four times (the row `churn`);
by how much the map grows is added. It needs a C compiler.
"""

import subprocess
import tempfile
from pathlib import Path

PRELOAD = Path(__file__).resolve().parent.parent / "preload.c"


#: the number of times that all keys are exchanged, at least
EXCHANGES = 4


def growth(program, row, rounds, size, library):
    """By how many bytes a program's memory grew in the last round of a row, and in all rounds."""
    with tempfile.TemporaryFile("w+") as told:
        subprocess.run(
            [program, row, str(rounds), str(size)],
            env={"LD_PRELOAD": library, "BYTES_FILE": str(told.fileno())},
            pass_fds=[told.fileno()],
            stdout=subprocess.DEVNULL,
            stderr=subprocess.DEVNULL,
            check=True,
        )
        told.seek(0)
        return [int(word) for word in told.read().split()]


def bytes_of(program, size, library):
    """The bytes for each of this many entries in the program's map, and after exchanges of all keys."""
    filled = growth(program, "insert", 1, size, library)[0]
    more = growth(program, "churn", EXCHANGES, size, library)[1]
    return filled / size, (filled + more) / size


def print_bytes(sizes, programs):
    """Prints a table of the bytes for each entry, for the programs by their names, and the means."""
    with tempfile.TemporaryDirectory() as room:
        library = f"{room}/bytes.so"
        words = ["cc", "-DBYTES", "-O1", "-shared", "-fPIC", "-o", library, PRELOAD, "-ldl"]
        subprocess.run(words, check=True)
        rows = [[it for name in programs for it in bytes_of(programs[name], size, library)] for size in sizes]
    names = [f"{name}{part}" for name in programs for part in ("", f", keys exchanged {EXCHANGES} times")]
    print(f"| Entries | {' | '.join(names)} |")
    print("|---" * (1 + len(names)) + "|")
    for size, cells in zip(sizes, rows):
        print(f"| {size:,} | {' | '.join(f'{it:.1f}' for it in cells)} |")
    print(f"| mean | {' | '.join(f'{sum(it) / len(rows):.1f}' for it in zip(*rows))} |")
