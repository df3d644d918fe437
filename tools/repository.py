"""The crates of a repository, by its crates.txt."""

import subprocess
from pathlib import Path

TOP = Path(__file__).resolve().parent.parent
CRATES = TOP / "crates"


def lines_of(file):
    """The lines of a crates.txt by the crates that they name."""
    found = {}
    for line in file.read_text().splitlines() if file.exists() else []:
        name, colon, _ = line.partition("#")[0].partition(":")
        if colon:
            found[name.split()[0]] = line
    return found


def below(name, lines):
    """The crates that the crate's line names."""
    return lines[name].partition("#")[0].partition(":")[2].split()


def stands_on_of(file):
    """Each crate of a crates.txt, lowest first, with the crates of it on which it depends."""
    lines = lines_of(file)
    return {name: [it for it in below(name, lines) if it in lines] for name in lines}


def all_below(name, stands_on):
    """The crate after all crates on which it depends, directly or not, each once."""
    order = []
    for other in [it for each in stands_on[name] for it in all_below(each, stands_on)] + [name]:
        if other not in order:
            order.append(other)
    return order


def is_program(name):
    return (CRATES / name / "src/main.rt").exists()


def made_of(name):
    """The result of building the crate: a program, or the statements of a library."""
    return CRATES / name / (f"out/{name}" if is_program(name) else f"out/statements/{name}.rlib")


def crate_words(name, stands_on, kit):
    """The words that name a crate, the crates below it by their statements, and the program logic."""
    words = ["--crate-name", name, "src/main.rt" if is_program(name) else "src/lib.rt"]
    words += ["--extern", f"std={kit}/rlibs/std.rlib", "-L", f"dependency={kit}/rlibs"]
    for it in below(name, lines_of(TOP / "crates.txt")):
        words += ["--extern", f"{it}={made_of(it) if it in stands_on else f'{kit}/rlibs/{it}.rlib'}"]
    for it in all_below(name, stands_on)[:-1]:
        words += ["-L", f"dependency={made_of(it).parent}"]
    return [*words, "--antt-project", f"{kit}/rattle/logic/antt-project.json", "--links", f"{name}="]


def proof_words(name, stands_on, kit, jobs):
    """The words by which a crate is proved by so many processors."""
    return [*crate_words(name, stands_on, kit), "--logic-built", f"{kit}/logic_built", "--jobs", str(jobs)]


def toolchain():
    """The folder of the toolchain: `rt doc` prints the path of a file in it."""
    said = subprocess.run(["rt", "doc"], check=True, capture_output=True, text=True)
    return Path(said.stdout.strip()).parent
