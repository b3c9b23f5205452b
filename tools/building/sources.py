"""The sources of a program: the files of its crate and of the crates below it, and when they changed last."""
import hashlib
import os
import pathlib
import re

TOP = str(pathlib.Path(__file__).absolute().parents[2])
# by a program's name the crate that has its `main`
PROGRAMS = {"lasp": "lasp_cli", "site": "lasp_site_cli"}
PARTS = ("src", "specs", "proofs")


def listed():
    """Returns the libraries that each crate uses, as crates.txt has them."""
    with open(f"{TOP}/crates.txt", encoding="utf-8") as it:
        lines = [line.partition("#")[0].partition(":") for line in it]
    return {name.split()[0]: uses.split() for name, colon, uses in lines if colon}


def crates(program):
    """Returns the crates of the program in this crate, each after those that it uses, and the program last."""
    uses, found = listed(), []

    def add(name):
        for below in uses[name]:
            if below in uses and below not in found:
                add(below)
        found.append(name)

    add(program)
    return found


def folders(program):
    """Returns the folders of sources, as paths below the top."""
    every = [f"crates/{crate}/{part}" for crate in crates(program) for part in PARTS]
    return [it for it in every if os.path.isdir(f"{TOP}/{it}")]


def entries(folder):
    """Returns the folder, and every folder and file in it, in one order."""
    found = [folder]
    for at, inner, files in os.walk(folder):
        found += [f"{at}/{name}" for name in [*inner, *files]]
    return sorted(found)


def changed(paths):
    """Returns the time of the last change of any of these, in nanoseconds. No copy or archive can set it back, and a file that went shows in its folder."""
    return max(os.lstat(it).st_ctime_ns for it in paths)


def last_change_of(crate):
    """Returns the time of the last change of the crate's sources."""
    return changed([path for part in PARTS for path in entries(f"{TOP}/crates/{crate}/{part}") if os.path.lexists(path)])


def last_change(program):
    """Returns the time of the last change of any source of the program."""
    return max(changed([f"{TOP}/crates.txt"]), *map(last_change_of, crates(program)))


def checksum(program):
    """Returns one checksum of all that the program is made of."""
    sum = hashlib.sha256()
    paths = ["crates.txt", *[path[len(TOP) + 1 :] for it in folders(program) for path in entries(f"{TOP}/{it}")]]
    for path in paths:
        if re.search(r"\.(rt|antt|txt)\Z", path) and os.path.isfile(f"{TOP}/{path}"):
            with open(f"{TOP}/{path}", "rb") as it:
                sum.update(repr((path, hashlib.sha256(it.read()).hexdigest())).encode())
    return sum.hexdigest()
