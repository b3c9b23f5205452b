"""Whether a program that stands in the folder out/ of its crate is one that `rt ci` proved, built and ran for the sources as they stand.

`rt ci` moves every folder out/ away before it begins. It begins with a crate once those that it uses are proved: it makes the crate's folder out/ anew,
then reads the crate's sources. It builds a program only from what it proved, first by LLVM and then by the toolchain's own compiler. At its end,
where the program's proof passed, it runs both and writes down what each printed. So the program counts where
- the folder out/ of each crate was born after the last change of that crate's sources, of crates.txt and of HANDLES,
- and after those of the crates that it uses; so a copy of a checkout, whose files are as new as the copy, doesn't count,
- both programs and what they printed are there, made in that order behind the program's folder, and they printed what they must,
- `rt run` has left no stamp of its own, and no `rt ci` is at work here.
Where the file system tells no time of birth, no program counts. All this speaks of the proofs of the program; whether the rest of the gate passed,
such as the tests of another crate, its last line alone tells.
"""
import fcntl
import os
import subprocess

from . import sources


def built(program):
    """Returns where a build leaves the program of this crate."""
    return f"{sources.TOP}/crates/{program}/out/{program}"


def made(program):
    """Returns what a gate leaves, in the order in which it makes them."""
    name, out = built(program), f"{sources.TOP}/crates/{program}/out"
    return name, f"{name}.by-rattle", f"{out}/stdout", f"{out}/stdout.by-rattle"


def births(crates):
    """Returns when the folder out/ of each was made, in nanoseconds, as far as the file system tells."""
    words = ["stat", "-c", "%.9W", *[f"{sources.TOP}/crates/{it}/out" for it in crates]]
    ran = subprocess.run(words, stdin=subprocess.DEVNULL, stdout=subprocess.PIPE, stderr=subprocess.DEVNULL)
    told = [line.replace(b".", b"") for line in ran.stdout.split()]
    return dict(zip(crates, map(int, told))) if len(told) == len(crates) and all(it.isdigit() for it in told) else {}


def is_proved_since_changes(program):
    """Returns whether each crate's folder was made after the crate's last change and after those of the crates that it uses, and the program after its own."""
    uses, crates = sources.listed(), sources.crates(program)
    shared = sources.changed([f"{sources.TOP}/crates.txt", *filter(os.path.exists, [f"{sources.TOP}/HANDLES"])])
    born = births(crates)
    for crate in born:
        below = [born[it] for it in uses[crate] if it in born]
        if born[crate] <= max(shared, sources.last_change_of(crate)) or born[crate] < max(below, default=0):
            return False
    return bool(born) and born[program] <= os.stat(built(program)).st_mtime_ns


def is_at_work():
    """Returns whether an `rt ci` is at work in this checkout."""
    try:
        with open(f"{sources.TOP}/.git/rt-ci.lock", encoding="utf-8") as it:
            fcntl.flock(it, fcntl.LOCK_SH | fcntl.LOCK_NB)
    except BlockingIOError:
        return True
    except OSError:
        pass
    return False


def read(file):
    with open(file, "rb") as it:
        return it.read()


def has_run_well(program):
    """Returns whether both programs are there, and printed what they must after both were made."""
    files = made(program)
    if os.path.exists(f"{files[0]}.stamp") or not all(map(os.path.isfile, files)):
        return False
    times = [os.stat(it).st_mtime_ns for it in files]
    printed = {read(it) for it in (f"{sources.TOP}/crates/{program}/stdout", *files[2:])}
    return times == sorted(times) and len(printed) == 1


def is_for_these_sources(program):
    """Returns whether the program counts. A file that goes meanwhile belongs to another run that begins."""
    try:
        return has_run_well(program) and not is_at_work() and is_proved_since_changes(program)
    except FileNotFoundError:
        return False
