"""The cases of the program that crates/rows/stdin has, as far as no read and no write fails in them; the head of crates/rows/src/main.rt says what its lines are."""
import dataclasses
import os

CASES = f"{os.path.dirname(os.path.dirname(os.path.dirname(os.path.abspath(__file__))))}/crates/rows/stdin"
# what a line does that lets a read or a write fail, or keeps what was written
PASSED_OVER = ("fail_read", "fail_write", "err_room", "cuts", "keep", "unread", "ends_part")


@dataclasses.dataclass
class Run:
    """The program on some words, with the files that are there then, and its answer."""

    case: str
    words: list
    files: dict
    status: int = 0
    written: bytes = b""
    told: bytes = b""


def numbered(rest):
    first, end, text = rest.split(" ", 2)
    return "".join(text.replace("#", str(it)) for it in range(int(first), int(end)))


def content(word, rest):
    """Returns what a line brings to its file."""
    if word == "hex":
        return bytes.fromhex(rest)
    if word == "each":
        return numbered(rest).encode()
    if word == "times":
        count, text = rest.split(" ", 1)
        return text.encode() * int(count)
    return rest.encode()


def output(word, rest):
    """Returns what a line says is written."""
    if word == "out_hex":
        return bytes.fromhex(rest)
    if word == "out_each":
        first, end, text = rest.split(" ", 2)
        return numbered(f"{first} {end} {text}\n").encode()
    return f"{rest}\n".encode()


def take_line(word, rest, files, run):
    """Does what a line says to the files and to the run above it."""
    if word == "file":
        name, _, text = rest.partition(" ")
        files.pop(name, None)
        files[name] = text.encode()
    elif word == "pad":
        name = list(files)[-1]
        files[name] = files[name].ljust(int(rest))
    elif word in ("more", "hex", "each", "times"):
        files[list(files)[-1]] += content(word, rest)
    elif word in ("out", "out_each", "out_hex"):
        run.written += output(word, rest)
    elif word == "ends":
        status, _, line = rest.partition(" ")
        run.status, run.told = int(status), f"{line}\n".encode()
    else:
        raise ValueError(f"crates/rows/stdin has a line {word} that isn't known here")


def runs_of(name, lines):
    """Returns the runs of a case."""
    files, runs = {}, []
    for word, rest in lines:
        if word == "run":
            words = [it.encode().replace(rb"\xff", b"\xff") for it in rest.split()]
            runs.append(Run(name, words, dict(files)))
        else:
            take_line(word, rest, files, runs[-1] if runs else None)
    return runs


def all_runs():
    """Returns the runs of all cases but those that are passed over."""
    cases = {}
    with open(CASES, encoding="utf-8") as it:
        for line in it.read().split("\n"):
            word, _, rest = line.partition(" ")
            if word == "case":
                lines = cases.setdefault(rest, [])
            elif line and word != "#":
                lines.append((word, rest))
    told = {name: lines for name, lines in cases.items() if not any(word in PASSED_OVER for word, _ in lines)}
    return [run for name, lines in told.items() for run in runs_of(name, lines)]
