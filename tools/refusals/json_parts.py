"""The elements of a file that is one array in JSON, each with the line on which it begins and its text."""
import dataclasses
import json

SPACES = " \t\n\r"


@dataclasses.dataclass
class Part:
    value: object
    line: int
    text: str


def skipped(text, at):
    """Returns where the white space ends that begins here."""
    while at < len(text) and text[at] in SPACES:
        at += 1
    return at


def parts(text):
    """Returns the elements of the array, or raises ValueError where the text is none."""
    at, found, decoder, line, seen = skipped(text, 0), [], json.JSONDecoder(), 1, 0
    if text[at : at + 1] != "[":
        raise ValueError("no array")
    while True:
        at = skipped(text, at + 1)
        if not found and text[at : at + 1] == "]":
            return found
        value, end = decoder.raw_decode(text, at)
        line, seen = line + text.count("\n", seen, at), at
        found.append(Part(value, line, text[at:end]))
        at = skipped(text, end)
        if text[at : at + 1] == "]":
            return found
        if text[at : at + 1] != ",":
            raise json.JSONDecodeError("Expecting ',' or ']'", text, at)


def parts_of_file(file):
    """Returns the elements of the file's array, or None where it can't be read as one."""
    try:
        with open(file, encoding="utf-8") as it:
            return parts(it.read())
    except (OSError, ValueError, RecursionError, TypeError):
        return None


def fault_of_file(file):
    """Returns the line and the column at which the file stops being JSON, or None where that can't be told."""
    try:
        with open(file, encoding="utf-8") as it:
            json.load(it)
    except json.JSONDecodeError as error:
        return error.lineno, error.colno
    except (OSError, ValueError, RecursionError, TypeError):
        pass
    return None
