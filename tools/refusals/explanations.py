"""Explains a line with which the program refuses: where in the files it is, and what its cause means."""
import dataclasses
import re

from pictures.graph_variables import INPUTS
from . import causes, json_parts

PATTERNS = {"NUMBER": r"(?P<NUMBER>\d+)", "COMMAND": r"(?P<COMMAND>\d+)", "NODE": r"(?P<NODE>\d+)", "PLACE": r"(?P<PLACE>\d+)"}
PATTERNS |= {"NAME": r"(?P<NAME>[a-z][a-z0-9_]*)", "CAUSE": r"(?P<CAUSE>\w+)", "FILE": r"(?P<FILE>.*)"}
# how much of a declaration or a command is shown
MOST = 400


@dataclasses.dataclass
class Files:
    """The files that the program was given, as far as they are known."""

    graph: str | None = None
    script: str | None = None
    merged: list | None = None


def files_of(program, words):
    """Returns the files that these words of the program lasp or site name."""
    if program == "site":
        return Files(*words[:1], *words[3:4])
    word, rest = (words[0], words[1:]) if words else ("", [])
    if word == "merge":
        return Files(*rest[:1], merged=rest[1:])
    if word == "dots":
        return Files(script=rest[0] if rest else None)
    return Files(*rest[: 2 if word in ("plain", "run", "trace", "export") else 1])


def read_line(line):
    """Returns the form of the line, and what stands in it for the words in capitals; or None where the program writes no such line."""
    for form in causes.LINES:
        pattern = " ".join(PATTERNS.get(word, re.escape(word)) for word in form.split(" "))
        if it := re.fullmatch(pattern, line, re.DOTALL):
            return form, it.groupdict()
    return None


def shown(part):
    """Returns the text of a declaration or a command, as it is in its file, a little to the right."""
    text = part.text if len(part.text) <= MOST else f"{part.text[:MOST]}…"
    return ["    " + it.strip() for it in text.split("\n")]


def told(part, file, what):
    return [f"{what}, {file}, line {part.line}:", *shown(part)]


def form_of(part):
    """Returns the parts of a declaration or a command, or none where it isn't even an array."""
    return part.value if isinstance(part.value, list) else []


def names_of_declaration(words):
    """Returns the names that a declaration uses: its own, and its inputs."""
    kind = words[1] if len(words) > 1 and isinstance(words[1], str) else ""
    return [*words[:1], *words[2 : 2 + INPUTS.get(kind, 0)]]


def names_of_command(words):
    """Returns the names of variables and marks that a command uses."""
    if words[:1] == ["declare"]:
        return names_of_declaration(words[1]) if len(words) > 1 and isinstance(words[1], list) else []
    found = words[2:3]
    if words[:1] in (["mark"], ["bind"]):
        found = found + words[3:4]
    threshold = words[3] if len(words) > 3 and words[0] in ("read", "await") and isinstance(words[3], list) else []
    return found + (threshold[1:2] if threshold[:1] in (["at_least"], ["above"]) else [])


def made_by_graph(parts, file):
    """Returns what these declarations declare: by name what became of it, and where."""
    return {words[0]: ("declared", part, file) for part in parts if (words := form_of(part)) and isinstance(words[0], str)}


def made_by_script(parts, file):
    """Returns what these commands declare or mark."""
    found = {}
    for part in parts:
        match form_of(part):
            case ["declare", [str(name), *_]]:
                found[name] = ("declared", part, file)
            case ["mark", _, _, str(name)]:
                found[name] = ("marked", part, file)
    return found


def origins(names, made):
    """Returns where these names come from, as far as they do."""
    known = dict.fromkeys(it for it in names if isinstance(it, str) and it in made)
    return [line for it in known for line in told(made[it][1], made[it][2], f"{it} is {made[it][0]} here")]


def in_graph(number, files):
    """Returns where a declaration is, and those that it names."""
    parts = json_parts.parts_of_file(files.graph) or []
    if number >= len(parts):
        return []
    made = made_by_graph(parts[:number], files.graph)
    return told(parts[number], files.graph, f"declaration {number}") + origins(names_of_declaration(form_of(parts[number])), made)


def in_script(number, files, cause=None):
    """Returns where a command is, and where the names in it come from; for an unknown node also where their number is said."""
    parts = json_parts.parts_of_file(files.script) or []
    lines = told(parts[0], files.script, "the nodes are these") if parts and cause == "NoSuchNode" else []
    if number >= len(parts):
        end = [f"the end of the script, {files.script}"] if parts and number == len(parts) else []
        return end + lines
    made = made_by_graph(json_parts.parts_of_file(files.graph) or [], files.graph) | made_by_script(parts[:number], files.script)
    return told(parts[number], files.script, f"command {number}") + lines + origins(names_of_command(form_of(parts[number])), made)


def in_whole(file, cause):
    """Returns where a file stops being JSON, as far as that is known."""
    if not file:
        return []
    at = json_parts.fault_of_file(file) if cause == "NotJson" else None
    return [f"{file}, line {at[0]}, column {at[1]}:" if at else f"{file}:"]


def of_refusal(part, whole, number, cause, files):
    """Returns the explanation of a refused graph or script. With the number 0, a whole file is told from its first element by looking at it."""
    file = files.graph if whole == "graph" else files.script
    is_whole = number == 0 and cause in causes.CAUSES[whole]
    if is_whole and part == "declaration" and cause in causes.CAUSES[part]:
        is_whole = json_parts.parts_of_file(file) is None
    if is_whole:
        return in_whole(file, cause) + [causes.CAUSES[whole][cause]]
    found = in_graph(number, files) if part == "declaration" else in_script(number, files, cause)
    return found + [causes.CAUSES[part][cause]]


def of_state(file, place, cause):
    """Returns the explanation of a file that can't be merged, with the bytes that stand there."""
    try:
        with open(file, "rb") as it:
            it.seek(place)
            found = it.read(16).hex(" ")
    except (OSError, ValueError, OverflowError):
        found = ""
    return [f"{file}, byte {place}{', where these stand' if found else ''}:", *([f"    {found}"] if found else []), causes.CAUSES["state"][cause]]


def where(words):
    """Returns the node and the variable of a line, as far as it has them."""
    found = [f"{what} {words[word]}" for what, word in (("node", "NODE"), ("variable", "NAME")) if word in words]
    return [", ".join(found)] if found else []


def of_stop(form, words, files):
    """Returns the explanation of a run that stopped at a command, or of a merge that a file made too large."""
    number = int(words["COMMAND"])
    place = in_script(number, files)
    if files.merged is not None:
        place = [f"file {number}, {files.merged[number]}"] if number < len(files.merged) else ["all files together"]
    return place + where(words) + [causes.LINES[form]]


def explained(line, files):
    """Returns the explanation of a line, or None where the program writes no such line."""
    found = read_line(line)
    if not found:
        return None
    form, words = found
    part, whole = {"graph": ("declaration", "graph"), "script": ("command", "script"), "state": ("state", "state")}.get(form.split(" ")[0], ("", ""))
    if "CAUSE" in words and words["CAUSE"] not in causes.CAUSES[part] | causes.CAUSES[whole]:
        return None
    if form.startswith("state"):
        return of_state(words["FILE"], int(words["PLACE"]), words["CAUSE"])
    if "NUMBER" in words:
        return of_refusal(part, whole, int(words["NUMBER"]), words["CAUSE"], files)
    if "COMMAND" in words:
        return of_stop(form, words, files)
    return ([f"{words['FILE']}:"] if "FILE" in words else []) + where(words) + [causes.LINES[form]]
