"""What `merge GRAPH FILE` must answer where the graph has sources alone, by docs/formats.md and the slow reader."""
import json

from .reader import Refused, read

LEAST = {"orset": [], "gset": [], "counter": [], "maxreg": None}


def printed_value(value):
    if value[0] == 0:
        return str(value[1])
    if value[0] == 1:
        return json.dumps(value[1].decode(), ensure_ascii=False)
    return f"[{printed_value(value[1])},{printed_value(value[2])}]"


def printed(kind, content):
    if kind == "counter":
        return str(sum(content))
    if kind == "maxreg":
        return "null" if content is None else str(content)
    shown = content if kind == "gset" else sorted({it[0] for it in content if not it[3]})
    return f"[{','.join(map(printed_value, shown))}]"


def answer_to(graph, file, contents):
    """Returns the status, what is written, and the line that is told."""
    try:
        counts, sources = read(contents)
    except Refused as it:
        return 9, b"", f"state {file} {it.place} {it.cause}\n".encode()
    if [[it.name, it.kind] for it in sources] != graph[: len(sources)]:
        return 9, b"", f"state {file} 0 WrongGraph\n".encode()
    told = {it.name: it.content for it in sources}
    lines = [f"{name} {printed(kind, told.get(name, LEAST[kind]))}\n" for name, kind in graph]
    lines.append(f"known {' '.join(map(str, counts))}\n")
    return 0, "".join(lines).encode(), b""
