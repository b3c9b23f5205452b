"""Ways to spoil a trace: each makes a text of a right one that is surely wrong, or none where that has no room for it."""
import dataclasses

changed = dataclasses.replace


@dataclasses.dataclass
class Trace:
    """A right trace: its report, its entries, by how many workers it was made, and the nodes and names of variables that have a result in the end that holds something."""

    report: bytes
    entries: list
    workers: int
    holding: list

    def text(self, entries):
        return self.report + "".join(it.line() for it in entries).encode()


def is_bind(entry):
    return entry.word == "bind"


def is_update(entry):
    return entry.word == "update"


def is_call(entry):
    return not is_bind(entry)


def with_one(holds, change):
    """Returns how the last entry that is so is changed."""

    def spoil(trace):
        at = max((at for at, it in enumerate(trace.entries) if holds(it)), default=None)
        return None if at is None else trace.text([*trace.entries[:at], change(trace.entries[at], trace), *trace.entries[at + 1 :]])

    return spoil


def without(entries, dropped):
    """Returns the entries without these; places, and of how many entries results are made, are counted anew."""
    kept, left = [], {}
    for entry in entries:
        # how many of the first so many entries of the node are left
        counts = left.setdefault(entry.node, [0])
        counts.append(counts[-1] + (entry not in dropped))
        if entry not in dropped:
            kept.append(changed(entry, place=counts[-2], number=counts[entry.number] if is_bind(entry) else entry.number))
    return kept


def without_the_last(holds):
    def spoil(trace):
        found = [it for it in trace.entries if holds(it)][-1:]
        return trace.text(without(trace.entries, found)) if found else None

    return spoil


def results(trace):
    """Returns all results of a variable that holds something in the end."""
    return [it for it in trace.entries if is_bind(it) and (it.node, it.name) in trace.holding[-1:]]


def without_results(trace):
    return trace.text(without(trace.entries, results(trace))) if trace.holding else None


def results_of_nothing(trace):
    found = results(trace)
    return trace.text([changed(it, number=0) if it in found else it for it in trace.entries]) if found else None


def calls_exchanged(trace):
    """Exchanges what two calls of a node do that follow each other, and numbers updates anew."""
    calls = [at for at, it in enumerate(trace.entries) if is_call(it)]
    for one, other in reversed(list(zip(calls, calls[1:]))):
        first, last = trace.entries[one], trace.entries[other]
        if first.node == last.node and (first.word, first.name) != (last.word, last.name):
            entries = list(trace.entries)
            entries[one], entries[other] = changed(last, place=first.place), changed(first, place=last.place)
            if is_update(first) and is_update(last):
                entries[one].number, entries[other].number = first.number, last.number
            return trace.text(entries)
    return None


def nodes_the_other_way_round(trace):
    entries = sorted(trace.entries, key=lambda it: -it.node)
    return trace.text(entries) if entries != trace.entries else None


SPOILS = {
    "a result too few": without_results,
    "results of nothing": results_of_nothing,
    "a result of entries to come": with_one(is_bind, lambda it, _: changed(it, number=it.place + 1)),
    "a result of a source": with_one(is_bind, lambda it, _: changed(it, name="a")),
    "a result of no variable": with_one(is_bind, lambda it, _: changed(it, name="nothing")),
    "a worker too many": with_one(is_bind, lambda it, trace: changed(it, caller=trace.workers + 1)),
    "an update by a worker": with_one(is_update, lambda it, _: changed(it, caller=1)),
    "an update's number": with_one(is_update, lambda it, _: changed(it, number=it.number + 1)),
    "an update too few": without_the_last(is_update),
    "a delivery too few": without_the_last(lambda it: it.word == "deliver"),
    "a declaration too few": without_the_last(lambda it: it.word == "declare"),
    "another message": with_one(lambda it: it.word == "deliver", lambda it, _: changed(it, number=it.number + 1)),
    "calls exchanged": calls_exchanged,
    "a place": with_one(lambda _: True, lambda it, _: changed(it, place=it.place + 1)),
    "a call of another node": with_one(is_call, lambda it, _: changed(it, node=it.node + 1)),
    "nodes the other way round": nodes_the_other_way_round,
    "another report": lambda trace: b"0 a []\n" + trace.text(trace.entries),
    "a line without its end": lambda trace: trace.text(trace.entries)[:-1] if trace.entries else None,
    "an empty line": lambda trace: trace.text(trace.entries) + b"\n",
}
