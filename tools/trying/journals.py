"""Holds the journals that `trace` writes against docs/definitions.md: each must be legal, have what the script does at its node, and come to what plain evaluation gives. Written without the program's code, and slow."""
import dataclasses
import re

from .states import SOURCES, delta, equation, evaluated, inputs_of, is_valid, joined, least

NUMBER = r"(0|[1-9][0-9]*)"
NAME = r"([a-z][a-z0-9_]*)"
# how the lines of an entry's words go on
FORMS = {"update": f"{NAME} {NUMBER}", "deliver": f"(){NUMBER}", "bind": f"{NAME} {NUMBER}", "declare": f"{NAME}()"}
FORMS = {word: re.compile(f"{NUMBER} {NUMBER} {NUMBER} {word} {rest}") for word, rest in FORMS.items()}
MOST_UPDATES = 100_000


class Unlawful(Exception):
    """What is wrong with a trace."""


@dataclasses.dataclass
class Entry:
    """A line: the node, the entry's place, its caller and its word; then a variable's name, and a number: of the update or the message, or of how many entries a result was made."""

    node: int
    place: int
    caller: int
    word: str
    name: str
    number: int | None

    def line(self):
        return " ".join(str(it) for it in (self.node, self.place, self.caller, self.word, self.name, self.number) if it not in ("", None)) + "\n"


def wants(holds, what):
    if not holds:
        raise Unlawful(what)


def entry_of(line):
    """Returns what a line says, which has just the form of its word."""
    word = line.split(" ")[3] if line.count(" ") > 3 else ""
    found = FORMS[word].fullmatch(line) if word in FORMS else None
    wants(found, f"no line of a journal: {line}")
    node, place, caller, name, number = found.groups()
    return Entry(int(node), int(place), int(caller), word, name, int(number) if number else None)


def entries_behind(report, text):
    """Returns the entries behind a report."""
    wants(text.startswith(report), "another report than that of plain")
    behind = text[len(report) :].decode("ascii", "replace")
    wants(not behind or behind.endswith("\n"), "the last line has no end")
    return [entry_of(it) for it in behind.split("\n")[:-1]]


class Replica:
    """A journal as far as it was read, and the states of all variables after each number of entries, by name."""

    def __init__(self, graph, node, nodes, workers):
        self.node, self.nodes, self.workers = node, nodes, workers
        self.graph = {it[0]: it for it in graph}
        self.counts, self.updates = [0] * nodes, 0
        self.after = [{it[0]: least(it[1], nodes) for it in graph}]
        self.made = {}

    def join(self, states, name, more):
        states[name] = joined(self.graph[name][1], states[name], more)
        wants(is_valid(states[name]), f"{name} has too many rows")

    def update(self, states, entry, call):
        wants((entry.word, entry.name) == ("update", call.name), f"an update of {call.name} must come")
        self.updates += 1
        self.counts[self.node] += 1
        wants(entry.number == self.updates, f"it is update {self.updates}")
        self.join(states, call.name, delta(call.word, call.brought, states[call.name], self.node, self.counts[self.node]))

    def deliver(self, states, entry, call):
        wants((entry.word, entry.number) == ("deliver", call.brought.number), f"message {call.brought.number} must come")
        wants(list(call.brought.sources) == [it for it in states if self.graph[it][1] in SOURCES][: len(call.brought.sources)], "the message is of other sources")
        self.counts = list(map(max, self.counts, call.brought.counts))
        for name, state in call.brought.sources.items():
            self.join(states, name, state)

    def declare(self, states, entry, call):
        wants((entry.word, entry.name) == ("declare", call.name), f"the declaration of {call.name} must come")
        wants(call.name not in self.graph, "the name is taken")
        self.graph[call.name] = call.brought
        states[call.name] = least(call.brought[1], self.nodes)

    def bind(self, states, entry):
        wants(entry.caller <= self.workers, "there are fewer workers")
        wants(entry.number <= entry.place, "it is made of entries that are still to come")
        before = self.after[entry.number]
        wants(entry.name in before, "the variable isn't declared among the entries that it is made of")
        declaration = self.graph[entry.name]
        wants(declaration[1] not in SOURCES, "a source is bound")
        self.join(states, entry.name, self.result(declaration, [before[it] for it in inputs_of(declaration)]))

    def result(self, declaration, inputs):
        """Returns what a variable is made of these inputs; what was made once isn't made again."""
        key = declaration[0], *map(id, inputs)
        if key not in self.made:
            self.made[key] = equation(declaration[1], declaration[2:], inputs), inputs
        return self.made[key][0]

    def take(self, entry, calls):
        """Takes one more entry, which is a result or the next of these calls."""
        wants(entry.place == len(self.after) - 1, f"it is at place {len(self.after) - 1}")
        states = dict(self.after[-1])
        if entry.word == "bind":
            self.bind(states, entry)
        else:
            wants(entry.caller == 0, "only caller 0 may make it")
            call = next(calls, None)
            wants(call, "nothing is left to come")
            {"deliver": self.deliver, "declare": self.declare}.get(call.word, self.update)(states, entry, call)
            wants(max(self.counts) <= MOST_UPDATES, "too many updates are counted")
        self.after.append(states)


def check_journal(graph, node, entries, world, workers):
    """Refuses a node's entries where they are no journal that the script may come to there."""
    replica, calls = Replica(graph, node, len(world.counts), workers), iter(world.calls[node])
    for entry in entries:
        try:
            replica.take(entry, calls)
        except Unlawful as it:
            raise Unlawful(f"{entry.line().strip()}: {it}") from None
    wants(next(calls, None) is None, f"node {node}: what the script does there isn't whole")
    wants(replica.counts == world.counts[node], f"node {node}: it counts {replica.counts}")
    states = replica.after[-1]
    for name, state in evaluated(replica.graph.values(), states).items():
        wants(states[name] == state, f"node {node}: {name} isn't what its graph gives at the end")


def check_trace(graph, world, workers, report, text):
    """Refuses a text that isn't this report with a lawful journal behind it for each node, in order."""
    entries, nodes = entries_behind(report, text), len(world.counts)
    for node, counts in enumerate(world.counts):
        wants(f"known {node} {' '.join(map(str, counts))}\n".encode() in report, f"the report has other counts of node {node}")
    found = [it.node for it in entries]
    wants(found == sorted(found) and set(found) <= set(range(nodes)), "the nodes aren't in order")
    for node in range(nodes):
        check_journal(graph, node, [it for it in entries if it.node == node], world, workers)
