"""What a script does at its nodes, without derived variables and without the program's code: which updates, deliveries and declarations each node comes to have, in order."""
import dataclasses

from .states import SOURCES, delta, joined, least


@dataclasses.dataclass
class Message:
    """What a node's sources were and what it knew when it sent this: sources by name, in the graph's order."""

    number: int
    counts: list
    sources: dict


@dataclasses.dataclass
class Call:
    """What a script does at a node: an update's word, variable and what it brings, a message that comes, or a declaration."""

    word: str
    name: str = ""
    brought: object = None


class World:
    """The nodes of a script as far as it was done. A script that stops isn't told apart."""

    def __init__(self, graph, script):
        nodes = script[0][1]
        self.graph, self.messages, self.marks = [list(it) for it in graph], [], {}
        self.kinds = {it[0]: it[1] for it in graph}
        self.sources = [{name: least(kind, nodes) for name, kind in self.kinds.items() if kind in SOURCES} for _ in range(nodes)]
        self.counts = [[0] * nodes for _ in range(nodes)]
        self.calls = [[] for _ in range(nodes)]
        for word, *rest in script[1:]:
            getattr(self, word, self.update)(word, *rest)

    def update(self, word, node, name, brought):
        self.calls[node].append(Call(word, name, brought))
        self.counts[node][node] += 1
        held = self.sources[node]
        held[name] = joined(self.kinds[name], held[name], delta(word, brought, held[name], node, self.counts[node][node]))

    def mark(self, _, node, name, mark):
        self.marks[mark] = self.sources[node][name]

    def bind(self, word, node, name, mark):
        self.update(word, node, name, self.marks[mark])

    def send(self, _, node):
        self.messages.append(Message(len(self.messages), list(self.counts[node]), dict(self.sources[node])))

    def deliver(self, _, node, number):
        message, held = self.messages[number], self.sources[node]
        self.calls[node].append(Call("deliver", brought=message))
        self.counts[node] = list(map(max, self.counts[node], message.counts))
        for name, state in message.sources.items():
            held[name] = joined(self.kinds[name], held[name], state)

    def sync(self, _):
        nodes, first = range(len(self.counts)), len(self.messages)
        for node in nodes:
            self.send("", node)
        for node in nodes:
            for sender in nodes:
                if sender != node:
                    self.deliver("", node, first + sender)

    def declare(self, _, declaration):
        name, kind = declaration[:2]
        self.graph.append(declaration)
        self.kinds[name] = kind
        for node, calls in enumerate(self.calls):
            calls.append(Call("declare", name, declaration))
            if kind in SOURCES:
                self.sources[node][name] = least(kind, len(self.calls))

    def rest(self, *_):
        """Does what changes no source: a point, a print, a read."""

    settle = print = read = rest

    def __getattr__(self, name):
        if name == "await":
            return self.rest
        raise AttributeError(name)
