"""How the messages of a script travel as deltas, as docs/formats.md has it, without the program's code: how many deliveries there are, at how many there is a gap, and how
many bytes all deltas have together."""
from .states import least
from .worlds import World


def value_size(value):
    """Returns how many bytes a value has in a message."""
    if isinstance(value, tuple):
        return 1 + sum(map(value_size, value))
    return 3 + len(value.encode()) if isinstance(value, str) else 9


def state_size(kind, state):
    """Returns how many bytes the state of a source has in a message."""
    if kind == "counter":
        return 8 * len(state)
    if kind == "maxreg":
        return 1 if state is None else 9
    values = state if kind == "gset" else {value for value, _ in state}
    tokens = 0 if kind == "gset" else 4 * len(values) + 10 * len(state)
    return 4 + sum(map(value_size, values)) + tokens


def changed(kind, before, after):
    """Returns what a state has beside the one before."""
    if kind == "orset":
        return {row: dead for row, dead in after.items() if before.get(row) != dead}
    if kind == "gset":
        return after - before
    if kind == "maxreg":
        return None if before == after else after
    return tuple(0 if old == new else new for old, new in zip(before, after))


class Travel(World):
    """The nodes of a script, of each the message that it sent last, of each message the one before it, and what is told of them all."""

    def __init__(self, graph, script):
        self.last, self.before = {}, []
        self.deliveries = self.gaps = self.bytes = 0
        super().__init__(graph, script)

    def send(self, _, node):
        super().send("", node)
        self.before.append(self.last.get(node))
        self.last[node] = self.messages[-1]
        self.bytes += self.size(self.before[-1], self.messages[-1])

    def deliver(self, _, node, number):
        self.deliveries += 1
        before = self.before[number]
        self.gaps += before is not None and any(have < need for have, need in zip(self.counts[node], before.counts))
        super().deliver("", node, number)

    def size(self, before, message):
        """Returns how many bytes the delta between two messages has."""
        nodes = len(message.counts)
        held = before.sources if before else {}
        size = 7 + 16 * nodes
        for name, state in message.sources.items():
            kind = self.kinds[name]
            size += 2 + len(name) + state_size(kind, changed(kind, held.get(name, least(kind, nodes)), state))
        return size

    def line(self):
        """Returns what is told behind the report."""
        return b"delta %d %d %d\n" % (self.deliveries, self.gaps, self.bytes)
