"""Random graphs and scripts from fixed seeds for nodes that run beside each other. No wait is for ever: what is awaited is met by what all nodes send before it in the script, whatever they heard; and at most one node, at its end, awaits what never comes."""
from .random_scripts import RandomScript
from .states import SOURCES, delta, evaluated, joined, least


class LiveScript(RandomScript):
    """A random graph and script, as they grow. Beside them stands what each node surely holds, from its own updates alone, and what was surely sent."""

    def __init__(self, seed):
        super().__init__(seed)
        # (what the super class did to a script of its own is left out: names that it declared there too)
        self.kinds = {it[0]: it[1] for it in self.graph}
        self.orsets = ["a", "b"]
        self.sets = [it for it in self.sets if it in self.kinds]
        self.names = [it for it in self.names if it in self.kinds]
        self.own = [{it[0]: least(it[1], self.nodes) for it in self.graph if it[1] in SOURCES} for _ in range(self.nodes)]
        self.updates, self.surely = [0] * self.nodes, dict(self.own[0])
        self.commands = [["nodes", self.nodes]]
        for _ in range(self.chance.randint(1, 40)):
            self.commands.append(self.chance.choice([self.change] * 6 + [self.post] * 3 + [self.shows] * 2 + [self.waits] * 2)())
        if self.chance.random() < 0.2:
            self.commands.append(["await", self.node(), "a", ["added", [99]]])

    def change(self):
        command = self.update()
        word, node, name, brought = command
        self.updates[node] += 1
        held = self.own[node]
        held[name] = joined(self.kinds[name], held[name], delta(word, brought, held[name], node, self.updates[node]))
        return command

    def post(self):
        node = self.node()
        for name, state in self.own[node].items():
            self.surely[name] = joined(self.kinds[name], self.surely[name], state)
        return ["send", node]

    def shows(self):
        return ["print", self.node(), self.chance.choice(self.names)]

    def waits(self):
        """Returns an await that what is surely sent meets, together with what its node did itself."""
        node = self.node()
        held = {name: joined(self.kinds[name], state, self.own[node][name]) for name, state in self.surely.items()}
        shown = evaluated(self.graph, held)
        name = self.chance.choice(self.names)
        state, kind = shown[name], self.kinds[name]
        if kind == "maxreg":
            return ["print", node, name]
        if kind in ("gset", "counter"):
            most = len(state) if kind == "gset" else sum(state)
            return ["await", node, name, ["count", self.chance.randint(0, most)]]
        word = self.chance.choice(["added", "added", "removed"])
        values = sorted({value for (value, _), dead in state.items() if isinstance(value, int) and (word == "added" or dead)})
        asked = self.chance.sample(values, min(len(values), self.chance.randint(0, 2)))
        return ["await", node, name, [word, asked]]
