"""Random graphs and scripts from fixed seeds: messages that are lost, come again or come late, marks, reads, awaits and declarations, over up to eight nodes."""
import random

SOURCES = [["a", "orset"], ["b", "orset"], ["g", "gset"], ["c", "counter"], ["m", "maxreg"]]
# what may stand behind the sources, each with how it is derived from two sets
DERIVED = [
    lambda x, y: ["union", x, y],
    lambda x, y: ["product", x, y],
    lambda x, y: ["intersection", x, y],
    lambda x, y: ["map", x, "abs"],
    lambda x, y: ["filter", x, "even"],
    lambda x, y: ["fold", x, "sum", "itself"],
]


class RandomScript:
    """A random graph and script, as they grow."""

    def __init__(self, seed):
        self.chance = random.Random(seed)
        self.nodes = self.chance.randint(1, 8)
        self.graph = [list(it) for it in SOURCES]
        self.orsets, self.sets = ["a", "b"], ["a", "b"]
        self.names = [it[0] for it in SOURCES]
        for _ in range(self.chance.randint(1, 6)):
            self.graph.append(self.declaration())
        self.sent, self.marks = 0, []
        self.commands = [["nodes", self.nodes]]
        for _ in range(self.chance.randint(1, 40)):
            self.commands.append(self.chance.choice(self.choices())())

    def declaration(self):
        """Returns one more derived variable, of sets that are narrow enough."""
        derived = self.chance.choice(DERIVED)(self.chance.choice(self.sets), self.chance.choice(self.sets[:2]))
        name = f"v{len(self.names)}"
        self.names.append(name)
        if derived[0] != "fold" and len(self.sets) < 6:
            self.sets.append(name)
        return [name, *derived]

    def declared(self):
        """Returns what a script declares: a set of its own, which earlier messages don't speak of, or a derived variable."""
        if self.chance.random() < 0.7 or len(self.orsets) > 3:
            return self.declaration()
        name = f"v{len(self.names)}"
        self.names.append(name)
        self.orsets.append(name)
        if len(self.sets) < 6:
            self.sets.append(name)
        return [name, "orset"]

    def choices(self):
        """Returns what the next command may be, each as often as it is likely."""
        found = [self.update] * 8 + [self.message] * 3 + [self.point] * 3 + [self.mark, self.read]
        return found if len(self.names) > 40 else [*found, lambda: ["declare", self.declared()]]

    def node(self):
        return self.chance.randrange(self.nodes)

    def update(self):
        node, value = self.node(), self.chance.randint(-3, 5)
        return self.chance.choice(
            [
                ["add", node, self.chance.choice(self.orsets), value],
                ["add", node, self.chance.choice(self.orsets), value],
                ["remove", node, self.chance.choice(self.orsets), value],
                ["insert", node, "g", value],
                ["inc", node, "c", self.chance.randint(1, 9)],
                ["max", node, "m", value],
            ]
        )

    def message(self):
        if self.sent and self.chance.random() < 0.6:
            return ["deliver", self.node(), self.chance.randrange(self.sent)]
        if self.chance.random() < 0.5:
            self.sent += self.nodes
            return ["sync"]
        self.sent += 1
        return ["send", self.node()]

    def point(self):
        return ["settle"] if self.chance.random() < 0.2 else ["print", self.node(), self.chance.choice(self.names)]

    def mark(self):
        of = [it for it in self.marks if self.chance.random() < 0.7]
        if of:
            name, source = self.chance.choice(of)
            return ["bind", self.node(), source, name]
        source = self.chance.choice(self.names[:5])
        self.marks.append((f"k{len(self.marks)}", source))
        return ["mark", self.node(), source, self.marks[-1][0]]

    def read(self):
        node, value = self.node(), self.chance.randint(-3, 5)
        threshold = self.chance.choice([[self.chance.choice(self.sets), ["added", [value]]], ["c", ["count", self.chance.randint(0, 9)]], ["a", ["removed", []]]])
        # most awaits aren't met, and a run ends there
        return [self.chance.choice(["read"] * 9 + ["await"]), node, *threshold]


class LongScript(RandomScript):
    """Two stretches of so many changes, each without a point, over two nodes; behind each all variables are printed. No variable comes near the limit of rows."""

    def __init__(self, seed, changes):
        self.chance = random.Random(seed)
        self.nodes = 2
        self.graph = [list(it) for it in SOURCES] + [["u", "union", "a", "b"], ["e", "filter", "u", "even"], ["s", "map", "a", "abs"], ["n", "fold", "u", "sum", "itself"]]
        self.orsets, self.names = ["a", "b"], [it[0] for it in self.graph]
        self.sent, self.marks = 0, []
        self.commands = [["nodes", self.nodes]]
        for _ in range(2):
            self.commands += [self.change() for _ in range(changes)]
            self.commands += [["print", node, name] for node in range(self.nodes) for name in self.names]

    def change(self):
        return self.update() if self.sent > 60 or self.chance.random() < 0.99 else self.message()
