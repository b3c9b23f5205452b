"""Holds the texts that `live` writes against docs/formats.md: the journal, the sends and the prints of each node must be what its commands come to, and each node must have heard all that every other sent. Written without the program's code, and slow."""
import collections
import dataclasses
import json
import re

from .journals import NUMBER, Replica, Unlawful, entry_of, wants
from .states import SOURCES, evaluated, value_of, visible
from .worlds import Call, Message

# the numbers of one node's messages
NUMBERS = 100_000
NOTES = re.compile(f"{NUMBER} (send|print) {NUMBER}(?: ([a-z][a-z0-9_]*) (.*))?")
KNOWN = re.compile(f"known {NUMBER}((?: (?:0|[1-9][0-9]*))*)")
UPDATES = ("add", "remove", "insert", "inc", "max")


@dataclasses.dataclass
class Note:
    """A line of a send or a print: the node, how many entries its journal had, and of a print the variable and what it showed."""

    node: int
    word: str
    place: int
    name: str = ""
    value: str = ""

    def line(self):
        return " ".join(str(it) for it in (self.node, self.word, self.place, self.name, self.value) if it != "") + "\n"


def note_of(line):
    """Returns what a line says that is no entry, or nothing."""
    found = NOTES.fullmatch(line)
    if not found or (found[2] == "print") != (found[4] is not None):
        return None
    return Note(int(found[1]), found[2], int(found[3]), found[4] or "", found[5] or "")


def parts_of(text):
    """Returns the entries and notes of a text in their order, and what each node counts at its end."""
    wants(text.endswith(b"\n"), "the last line has no end")
    items, known = [], []
    for line in text.decode("utf-8", "replace").split("\n")[:-1]:
        counts = KNOWN.fullmatch(line)
        if counts:
            wants(int(counts[1]) == len(known), f"it isn't the line of node {len(known)}: {line}")
            known.append([int(it) for it in counts[2].split()])
        else:
            wants(not known, f"it stands behind what the nodes know: {line}")
            items.append(note_of(line) or entry_of(line))
    return items, known


def text_of(items, known):
    lines = [it.line() for it in items] + [f"known {node} {' '.join(map(str, counts))}\n" for node, counts in enumerate(known)]
    return "".join(lines).encode()


def key(value):
    """Returns what orders a value as it is printed: numbers, then texts, then pairs."""
    return (2, key(value[0]), key(value[1])) if isinstance(value, tuple) else (1, value.encode()) if isinstance(value, str) else (0, value)


def printed_value(value):
    return f"[{printed_value(value[0])},{printed_value(value[1])}]" if isinstance(value, tuple) else json.dumps(value, ensure_ascii=False)


def printed(declaration, state):
    """Returns how a variable's state is printed."""
    kind = declaration[1]
    if kind == "counter":
        return str(sum(state))
    if kind == "maxreg":
        return "null" if state is None else str(state)
    if kind == "fold":
        return str(sum(it for it in visible(state) if isinstance(it, int)))
    values = state if kind == "gset" else visible(state)
    return f"[{','.join(map(printed_value, sorted(values, key=key)))}]"


def meets(threshold, state):
    """Tells whether a state is at a threshold."""
    word, asked = threshold
    if word == "count":
        return asked <= (len(state) if isinstance(state, frozenset) else sum(state))
    values = [value_of(it) for it in asked]
    if isinstance(state, frozenset):
        return word == "added" and all(it in state for it in values)
    rows = {value for (value, _), dead in state.items() if word == "added" or dead}
    return all(it in rows for it in values)


class Life:
    """A node as far as its lines were read: its replica, what it still has to do, what it sent and how many messages of each node it heard."""

    def __init__(self, graph, script, node, workers, items):
        nodes = script[0][1]
        self.node, self.graph = node, [list(it) for it in graph]
        self.replica = Replica(graph, node, nodes, workers)
        self.items = collections.deque(items)
        self.steps = collections.deque((number, it) for number, it in enumerate(script) if number and it[1] == node)
        self.heard, self.sent, self.failed = [0] * nodes, [], None

    def sources(self):
        return {it[0]: self.replica.after[-1][it[0]] for it in self.graph if it[1] in SOURCES}

    def shown(self):
        """Returns what the graph gives on the present sources."""
        return evaluated(self.graph, self.sources())

    def is_met(self, command):
        return meets(command[3], self.shown()[command[2]])

    def deed(self, line):
        """Takes the next command that this line has to be; what was awaited before it must be met."""
        while self.steps and self.steps[0][1][0] == "await":
            number, command = self.steps.popleft()
            wants(self.is_met(command), f"{line}: the threshold of command {number} isn't met there")
        wants(self.steps, f"{line}: nothing is left to come")
        return self.steps.popleft()[1]

    def take(self, item, lives):
        """Takes one more line. Returns whether it could: a message has to be sent before it comes."""
        line = item.line().strip()
        if isinstance(item, Note):
            self.note(item, line)
        elif item.word == "deliver":
            sender, number = divmod(item.number, NUMBERS)
            wants(sender < len(lives) and sender != self.node, f"{line}: no such node sends to this one")
            wants(number == self.heard[sender], f"{line}: message {self.heard[sender]} of node {sender} must come")
            if number >= len(lives[sender].sent):
                return False
            self.heard[sender] += 1
            self.replica.take(item, iter([Call("deliver", brought=lives[sender].sent[number])]))
        elif item.word == "update":
            command = self.deed(line)
            wants(command[0] in UPDATES, f"{line}: a command of another word must come")
            word, _, name, brought = command
            self.replica.take(item, iter([Call(word, name, brought)]))
        else:
            wants(item.word == "bind", f"{line}: nodes that run beside each other declare nothing")
            self.replica.take(item, iter(()))
        return True

    def note(self, note, line):
        wants(note.place == len(self.replica.after) - 1, f"{line}: the journal has {len(self.replica.after) - 1} entries there")
        command = self.deed(line)
        wants(command[0] == note.word, f"{line}: a command of another word must come")
        if note.word == "send":
            self.sent.append(Message(self.node * NUMBERS + len(self.sent), list(self.replica.counts), self.sources()))
            return
        wants(command[2] == note.name, f"{line}: {command[2]} must be printed")
        declaration = next(it for it in self.graph if it[0] == note.name)
        value = printed(declaration, self.shown()[note.name])
        wants(note.value == value, f"{line}: it shows {value}")

    def end(self):
        """Takes what is left behind the last line: what is awaited there is met, or the first of it that isn't is where the node failed."""
        while self.steps:
            number, command = self.steps.popleft()
            wants(command[0] == "await", f"node {self.node}: what the script does there isn't whole")
            if not self.is_met(command):
                self.failed = number
                return


def play(lives):
    """Goes through all nodes' lines, each as far as the messages that it heard were sent."""
    going = True
    while going:
        going = False
        for life in lives:
            while life.items and life.take(life.items[0], lives):
                life.items.popleft()
                going = True
    for life in lives:
        wants(not life.items, f"node {life.node}: a message came that wasn't sent before")


def check_live(graph, script, workers, text):
    """Refuses a text that tells no lives which the script may come to, and returns the first command at which a node failed, if one did."""
    nodes = script[0][1]
    items, known = parts_of(text)
    found = [it.node for it in items]
    wants(found == sorted(found) and set(found) <= set(range(nodes)), "the nodes aren't in order")
    lives = [Life(graph, script, node, workers, [it for it in items if it.node == node]) for node in range(nodes)]
    try:
        play(lives)
    except (KeyError, IndexError, TypeError, ValueError) as it:
        raise Unlawful(f"a line says what can't be: {it!r}") from None
    for life in lives:
        life.end()
        for sender in lives:
            wants(sender is life or life.heard[sender.node] == len(sender.sent), f"node {life.node}: it didn't hear all that node {sender.node} sent")
    wants(known == [it.replica.counts for it in lives], "the nodes count otherwise")
    return min((it.failed for it in lives if it.failed is not None), default=None)
