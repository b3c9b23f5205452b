"""What happens in a run, read off its script and its report: messages with their deliveries, marks, and what prints and reads answer."""
import dataclasses
import functools
import json

UPDATES = ("add", "remove", "insert", "inc", "max")


@dataclasses.dataclass
class Delivery:
    """A delivery at a node: of the command with this number, the so-manieth of it; whether the message was there before, or a later one of its sender."""

    node: int
    command: int
    nth: int
    is_again: bool
    is_late: bool


@dataclasses.dataclass
class Message:
    number: int
    node: int
    command: int
    deliveries: list


@dataclasses.dataclass
class Run:
    """A script, its nodes, its messages by number; by the number of a command the value that it prints, or the answer of its read; what each node knows."""

    script: list
    nodes: int
    messages: list
    answers: dict
    known: list

    @functools.cached_property
    def number_of_send(self):
        """The number of the message of each `send`."""
        return {it.command: it.number for it in self.messages if self.script[it.command][0] == "send"}


def spelled(value):
    """Returns a value, or a command, as JSON without spaces."""
    return json.dumps(value, ensure_ascii=False, separators=(",", ":"))


class Network:
    """The messages so far by number, which were delivered at which node, and of each sender the latest that was."""

    def __init__(self, nodes):
        self.nodes, self.messages, self.came, self.latest = nodes, [], set(), {}

    def send(self, node, command):
        self.messages.append(Message(len(self.messages), node, command, []))

    def deliver(self, number, node, command, nth=0):
        message = self.messages[number]
        latest = self.latest.get((node, message.node), number)
        message.deliveries.append(Delivery(node, command, nth, (node, number) in self.came, latest > number))
        self.came.add((node, number))
        self.latest[node, message.node] = max(latest, number)

    def exchange(self, command):
        """Does a `sync`."""
        first = len(self.messages)
        for node in range(self.nodes):
            self.send(node, command)
        for node in range(self.nodes):
            for nth, sender in enumerate(it for it in range(self.nodes) if it != node):
                self.deliver(first + sender, node, command, nth)


def sent(script):
    """Returns the messages of a script, in the order of their numbers."""
    network = Network(script[0][1])
    for at, command in enumerate(script):
        if command[0] == "send":
            network.send(command[1], at)
        elif command[0] == "sync":
            network.exchange(at)
        elif command[0] == "deliver":
            network.deliver(command[2], command[1], at)
    return network.messages


def answered(script, report):
    """Returns what the report says of each `print` and `read`, by the number of the command."""
    prints = [at for at, it in enumerate(script) if it[0] == "print"]
    reads = [at for at, it in enumerate(script) if it[0] == "read"]
    found = {at: line.split(" ", 2)[2] for at, line in zip(prints, report)}
    found.update((at, line.split(" ")[2]) for at, line in zip(reads, report[len(report) - len(reads) :]))
    return found


def run_of(script, report):
    """Returns the run of a script with this report, which are the program's own."""
    nodes = script[0][1]
    prints = sum(it[0] == "print" for it in script)
    known = [line.split(" ")[2:] for line in report[prints : prints + nodes]]
    return Run(script, nodes, sent(script), answered(script, report), known)
