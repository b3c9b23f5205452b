"""Where things stand in the picture of a run: each command right of the one before it, and no label over another of its node."""
import dataclasses

from . import svg
from .run_events import UPDATES, spelled

MARGIN, LEFT, TOP, BETWEEN = 20, 100, 76, 118
# the least way from a command to the next, the room between labels, and how many columns a label has at most
STEP, GAP, MOST = 26, 10, 24
# how many commands are drawn
COMMANDS = 150


@dataclasses.dataclass
class Places:
    """How many commands are drawn, the first among them; where each stands, its sends and its deliveries; and the right end of the nodes' lines."""

    drawn: int
    commands: dict
    sends: dict
    deliveries: dict
    right: float


def height_of(node):
    return TOP + node * BETWEEN


def ways(delivery):
    """Returns what is told of a delivery that isn't the first, or isn't in order."""
    return [word for word, holds in (("again", delivery.is_again), ("late", delivery.is_late)) if holds]


def number_of_message(run, number):
    """Returns what stands beside a send or a delivery: the number of the message, and what is told of the delivery."""
    command = run.script[number]
    if command[0] == "send":
        return f"#{run.number_of_send[number]}"
    (it,) = (it for it in run.messages[command[2]].deliveries if it.command == number)
    return " ".join([f"#{command[2]}", *ways(it)])


def label(run, number):
    """Returns the lines that stand beside the sign of a command, from the top down."""
    command = run.script[number]
    word, rest = command[0], command[2:]
    if word in UPDATES:
        lines = [f"{word} {rest[0]}", spelled(rest[1])]
    elif word in ("mark", "bind"):
        lines = [f"{word} {rest[1]}", rest[0]]
    elif word == "print":
        lines = [rest[0], run.answers[number]]
    elif word == "read":
        lines = [f"read {rest[0]}", spelled(rest[1]), run.answers[number]]
    elif word == "await":
        lines = [f"await {rest[0]}", spelled(rest[1])]
    elif word == "declare":
        lines = ["declare", " ".join(it if isinstance(it, str) else spelled(it) for it in command[1])]
    else:
        lines = [word if word in ("sync", "settle") else number_of_message(run, number)]
    return [svg.cut(it, MOST) for it in lines]


def side(command):
    """Returns on which row of labels that of a command stands: above or below the line of its node, or over all."""
    if command[0] in ("print", "read", "await"):
        return command[1], "below"
    if command[0] in ("sync", "settle", "declare"):
        return "over"
    return command[1], "above"


def rows_of(run, command):
    """Returns the rows of labels that a command has to itself: a `sync` crosses all."""
    if command[0] == "sync":
        return ["over", *[(node, it) for node in range(run.nodes) for it in ("above", "below")]]
    if command[0] in ("send", "deliver"):
        return [(command[1], "above"), (command[1], "below")]
    return [side(command)]


def width_of(run, number):
    """Returns how wide a command's label is."""
    word = run.script[number][0]
    return 50 + 14 * run.nodes if word == "sync" else svg.wide(*label(run, number))


def note(run, place, number, x, width):
    """Notes where a command stands, the middle of its label at x."""
    command = run.script[number]
    place.commands[number] = (x, height_of(command[1]) if side(command) != "over" else None)
    if command[0] == "send":
        place.sends[number, command[1]] = place.commands[number]
    elif command[0] == "deliver":
        place.deliveries[number, command[1], 0] = place.commands[number]
    elif command[0] == "sync":
        left, right = x - width / 2 + 8, x + width / 2 - 8
        for node in range(run.nodes):
            place.sends[number, node] = (left, height_of(node))
            for nth in range(run.nodes - 1):
                place.deliveries[number, node, nth] = (right - 7 * (run.nodes - 2 - nth), height_of(node))


def placed(run):
    """Returns where everything stands."""
    place = Places(min(len(run.script), COMMANDS + 1), {}, {}, {}, LEFT)
    ends, x = {}, LEFT - STEP
    for number in range(1, place.drawn):
        command, width = run.script[number], width_of(run, number)
        rows = rows_of(run, command)
        half = width / 2
        least = max(ends.get(row, LEFT - 30) for row in rows) + GAP + half
        x = max(x + (half + STEP if command[0] == "sync" else STEP), least)
        note(run, place, number, x, width)
        ends.update((row, x + half) for row in rows)
        place.right = max(place.right, x + max(half, STEP))
        x += half if command[0] == "sync" else 0
    place.right += 12
    return place
