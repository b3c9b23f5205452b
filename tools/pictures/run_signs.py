"""The signs of a run: a dot for an update, lines for messages, and so on, each with its label and with the whole command for who points at it."""
import math

from . import run_places as places
from . import svg
from .run_events import UPDATES, spelled

AGAIN, LATE, BOTH = "7 4", "2 3", "7 3 2 3"
POINTS = ("settle", "print", "await", "declare")
INK = "#222222"


def colour_of(node):
    return svg.COLOURS[node % len(svg.COLOURS)]


def head(x, y, along, colour):
    """Returns the head of an arrow that ends here in this direction."""
    back = [(x - 9 * math.cos(along + turn), y - 9 * math.sin(along + turn)) for turn in (0.42, -0.42)]
    points = " ".join(f"{svg.shown(float(a))},{svg.shown(float(b))}" for a, b in [(x, y), *back])
    return svg.element("polygon", points=points, fill=colour)


def arrow(start, end, colour, **attributes):
    """Returns an arrow; one that ends on the line where it starts goes round below it."""
    (x, y), (to_x, to_y) = start, end
    if y != to_y:
        along = math.atan2(to_y - y, to_x - x)
        to_x, to_y = to_x - 5 * math.cos(along), to_y - 5 * math.sin(along)
        path = f"M{x:.1f},{y:.1f}L{to_x:.1f},{to_y:.1f}"
    else:
        along = -0.9
        to_x, to_y = to_x - 3, to_y + 4
        path = f"M{x:.1f},{y:.1f}C{x + 12:.1f},{y + 34:.1f} {to_x - 26:.1f},{y + 36:.1f} {to_x:.1f},{to_y:.1f}"
    drawn = svg.element("path", d=path, fill="none", stroke=colour, stroke_width=1.5, **attributes)
    return drawn + head(to_x, to_y, along, colour)


def delivery(message, it, start, end):
    """Returns a message on its way to a delivery."""
    told = places.ways(it)
    dashes = {(): {}, ("again",): {"stroke_dasharray": AGAIN}, ("late",): {"stroke_dasharray": LATE}}.get(tuple(told), {"stroke_dasharray": BOTH})
    words = f"message {message.number} from node {message.node} (command {message.command}) to node {it.node} (command {it.command})"
    return svg.element("g", svg.title(", ".join([words, *told])), arrow(start, end, colour_of(message.node), **dashes), class_=" ".join(["message", *told]))


def cross(x, y, colour):
    return svg.element("path", d=f"M{x - 5:.1f},{y - 5:.1f}l10,10m0,-10l-10,10", stroke=colour, stroke_width=2.2, fill="none")


def lost(message, start):
    """Returns a message that is never delivered: a short way, and a cross."""
    x, y, colour = start[0] + 24, start[1] + 26, colour_of(message.node)
    way = svg.line(*start, x, y, stroke=colour, stroke_width=1.5)
    words = f"message {message.number} from node {message.node} (command {message.command}) is never delivered"
    return svg.element("g", svg.title(words), way, cross(x, y, colour), class_="lost")


def later(message, start, right):
    """Returns a message that is delivered behind the end of the picture."""
    way = svg.line(*start, right, start[1] + 30, stroke=colour_of(message.node), stroke_width=1, stroke_opacity=0.5)
    return svg.element("g", svg.title(f"message {message.number} from node {message.node} is delivered by a command that isn't drawn"), way, class_="later")


def bind_line(command, start, end):
    """Returns the line from a mark to a bind of it."""
    return svg.element("g", svg.title(f"{command[3]} is joined in"), arrow(start, end, "#666666", stroke_dasharray="1 3"), class_="bound")


def behind(run, place, number):
    """Returns what stands behind the nodes' lines: the band of a `sync`, and the line of a point."""
    command, (x, _) = run.script[number], place.commands[number]
    top, low = places.TOP - 34, places.height_of(run.nodes - 1) + 44
    if command[0] == "sync":
        width = places.width_of(run, number)
        return svg.element("rect", x=x - width / 2, y=float(top), width=float(width), height=float(low - top), fill="#f1f1f1", rx=4, class_="band")
    if command[0] in POINTS:
        return svg.line(x, top, x, low, stroke="#bbbbbb", stroke_width=1, stroke_dasharray="1 3", class_="point")
    return ""


def shape(word, x, y, colour):
    """Returns the sign of a command that happens at a node."""
    if word in UPDATES:
        return svg.element("circle", cx=float(x), cy=float(y), r=5, fill=colour)
    if word in ("send", "deliver"):
        return svg.element("circle", cx=float(x), cy=float(y), r=2.5, fill=colour)
    paths = {"print": "m-6,-5h12v10h-12z", "await": "m0,-7l7,7l-7,7l-7,-7z", "read": "m0,-6l6,6l-6,6l-6,-6z", "mark": "m0,0v-12l9,4l-9,4", "bind": "m-5,-5h10v10h-10z"}
    fill = "white" if word in ("print", "read") else colour
    return svg.element("path", d=f"M{x:.1f},{y:.1f}{paths[word]}", fill=fill, stroke=colour, stroke_width=1.6)


def labels(lines, x, first, is_strong):
    """Returns lines of a label, the first at this height; the last of a print is strong, as it is what the report shows."""
    sorts = ["over strong" if is_strong and at == len(lines) - 1 else "over" for at in range(len(lines))]
    return [svg.text(x, first + at * svg.LINE, it, class_=sort, text_anchor="middle") for at, (it, sort) in enumerate(zip(lines, sorts))]


def sign(run, place, number):
    """Returns the sign of a command and its label."""
    command, (x, y) = run.script[number], place.commands[number]
    word, row, lines = command[0], places.side(command), places.label(run, number)
    answer = f" shows {run.answers[number]}" if number in run.answers else ""
    told = svg.title(f"command {number}: {spelled(command)}{answer}")
    if row == "over":
        return svg.element("g", told, *labels(lines, x, places.TOP - 40 - svg.LINE * (len(lines) - 1), False), class_=word)
    first = y + 22 if row[1] == "below" else y - 11 - svg.LINE * (len(lines) - 1)
    if word == "mark":
        first -= 5
    if word in UPDATES:
        word = f"update {word}"
    return svg.element("g", told, shape(command[0], x, y, colour_of(command[1])), *labels(lines, x, first, command[0] in ("print", "read")), class_=word)


def way(**dashes):
    """Returns what draws an arrow of the legend."""
    return lambda x, y: svg.line(x - 12, y, x + 4, y, stroke=INK, stroke_width=1.5, **dashes) + head(x + 12, y, 0, INK)


def of(word):
    """Returns what draws the sign of a command in the legend."""
    return lambda x, y: shape(word, x, y, INK)


def samples(run, drawn):
    """Returns what the legend shows of this run: each a function of a place that draws it, and its words."""
    words = {it[0] for it in run.script[1:drawn]}
    sent = [it for it in run.messages if it.command < drawn]
    came = [it for message in sent for it in message.deliveries if it.command < drawn]
    found = [
        (of("add"), "update", words & set(UPDATES)),
        (way(), "message, from its send to a delivery", came),
        (way(stroke_dasharray=AGAIN), "delivered there again", [it for it in came if it.is_again]),
        (way(stroke_dasharray=LATE), "late: a later one of its sender was there", [it for it in came if it.is_late]),
        (lambda x, y: cross(x, y, INK), "never delivered", [it for it in sent if not it.deliveries]),
        (of("print"), "print, and its value", words & {"print"}),
        (of("await"), "await", words & {"await"}),
        (of("read"), "read, and its answer at the end", words & {"read"}),
        (of("mark"), "mark", words & {"mark"}),
        (of("bind"), "bind: a marked state is joined in", words & {"bind"}),
        (lambda x, y: svg.line(x, y - 8, x, y + 8, stroke="#888888", stroke_dasharray="1 3"), "point: every node is settled", words & set(POINTS)),
    ]
    return [(draw, told) for draw, told, there in found if there]


def legend(run, place, width, top):
    """Returns the legend, and the height of the picture with it."""
    x, y, drawn = places.MARGIN, top, []
    for draw, told in samples(run, place.drawn):
        room = 34 + svg.wide(told)
        if x + room > width - places.MARGIN and x > places.MARGIN:
            x, y = places.MARGIN, y + 22
        drawn += [draw(float(x + 12), float(y)), svg.text(x + 30, y + 4, told, class_="faint")]
        x += room + 18
    return svg.element("g", *drawn, class_="legend"), y + 22
