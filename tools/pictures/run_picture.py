"""The picture of a run: a line for each node, time to the right, and what happens at the nodes and between them."""
from . import run_places as places
from . import run_signs as signs
from . import svg
from .run_events import run_of


def of_message(message, place):
    """Returns a message: a line from its send to each delivery, or what became of it where there is none in the picture."""
    start = place.sends[message.command, message.node]
    shown = [it for it in message.deliveries if it.command < place.drawn]
    drawn = [signs.delivery(message, it, start, place.deliveries[it.command, it.node, it.nth]) for it in shown]
    if not message.deliveries:
        drawn.append(signs.lost(message, start))
    elif not shown:
        drawn.append(signs.later(message, start, place.right))
    return "".join(drawn)


def of_marks(run, place):
    """Returns a line from each mark to each bind of it."""
    marked, drawn = {}, []
    for number, command in enumerate(run.script[: place.drawn]):
        if command[0] == "mark":
            marked[command[3]] = place.commands[number]
        elif command[0] == "bind":
            drawn.append(signs.bind_line(command, marked[command[3]], place.commands[number]))
    return drawn


def known_of(run, place, node):
    """Returns what is told of a node behind its line."""
    counts = " ".join(run.known[node])
    return f"knows {counts}" if place.drawn == len(run.script) else f"at the end knows {counts}"


def line_of_node(run, place, node):
    """Returns the line of a node, its name before it, and behind it what it knows at the end."""
    y, colour = places.height_of(node), signs.colour_of(node)
    counts = " ".join(run.known[node])
    return svg.element(
        "g",
        svg.title(f"node {node}; at the end it knows so many updates of each replica: {counts}"),
        svg.line(places.LEFT - 18, y, place.right, y, stroke=colour, stroke_width=2),
        svg.text(places.MARGIN, y + 4, f"node {node}", class_="strong large", style=f"fill:{colour}"),
        svg.text(place.right + 8, y + 4, known_of(run, place, node), class_="faint"),
        class_="node",
    )


def end_of_cut(run, place):
    """Returns the end of the picture where the script goes on behind it."""
    if place.drawn == len(run.script):
        return ""
    low = places.height_of(run.nodes - 1) + 50
    words = f"the first {place.drawn - 1} of {len(run.script) - 1} commands"
    edge = svg.line(place.right, places.TOP - 10, place.right, low, stroke="#222222", stroke_width=2, stroke_dasharray="10 5")
    told = [svg.text(places.MARGIN, 16, words, class_="strong"), svg.text(place.right - 6, 16, words, class_="strong", text_anchor="end")]
    return svg.element("g", svg.title(words), edge, *told, class_="cut")


def draw(script, report):
    """Returns the picture of a run, given what the program reported of it."""
    run = run_of(script, report)
    place = places.placed(run)
    behind = [signs.behind(run, place, at) for at in range(1, place.drawn)]
    messages = [of_message(it, place) for it in run.messages if it.command < place.drawn]
    before = [signs.sign(run, place, at) for at in range(1, place.drawn)]
    nodes = [line_of_node(run, place, at) for at in range(run.nodes)]
    width = max(place.right + 30 + max(svg.wide(known_of(run, place, at)) for at in range(run.nodes)), 420)
    legend, height = signs.legend(run, place, width, places.height_of(run.nodes - 1) + 70)
    about = f"a run of {len(script) - 1} commands on {run.nodes} node{'s' if run.nodes > 1 else ''}"
    drawn = [*behind, *nodes, *of_marks(run, place), *messages, *before, end_of_cut(run, place), legend]
    return svg.picture(width, height, about, *drawn)
