"""The picture of a graph: sources left, each process in the layer right of its last input, and a line from each input."""
from . import layers_of_boxes as boxes
from . import svg
from .graph_variables import edges, variables

HEIGHT, GAP, PIPE, MARGIN, TOP = 44, 16, 14, 24, 54


def lines_of(it):
    return it.name, f"{it.kind} · {it.width}"


def box(it, x, y, width):
    """Returns the box of a variable, its left end and middle at this place."""
    colours = {"source": ("#e3eef8", svg.COLOURS[0]), "derived": ("#ffffff", "#555555"), "number": ("#fbeadd", svg.COLOURS[1])}
    fill, stroke = colours[it.sort()]
    round_ends = HEIGHT / 2 if it.sort() == "number" else 6
    name, kind = lines_of(it)
    return svg.element(
        "g",
        svg.title(f"{it.name}: {it.kind}, of width {it.width}"),
        svg.element("rect", x=float(x), y=float(y - HEIGHT / 2), width=float(width), height=HEIGHT, rx=round_ends, fill=fill, stroke=stroke, stroke_width=1.5),
        svg.text(x + width / 2, y - 4, name, class_="strong large", text_anchor="middle"),
        svg.text(x + width / 2, y + 13, kind, class_="faint", text_anchor="middle"),
        class_=f"variable {it.sort()}",
    )


def port(found, places, at, read, nth):
    """Returns how far from its middle a variable of two inputs is reached by the one of them: the higher above, but of a product the first."""
    inputs = found[at].inputs
    if len(inputs) < 2:
        return 0
    is_turned = found[at].kind != "product" and places[inputs[0], found[inputs[0]].layer] > places[inputs[1], found[inputs[1]].layer]
    return (9 if nth else -9) * (-1 if is_turned else 1)


def curve(points):
    """Returns the path through these points, level at each."""
    path = f"M{svg.shown(points[0][0])},{svg.shown(points[0][1])}"
    for (x, y), (to_x, to_y) in zip(points, points[1:]):
        middle = (x + to_x) / 2
        path += "C" + " ".join(f"{svg.shown(float(a))},{svg.shown(float(b))}" for a, b in ((middle, y), (middle, to_y), (to_x, to_y)))
    return path


def edge(found, places, columns, at, nth):
    """Returns the line from an input of a variable to it, with its head."""
    read = found[at].inputs[nth]
    points = []
    for layer in range(found[read].layer, found[at].layer):
        left, width = columns[layer]
        y = places[read, layer]
        points += [(left + width, y)] if layer == found[read].layer else [(left, y), (left + width, y)]
    x, y = columns[found[at].layer][0], places[at, found[at].layer] + port(found, places, at, read, nth)
    head = f"M{svg.shown(x - 1.0)},{svg.shown(float(y))}l-8,-4v8z"
    return svg.element(
        "g",
        svg.title(f"{found[read].name} is read by {found[at].name}"),
        svg.element("path", d=curve([*points, (x - 8.0, y)]), fill="none", stroke="#555555", stroke_width=1.3),
        svg.element("path", d=head, fill="#555555"),
        class_="edge",
    )


def columns_of(found):
    """Returns the left end and the width of each layer."""
    columns, x = [], MARGIN
    last = max((it.layer for it in found), default=-1)
    for layer in range(1 + last):
        width = 24 + max(svg.wide(*lines_of(it)) * (1.15 if len(it.name) >= len(lines_of(it)[1]) - 2 else 1) for it in found if it.layer == layer)
        columns.append((x, max(width, 90)))
        x += max(width, 90) + 64
    return columns


def headings(columns):
    """Returns what stands above the layers."""
    words = ["sources", *[f"layer {it}" for it in range(1, len(columns))]]
    return [svg.text(left + width / 2, 30, it, class_="faint", text_anchor="middle") for it, (left, width) in zip(words, columns)]


def draw(graph, widths):
    """Returns the picture of a graph that the program accepted, given the widths of its variables."""
    found = variables(graph, widths)
    columns = columns_of(found)
    pairs = edges(found)
    ordered = boxes.ordered([it.layer for it in found], pairs)
    places = boxes.placed(ordered, boxes.segments([it.layer for it in found], pairs), HEIGHT + GAP, PIPE)
    places = {node: TOP + HEIGHT / 2 + y for node, y in places.items()}
    right = sum(columns[-1]) if columns else 200
    low = max(places.values(), default=TOP) + HEIGHT / 2
    drawn = [edge(found, places, columns, at, nth) for at, it in enumerate(found) for nth in range(len(it.inputs))]
    drawn += [box(it, columns[it.layer][0], places[at, it.layer], columns[it.layer][1]) for at, it in enumerate(found)]
    foot = svg.text(MARGIN, low + 30, "in each box: the name; the kind · the width", class_="faint")
    about = f"a graph of {len(found)} variables" if len(found) != 1 else "a graph of one variable"
    return svg.picture(max(right + MARGIN, 340), low + 44, about, *headings(columns), *drawn, foot)
