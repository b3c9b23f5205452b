"""Where the boxes of a layered drawing stand: in which order in each layer, so that few lines cross, and at which height.

A place is a box and a layer. A box has one in its own layer, and one in each further layer through which a line of it goes.
"""


def segments(layers, edges):
    """Returns the pieces of lines, each between the places of neighbouring layers."""
    found = {}
    for source, target in edges:
        for layer in range(layers[source] + 1, layers[target]):
            found[(source, layer - 1), (source, layer)] = None
        found[(source, layers[target] - 1), (target, layers[target])] = None
    return list(found)


def neighbours(pieces, is_forward):
    """Returns of each place the places to which it is joined in the layer before it, or behind it."""
    found = {}
    for left, right in pieces:
        here, there = (right, left) if is_forward else (left, right)
        found.setdefault(here, []).append(there)
    return found


def sorted_once(rows, joined, is_forward):
    """Returns the layers, each sorted by the middle of the places that it is joined to."""
    rows = [list(row) for row in rows]
    order = range(1, len(rows)) if is_forward else range(len(rows) - 2, -1, -1)
    for at in order:
        beside = {place: number for number, place in enumerate(rows[at - 1 if is_forward else at + 1])}
        now = {place: number for number, place in enumerate(rows[at])}
        middle = {it: sum(beside[to] for to in joined[it]) / len(joined[it]) if it in joined else now[it] for it in rows[at]}
        rows[at].sort(key=lambda it: (middle[it], now[it]))
    return rows


def crossings(rows, pieces):
    """Returns how many pairs of lines cross."""
    number = {place: at for row in rows for at, place in enumerate(row)}
    between = {}
    for left, right in pieces:
        between.setdefault(left[1], []).append((number[left], number[right]))
    return sum((a < c and b > d) or (a > c and b < d) for it in between.values() for at, (a, b) in enumerate(it) for c, d in it[:at])


def ordered(layers, edges):
    """Returns the places of each layer in order, of a few tries the one with the fewest crossings."""
    pieces = segments(layers, edges)
    places = dict.fromkeys([(at, layer) for at, layer in enumerate(layers)] + [it for piece in pieces for it in piece])
    rows = [[it for it in places if it[1] == layer] for layer in range(1 + max(layers, default=-1))]
    best, fewest = rows, crossings(rows, pieces)
    for turn in range(8):
        is_forward = turn % 2 == 0
        rows = sorted_once(rows, neighbours(pieces, is_forward), is_forward)
        if (now := crossings(rows, pieces)) < fewest:
            best, fewest = rows, now
    return best


def nearest(wanted, room):
    """Returns heights that keep their order and the room between them, and are as near to the wanted ones as that allows."""
    blocks = []
    for want, below in zip(wanted, room):
        blocks.append([want - below, 1])
        while len(blocks) > 1 and blocks[-2][0] >= blocks[-1][0]:
            mean, many = blocks.pop()
            other, more = blocks.pop()
            blocks.append([(mean * many + other * more) / (many + more), many + more])
    kept = [mean for mean, many in blocks for _ in range(many)]
    return [mean + below for mean, below in zip(kept, room)]


def rooms(row, layers, box, pipe):
    """Returns how far below the first each place of a layer is at least."""
    sizes = [box if layers[it[0]] == it[1] else pipe for it in row]
    found = [0.0]
    for above, below in zip(sizes, sizes[1:]):
        found.append(found[-1] + (above + below) / 2)
    return found


def placed(rows, pieces, box, pipe):
    """Returns the height of each place, the highest 0; a box takes so much room, and a line that goes by so much."""
    layers = {}
    for row in rows:
        for it in row:
            layers.setdefault(it[0], it[1])
    room = [rooms(row, layers, box, pipe) for row in rows]
    heights = {it: at - below[-1] / 2 for row, below in zip(rows, room) for it, at in zip(row, below)}
    for turn in range(12):
        joined = neighbours(pieces, turn % 2 == 0)
        for row, below in zip(rows, room) if turn % 2 == 0 else zip(reversed(rows), reversed(room)):
            wanted = [sum(heights[to] for to in joined[it]) / len(joined[it]) if it in joined else heights[it] for it in row]
            heights.update(zip(row, nearest(wanted, below)))
    highest = min(heights.values(), default=0)
    return {it: at - highest for it, at in heights.items()}
