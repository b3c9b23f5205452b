"""What variables hold and what processes make of it, as docs/definitions.md has it: row by row, without the program's code, and slow.

A set has whether it is dead by value and token; a token is a node and an update, or a pair of tokens; a value is a number, a text or a pair of values. A grow-only
set has its elements, a counter a count for each node, a register its number or none, and a fold the set that it covers.
"""

MOST_ROWS = 65_536
MOST_COUNT = 429_496_729_500_000
SOURCES = ("orset", "gset", "counter", "maxreg")
MAPS = {"abs": abs, "neg": lambda it: -it}
PREDICATES = {"even": lambda it: isinstance(it, int) and it % 2 == 0}
LIFTS = {"itself": lambda it: it if isinstance(it, int) else 0}


def value_of(tree):
    """Returns the value that JSON stands for."""
    return tuple(map(value_of, tree)) if isinstance(tree, list) else tree


def least(kind, nodes):
    return {"gset": frozenset(), "counter": (0,) * nodes, "maxreg": None}.get(kind, {})


def joined(kind, one, other):
    """Returns what both have together."""
    if kind == "gset":
        return one | other
    if kind == "counter":
        return tuple(map(max, one, other))
    if kind == "maxreg":
        return max((it for it in (one, other) if it is not None), default=None)
    return {**one, **{key: dead or one.get(key, False) for key, dead in other.items()}}


def delta(word, brought, state, node, number):
    """Returns what a node's update of this number joins into the state."""
    if word == "add":
        return {(value_of(brought), (node, number)): False}
    if word == "remove":
        return {key: True for key in state if key[0] == value_of(brought)}
    if word == "insert":
        return frozenset([value_of(brought)])
    if word == "inc":
        return tuple(min(it + brought, MOST_COUNT) if at == node else 0 for at, it in enumerate(state))
    # a greatest number, or the state that a mark kept
    return brought


def is_valid(state):
    return not isinstance(state, (dict, frozenset)) or len(state) <= MOST_ROWS


def gathered(rows):
    """Returns a set of rows that may have a key more than once: dead where any of them is."""
    found = {}
    for key, dead in rows:
        found[key] = dead or found.get(key, False)
    return found


def mapped(value, word):
    # (a map function for numbers leaves other values as they are)
    return MAPS[word](value) if isinstance(value, int) else value


def by_value(state):
    """Returns the tokens of each value, each with whether it is dead."""
    found = {}
    for (value, token), dead in state.items():
        found.setdefault(value, []).append((token, dead))
    return found


def equation(kind, names, inputs):
    """Returns what a process makes of its inputs' states; behind the inputs' names stand those of its functions."""
    first, last = inputs[0].items(), inputs[-1].items()
    if kind == "map":
        return gathered(((mapped(value, names[1]), token), dead) for (value, token), dead in first)
    if kind == "filter":
        return {key: dead for key, dead in first if PREDICATES[names[1]](key[0])}
    if kind == "union":
        return gathered([*first, *last])
    if kind == "product":
        return {((v, w), (t, s)): one or other for (v, t), one in first for (w, s), other in last}
    if kind == "intersection":
        tokens = by_value(inputs[-1])
        return {(v, (t, s)): one or other for (v, t), one in first for s, other in tokens.get(v, [])}
    return dict(first)


def inputs_of(declaration):
    """Returns the names of what a variable is derived from."""
    kind = declaration[1]
    return [] if kind in SOURCES else declaration[2:4] if kind in ("union", "product", "intersection") else declaration[2:3]


def evaluated(graph, sources):
    """Returns the state of each variable, by name, from those of the sources alone."""
    states = {}
    for name, kind, *names in graph:
        states[name] = sources[name] if kind in SOURCES else equation(kind, names, [states[it] for it in inputs_of([name, kind, *names])])
    return states


def visible(state):
    return {value for (value, _), dead in state.items() if not dead}


def number_of(declaration, state):
    """Returns how many values of a set are visible, a counter's total, or a fold's sum."""
    kind, names = declaration[1], declaration[2:]
    if kind == "counter":
        return sum(state)
    return sum(map(LIFTS[names[2]], visible(state))) if kind == "fold" else len(visible(state))
