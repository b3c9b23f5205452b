"""Graphs and scripts that tools/check_tools draws and has explained."""
GRAPH = [["list", "orset"], ["seen", "gset"], ["hits", "counter"], ["best", "maxreg"], ["small", "filter", "list", "small"], ["total", "fold", "list", "sum", "itself"]]
# eight deliveries: one again, two behind a later one of the sender, one where it was sent; and a message that is lost
SCRIPT = [
    ["nodes", 3],
    ["add", 0, "list", 5],
    ["send", 0],
    ["add", 0, "list", 7],
    ["send", 0],
    ["send", 2],
    ["deliver", 1, 1],
    ["deliver", 1, 0],
    ["deliver", 1, 0],
    ["deliver", 0, 0],
    ["send", 1],
    ["deliver", 2, 1],
    ["mark", 0, "list", "before"],
    ["remove", 0, "list", 5],
    ["bind", 2, "list", "before"],
    ["settle"],
    ["inc", 1, "hits", 3],
    ["max", 2, "best", -4],
    ["insert", 1, "seen", ["<b> & \"'", 1]],
    ["insert", 1, "seen", "tab\there \ufffe \u0001 \u2028 日本語の長い文章"],
    ["read", 2, "list", ["at_least", "before"]],
    ["await", 1, "hits", ["count", 3]],
    ["print", 1, "seen"],
    ["print", 2, "total"],
    ["bind", 0, "list", "before"],
    ["deliver", 2, 3],
    ["deliver", 0, 3],
    ["send", 0],
    ["deliver", 1, 4],
    ["print", 0, "best"],
]
# a message is sent at the first of these, and delivered behind those that are drawn
LONG_SCRIPT = [["nodes", 2], ["send", 0], *[["add", 1, "list", it] for it in range(200)], ["deliver", 1, 0], ["print", 1, "list"]]


def large_graph():
    """Returns a graph of 64 variables in many layers, whose lines pass by others."""
    found = [[f"source_{it}", "orset"] for it in range(8)]
    for it in range(8, 64):
        first, second = found[it - 8][0], found[(it * 7) % it][0]
        found.append([f"variable_{it}", "union", first, second] if it % 3 else [f"variable_{it}", "map", first, "id"])
    return found


LARGE_GRAPH = large_graph()
EIGHT_NODES = [["nodes", 8], *[["add", it, f"source_{it}", it] for it in range(8)], ["sync"], *[["print", it, "variable_63"] for it in range(8)], ["sync"]]

PICTURES = {
    "advertisements": ["graph", "examples/advertisements/graph.json"],
    "concurrent-add": ["run", "examples/concurrent-add/graph.json", "examples/concurrent-add/script.json"],
}

A = '[["a","orset"],\n["c","counter"]'
NODES = '[["nodes",2],\n'
MANY = ",\n".join(f'["v{it}","gset"]' for it in range(65))
MARKS = ",\n".join(f'["mark",0,"a","m{it}"]' for it in range(1001))
PAIRS = [f'["{it}","product","{below}","{below}"]' for it, below in zip("bdefg", "abdef")]
DECLARES = ",\n".join(f'["declare",{it}]' for it in PAIRS)


def graphs(*cases):
    """Returns cases of graphs, which are refused before the script is read."""
    return [(graph, "[]", line, place) for graph, line, place in cases]


def scripts(*cases):
    """Returns cases of scripts over one graph."""
    return [(f"{A}]", script, line, place) for script, line, place in cases]


# by the part of the files that is refused: a graph and a script as they stand in files, what the program says of them, and what the explanation has
REFUSALS = {
    "graph": graphs(
        ('[["a",\n"orset"]', "graph 0 NotJson", "graph.json, line 2, column 9"),
        ('{"a":1}', "graph 0 Shape", "graph.json:"),
    ),
    "declaration": graphs(
        ('[["a","set"]]', "graph 0 Shape", '["a","set"]'),
        (f'{A},\n["A","gset"]]', "graph 2 NameShape", "graph.json, line 3"),
        (f'{A},\n["a","gset"]]', "graph 2 NameTaken", "a is declared here"),
        (f'{A},\n["m","map","b","id"]]', "graph 2 UnknownInput", '["m","map","b","id"]'),
        (f'{A},\n["m","map","c","id"]]', "graph 2 WrongKind", '["c","counter"]'),
        (f'{A},\n["m","map","a","one"]]', "graph 2 UnknownFunction", "line 3"),
        (f'[["a","orset"],{",".join(PAIRS)}]', "graph 5 TooWide", "f is declared here"),
        (f"[{MANY}]", "graph 64 TooMany", "line 65"),
    ),
    "script": scripts(
        (f"{NODES}x]", "script 0 NotJson", "script.json, line 2, column 1"),
        ("[]", "script 0 Shape", "script.json:"),
    ),
    "command": scripts(
        (f'{NODES}["jump",0]]', "script 1 Shape", '["jump",0]'),
        (f'{NODES}["declare",["B","gset"]]]', "script 1 NameShape", "line 2"),
        (f'{NODES}["declare",["a","gset"]]]', "script 1 NameTaken", "a is declared here"),
        (f'{NODES}["declare",["b","map","x","id"]]]', "script 1 UnknownInput", "line 2"),
        (f'{NODES}["declare",["b","map","c","id"]]]', "script 1 WrongKind", "c is declared here"),
        (f'{NODES}["declare",["b","map","a","one"]]]', "script 1 UnknownFunction", "a is declared here"),
        (f"{NODES}{DECLARES}]", "script 5 TooWide", '["declare",["f","product","e","e"]]'),
        (f'{NODES}["add",2,"a",1]]', "script 1 NoSuchNode", '["nodes",2]'),
        (f'{NODES}["add",1,"b",1]]', "script 1 UnknownVar", "line 2"),
        (f'{NODES}["bind",1,"a","m"]]', "script 1 UnknownMark", "line 2"),
        (f'{NODES}["mark",1,"a","m"],\n["mark",0,"a","m"]]', "script 2 MarkTaken", "m is marked here"),
        (f'{NODES}["add",1,\n"c",1]]', "script 1 WrongOp", "c is declared here"),
        (f'{NODES}["add",1,"a",1.5]]', "script 1 ValueRefused", '["add",1,"a",1.5]'),
        (f'{NODES}["sync"],\n["deliver",1,2]]', "script 2 NotSent", '["deliver",1,2]'),
        (f"{NODES}{MARKS}]", "script 1001 TooMany", "line 1002"),
        (f'{NODES}["add",1,"a",1],\n["mark",1,"a","m"]]', "script 2 NotDots", '["mark",1,"a","m"]'),
        (f'{NODES}["add",1,"a",1],\n["sync"]]', "script 2 NotLive", '["sync"]'),
        (f'{NODES}["add",0,"a",1],\n["add",1,"a",1]]', "script 2 NotLocal", '["add",1,"a",1]'),
    ),
}
