"""The graph, the script and the summary of `load`, as docs/formats.md has them, without the program's code."""
from .states import evaluated, number_of

GRAPH = [
    ["a", "orset"],
    ["b", "orset"],
    ["c", "counter"],
    ["u", "union", "a", "b"],
    ["e", "filter", "u", "even"],
    ["i", "intersection", "a", "b"],
    ["n", "map", "u", "neg"],
    ["s", "fold", "u", "sum", "itself"],
]


def command(drawn):
    """Returns the command that a number below 32,768 stands for."""
    node, choice, value = drawn % 4, drawn // 4 % 8, drawn // 32
    if choice > 5:
        return ["inc", node, "c", value + 1]
    return ["remove" if choice > 3 else "add", node, "aabbab"[choice], value]


def script_of(seed, count):
    script, number = [["nodes", 4]], seed
    for it in range(1, count + 1):
        number = (number * 1_103_515_245 + 12_345) % 2**31
        script.append(command(number // 65_536))
        script += [["sync"], ["settle"]] if it % 2_000 == 0 else []
    return [*script, ["sync"]]


def summary(seed, count, world):
    """Returns what is written of the world at the script's end."""
    states = evaluated(GRAPH, world.sources[0])
    lines = [f"load {seed} {count}", *(f"{it[0]} {number_of(it, states[it[0]])}" for it in GRAPH)]
    lines += [" ".join(map(str, ["known", node, *counts])) for node, counts in enumerate(world.counts)]
    return "".join(f"{it}\n" for it in lines).encode()
