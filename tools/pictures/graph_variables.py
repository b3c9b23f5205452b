"""The variables of a graph: what each is, what it reads, and in which layer it stands."""
import dataclasses

SOURCES = ("orset", "gset", "counter", "maxreg")
INPUTS = {"union": 2, "product": 2, "intersection": 2, "map": 1, "filter": 1, "fold": 1}


@dataclasses.dataclass
class Variable:
    name: str
    kind: str
    inputs: list
    width: str
    layer: int

    def sort(self):
        return "source" if self.kind in SOURCES else "number" if self.kind.startswith("fold") else "derived"


def operation(declaration):
    """Returns a declaration's kind and what stands behind its inputs, as words."""
    rest = declaration[2 + INPUTS.get(declaration[1], 0) :]
    return " ".join([declaration[1], *[" ".join(map(str, it)) if isinstance(it, list) else it for it in rest]])


def variables(graph, widths):
    """Returns the variables of a graph that the program accepted."""
    numbers, found = {}, []
    for declaration, width in zip(graph, widths, strict=True):
        name, kind = declaration[:2]
        inputs = [numbers[it] for it in declaration[2 : 2 + INPUTS.get(kind, 0)]]
        layer = 1 + max((found[it].layer for it in inputs), default=-1)
        numbers[name] = len(found)
        found.append(Variable(name, operation(declaration), inputs, width, layer))
    return found


def edges(found):
    """Returns the edges, each as its input and the variable that reads it."""
    return [(read, at) for at, it in enumerate(found) for read in it.inputs]
