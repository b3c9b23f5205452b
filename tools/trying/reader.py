"""Reads a message as docs/formats.md has it, field by field: written for this alone, without the program's code, and slow.

A value is a tuple that begins with its tag, so that the tuples are ordered as the values are.
"""
import dataclasses

ROWS = 65_536
UPDATES = 100_000
COUNT = 429_496_729_500_000
KINDS = {1: "orset", 2: "gset", 3: "counter", 4: "maxreg"}


class Refused(Exception):
    """The first field that can't be read: where it begins, and why it can't."""

    def __init__(self, place, cause):
        super().__init__(place, cause)
        self.place, self.cause = place, cause


@dataclasses.dataclass
class Source:
    """What a message tells of one variable: of an orset rows of value, node, update and dead, in order."""

    name: str
    kind: str
    content: object


class Reader:
    """Bytes, and how many of them were read."""

    def __init__(self, contents):
        self.contents, self.at = contents, 0

    def field(self, length, cause, holds, meaning):
        """Takes so many bytes for a field, and returns what they mean; refuses it where that doesn't hold."""
        start, self.at = self.at, self.at + length
        if self.at > len(self.contents):
            raise Refused(start, "Short")
        meant = meaning(self.contents[start : self.at])
        if not holds(meant):
            raise Refused(start, cause)
        return meant

    def number(self, length, least, most, cause="Range"):
        return self.field(length, cause, lambda it: least <= it <= most, lambda it: int.from_bytes(it, "big"))

    def signed(self):
        return self.field(8, "Range", lambda _: True, lambda it: int.from_bytes(it, "big", signed=True))

    def value(self, counted):
        """Reads a value; `counted` has how many tags 2 and bytes of text came before in the value that it is part of."""
        start, tag = self.at, self.number(1, 0, 2, "Kind")
        if tag == 0:
            return tag, self.signed()
        if tag == 1:
            start, length = self.at, self.number(2, 0, 65_535)
            counted["text"] += length
            if counted["text"] > 256:
                raise Refused(start, "Range")
            return tag, self.field(length, "Text", lambda it: it is not None, text_of)
        counted["pairs"] += 1
        if counted["pairs"] == 8:
            raise Refused(start, "Range")
        return tag, self.value(counted), self.value(counted)

    def ascending(self, items, read):
        """Reads one more item, which must be above the last of these, and puts it behind them."""
        start, item = self.at, read()
        if items and not items[-1] < item:
            raise Refused(start, "Order")
        items.append(item)


def text_of(contents):
    try:
        return contents.decode("utf-8").encode("utf-8")
    except UnicodeDecodeError:
        return None


def is_name(contents):
    letters, more = b"abcdefghijklmnopqrstuvwxyz", b"0123456789_"
    return 1 <= len(contents) <= 32 and contents[0] in letters and all(it in letters + more for it in contents)


def token_of(reader, nodes):
    return reader.number(1, 0, nodes - 1), reader.number(8, 1, UPDATES)


def rows_of_first_version(reader, nodes):
    keys, dead = [], {}
    for _ in range(reader.number(4, 0, ROWS)):
        def read():
            key = reader.value({"pairs": 0, "text": 0}), *token_of(reader, nodes)
            dead[key] = reader.number(1, 0, 1, "Kind")
            return key

        reader.ascending(keys, read)
    return [(*it, dead[it]) for it in keys]


def rows_of_second_version(reader, nodes):
    values, rows = [], []
    for _ in range(reader.number(4, 0, ROWS)):
        reader.ascending(values, lambda: reader.value({"pairs": 0, "text": 0}))
        tokens, dead = [], {}
        for _ in range(reader.number(4, 1, ROWS - len(rows))):
            def read():
                token = token_of(reader, nodes)
                dead[token] = reader.number(1, 0, 1, "Kind")
                return token

            reader.ascending(tokens, read)
        rows += [(values[-1], *it, dead[it]) for it in tokens]
    return rows


def elements_of(reader):
    elements = []
    for _ in range(reader.number(4, 0, ROWS)):
        reader.ascending(elements, lambda: reader.value({"pairs": 0, "text": 0}))
    return elements


def content_of(reader, kind, version, nodes):
    if kind == "orset":
        return (rows_of_first_version if version == 1 else rows_of_second_version)(reader, nodes)
    if kind == "gset":
        return elements_of(reader)
    if kind == "counter":
        return [reader.number(8, 0, COUNT) for _ in range(nodes)]
    return reader.signed() if reader.number(1, 0, 1, "Kind") else None


def source_of(reader, version, nodes):
    length = reader.number(1, 1, 32)
    name = reader.field(length, "Text", is_name, bytes).decode()
    kind = KINDS[reader.number(1, 1, 4, "Kind")]
    return Source(name, kind, content_of(reader, kind, version, nodes))


def read(contents):
    """Returns the counts and the sources of a message, or raises Refused."""
    reader = Reader(contents)
    for letter in b"LASP":
        reader.number(1, letter, letter, "Magic")
    version = reader.number(1, 1, 2, "Magic")
    nodes = reader.number(1, 1, 8)
    counts = [reader.number(8, 0, UPDATES) for _ in range(nodes)]
    sources = [source_of(reader, version, nodes) for _ in range(reader.number(1, 0, 64))]
    if reader.at < len(contents):
        raise Refused(reader.at, "Rest")
    return counts, sources
