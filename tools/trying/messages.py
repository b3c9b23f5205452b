"""The messages that are damaged, written by hand from docs/formats.md, and how they are damaged."""

SMALL_GRAPH = [["a", "orset"]]
# two nodes, of which the first counted 1, and a set with the value 5
SMALL = {
    1: "4c41535001 02 0000000000000001 0000000000000000 01 01 61 01 00000001 00 0000000000000005 00 0000000000000001 00",
    2: "4c41535002 02 0000000000000001 0000000000000000 01 01 61 01 00000001 00 0000000000000005 00000001 00 0000000000000001 00",
}
GRAPH = [["s", "orset"], ["g", "gset"], ["c", "counter"], ["m1", "maxreg"], ["m2", "maxreg"], ["e", "orset"]]
# three nodes that counted 5, 1 and 0
HEAD = "03 0000000000000005 0000000000000001 0000000000000000 06"
# -1 with three tokens, one of them dead; a text with a letter of two bytes, whose one token is dead; a pair of a number and a pair of a text and a number
NUMBER, TEXT, PAIR = "00 ffffffffffffffff", "01 0003 61c3a9", "02 00 0000000000000007 02 01 0001 78 00 0000000000000000"
SET = {
    1: f"01 73 01 00000005 {NUMBER} 00 0000000000000001 00 {NUMBER} 00 0000000000000003 01 {NUMBER} 01 0000000000000001 00"
    f" {TEXT} 00 0000000000000004 01 {PAIR} 00 0000000000000005 00",
    2: f"01 73 01 00000003 {NUMBER} 00000003 00 0000000000000001 00 00 0000000000000003 01 01 0000000000000001 00"
    f" {TEXT} 00000001 00 0000000000000004 01 {PAIR} 00000001 00 0000000000000005 00",
}
# a set of the least number, an empty text and a pair of two texts; a counter, with the greatest count; a register with a number and one without; and an empty set
OTHERS = (
    "01 67 02 00000003 00 8000000000000000 01 0000 02 01 0001 79 01 0002 7a7a"
    " 01 63 03 000000000000000c 0000000000000000 0001869ffffe7960 02 6d31 04 01 fffffffffffffffe 02 6d32 04 00 01 65 01 00000000"
)
ALL = {version: f"4c415350 0{version} {HEAD} {SET[version]} {OTHERS}" for version in (1, 2)}
MESSAGES = {
    f"{what} of version {version}": (graph, bytes.fromhex("".join(texts[version].split())))
    for what, graph, texts in (("the smallest message", SMALL_GRAPH, SMALL), ("a message of every kind of source", GRAPH, ALL))
    for version in (2, 1)
}
BYTES = (0x00, 0x01, 0x7F, 0x80, 0xFF)


def cuts(contents):
    """Yields the message cut to each length, and whole."""
    for length in range(len(contents) + 1):
        yield contents[:length]


def with_bytes(contents, bytes_put):
    """Yields the message with each single byte set to each of these."""
    for at in range(len(contents)):
        for it in bytes_put:
            yield contents[:at] + bytes([it]) + contents[at + 1 :]


def with_more(contents):
    """Yields the message with a byte behind it, and with itself."""
    for it in BYTES:
        yield contents + bytes([it])
    yield contents * 2


def without_one(contents):
    """Yields the message without one of its bytes, and with one of them twice."""
    for at in range(len(contents)):
        yield contents[:at] + contents[at + 1 :]
        yield contents[: at + 1] + contents[at:]


def damages(whole):
    """Yields a graph, a message and how it is damaged, in words, with all that comes of it: of version 2 alone, or of both and in more ways."""
    for what, (graph, contents) in MESSAGES.items():
        if whole or what.endswith("2"):
            yield graph, f"{what}, cut to each length", cuts(contents)
            yield graph, f"{what}, each byte changed", with_bytes(contents, range(256) if whole else BYTES)
            yield graph, f"{what}, more behind", with_more(contents)
        if whole:
            yield graph, f"{what}, one byte less or once more", without_one(contents)
