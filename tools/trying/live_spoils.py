"""Ways to spoil a text of `live`: each makes a text of a right one that is surely wrong, or none where that has no room for it."""
import dataclasses

from .lives import Note, text_of

changed = dataclasses.replace


@dataclasses.dataclass
class Text:
    """A right text: its entries and notes, what each node counts, by how many workers it was made, and the command at which a node failed, if one did."""

    items: list
    known: list
    workers: int
    failed: int | None


def is_note(word):
    return lambda it: isinstance(it, Note) and it.word == word


def is_entry(word):
    return lambda it: not isinstance(it, Note) and it.word == word


def last(text, holds):
    return max((at for at, it in enumerate(text.items) if holds(it)), default=None)


def with_last(holds, change):
    """Returns how the last line that is so is changed; it becomes these lines."""

    def spoil(text):
        at = last(text, holds)
        lines = None if at is None else change(text.items[at], text)
        return None if lines is None else text_of([*text.items[:at], *lines, *text.items[at + 1 :]], text.known)

    return spoil


def placed(items):
    """Returns the lines with the places of entries and notes counted anew; of how many entries results are made stays as it is, but within them."""
    counts, found = {}, []
    for it in items:
        place = counts.get(it.node, 0)
        if isinstance(it, Note):
            found.append(changed(it, place=place))
        else:
            found.append(changed(it, place=place, number=min(it.number, place) if it.word == "bind" else it.number))
            counts[it.node] = place + 1
    return found


def without_last(holds):
    def spoil(text):
        at = last(text, holds)
        return None if at is None else text_of(placed([*text.items[:at], *text.items[at + 1 :]]), text.known)

    return spoil


def delivery_twice(text):
    at = last(text, is_entry("deliver"))
    return None if at is None else text_of(placed([*text.items[: at + 1], *text.items[at:]]), text.known)


def deliveries_swapped(text):
    """Swaps the numbers of two messages of one sender."""
    at = last(text, lambda it: is_entry("deliver")(it) and it.number % 100_000)
    if at is None:
        return None
    late = text.items[at]
    early = next(i for i, it in enumerate(text.items) if is_entry("deliver")(it) and it.node == late.node and it.number == late.number - 1)
    items = list(text.items)
    items[early], items[at] = changed(items[early], number=late.number), changed(late, number=late.number - 1)
    return text_of(items, text.known)


def more_known(text):
    counts = [list(it) for it in text.known]
    counts[-1][-1] += 1
    return text_of(text.items, counts)


def update_behind_failure(text):
    """Lets the last node go on where one failed, by an update that no command makes there."""
    update = last(text, is_entry("update"))
    if text.failed is None or update is None or not text.items:
        return None
    node = text.items[-1].node
    entries = [it for it in text.items if it.node == node and not isinstance(it, Note)]
    updates = sum(1 for it in entries if it.word == "update")
    more = changed(text.items[update], node=node, place=len(entries), number=updates + 1)
    return text_of([*text.items, more], text.known)


SPOILS = {
    "a message too few": without_last(is_entry("deliver")),
    "a message twice": delivery_twice,
    "two messages of a node in the other order": deliveries_swapped,
    "a message of a node that isn't there": with_last(is_entry("deliver"), lambda it, text: [changed(it, number=len(text.known) * 100_000)]),
    "a send too few": without_last(is_note("send")),
    "a send at another place": with_last(is_note("send"), lambda it, _: [changed(it, place=it.place + 1)]),
    "an update too few": without_last(is_entry("update")),
    "another value printed": with_last(is_note("print"), lambda it, _: [changed(it, value=f"{it.value}0")]),
    "a print too few": without_last(is_note("print")),
    "a result of a worker who isn't there": with_last(is_entry("bind"), lambda it, text: [changed(it, caller=text.workers + 1)]),
    "a result of what is still to come": with_last(is_entry("bind"), lambda it, _: [changed(it, number=it.place + 1)]),
    "an update more than a node knows": more_known,
    "a node that failed and goes on": update_behind_failure,
}
