"""Why a place has its value: the chain of its causes. Source: docs/reference/gdb.md."""
import bisect
import functools
from typing import NamedTuple

from .channels import UNITS
from .deciders import deciders
from .sources import sources

BYTES_SHOWN, COLUMNS, MOST_LINES = 16, 120, 1000
PSW = "p"
# The kinds of places in their order.
KINDS = (PSW, "r", "s", "k", "run", "ext", "u", "d")
START = "start"


class Cause(NamedTuple):
    """Places that are told together, and the number of the event that made them, or the start; or
    nothing, if that is not told."""

    places: tuple[str, ...]
    origin: int | str | None

    @property
    def name(self):
        first, *others = self.places
        return f"{named(first)}{f'-{named(others[-1])[1:]}' if others else ''}"


class Node(NamedTuple):
    """Places that an event made at once."""

    number: int
    places: tuple[str, ...]


class Causes:
    """Tells causes over the inquiries of a recording, which may go anywhere meanwhile."""

    def __init__(self, inquiries):
        self.inquiries = inquiries
        self.changes = inquiries.recording.changes[:]
        self.stores = numbers_by_place(change.noted for change in self.changes)
        self.alterations = numbers_by_place(change.places for change in self.changes)
        self.causes_of = functools.cache(self.causes_of)

    def lines(self, place, depth, in_full):
        """The lines of the chain, of which one level after the other is found."""
        number = last_before(self.stores, place, len(self.changes) + 1)
        if number is None:
            return [f"{self.name_and_value((place,))} from the start"]
        level = [Node(number, (place,))]
        nodes = dict.fromkeys(level)
        for _ in range(1, depth):
            below = [node for each in level for node in self.nodes_below(each)]
            level = [node for node in dict.fromkeys(below) if node not in nodes]
            nodes |= dict.fromkeys(level)
            if len(nodes) > MOST_LINES:
                break
        told = list(nodes)[:MOST_LINES]
        lines = [line for node in told for line in self.lines_of(node, in_full)]
        return lines if len(nodes) <= MOST_LINES else [*lines, "and more"]

    def nodes_below(self, node):
        causes = self.causes_of(node)
        return [Node(cause.origin, cause.places) for cause in causes if self.is_event(cause.origin)]

    def is_event(self, origin):
        """Whether an origin is an event that is no patch."""
        return isinstance(origin, int) and not self.is_patch(origin)

    def is_patch(self, number):
        return self.changes[number - 1].event[0].startswith("patch")

    def lines_of(self, node, in_full):
        causes = [f"{cause.name}{self.origin_words(cause.origin)}" for cause in self.causes_of(node)]
        of = [f"{', ' if i else ' of '}{words}" for i, words in enumerate(causes)]
        head = self.head(node)
        if not in_full:
            yield filled(head, of)
            return
        yield "".join([head, *of])
        if decided := self.deciders_of(node.number):
            yield " ".join(["  decided by", *decided])

    def origin_words(self, origin):
        if origin is None:
            return ""
        if origin == START:
            return " from the start"
        return f" by patch {origin}" if self.is_patch(origin) else f" ({origin})"

    def head(self, node):
        """The event of a node, and what it made, with its value after the event."""
        self.inquiries.go_to(node.number)
        made = self.name_and_value(node.places)
        self.inquiries.go_to(node.number - 1)
        event = self.inquiries.happening(self.changes[node.number - 1].event[0])
        return f"{node.number} {event}: {made}"

    def name_and_value(self, places):
        value = self.value(places)
        return f"{Cause(places, None).name}{value and ' '}{value}"

    def causes_of(self, node):
        """What the event of a node made its places of."""
        self.inquiries.go_to(node.number - 1)
        name, fields = self.changes[node.number - 1].event
        found = sources(self.inquiries.machine, name, fields)
        made_of = {source for place in node.places for source in found.get(place, [place])}
        return causes_from(made_of, lambda place: self.origin(place, node.number))

    def origin(self, place, before):
        """Where a value came from before the event of a number. Of the PSW and of a device that is not told."""
        if place == PSW or place[0] == "d":
            return None
        number = last_before(self.stores, place, before)
        return START if number is None else number

    def deciders_of(self, number):
        """What decided an event: the PSW with its value, another with the number of its last change."""
        self.inquiries.go_to(number - 1)
        name, _ = self.changes[number - 1].event
        places = deciders(self.inquiries.machine, name)
        by_change = lambda place: None if place == PSW else last_before(self.alterations, place, number) or START
        return [self.as_decider(cause) for cause in causes_from(places, by_change)]

    def as_decider(self, cause):
        if cause.origin is None:
            return self.name_and_value(cause.places)
        return cause.name if cause.origin == START else f"{cause.name} ({cause.origin})"

    def value(self, places):
        """The value of places; nothing of what is not there."""
        machine, (kind, *_) = self.inquiries.machine, places[0]
        if places[0] in ("run", "ext", PSW) or kind == "r":
            return self.inquiries.value(places[0])
        number = int(places[0][1:], 16)
        if kind in "ud":
            return self.inquiries.value(places[0]) if number in UNITS else ""
        if kind == "k":
            return self.inquiries.value(places[0]) if number < machine.size else ""
        count = min(len(places), BYTES_SHOWN, max(machine.size - number, 0))
        shown = machine.run_of_bytes(number, count).hex().upper()
        return f"{shown}.." if count and len(places) > BYTES_SHOWN else shown


def numbers_by_place(places_of_changes):
    """The numbers of the changes in which a place is, ascending."""
    numbers = {}
    for number, places in enumerate(places_of_changes, 1):
        for place in places:
            numbers.setdefault(place, []).append(number)
    return numbers


def last_before(numbers_by_place, place, before):
    """The last number of a place before another."""
    numbers = numbers_by_place.get(place, [])
    earlier = bisect.bisect_left(numbers, before)
    return numbers[earlier - 1] if earlier else None


def causes_from(places, origin):
    """Places in their order. Successive bytes of one origin stand together."""
    runs = []
    for place in sorted(set(places), key=order_of):
        if runs and is_next(runs[-1][-1], place) and origin(runs[-1][-1]) == origin(place):
            runs[-1].append(place)
        else:
            runs.append([place])
    return [Cause(tuple(run), origin(run[0])) for run in runs]


def runs_of(places):
    """Places in their order, each once. Successive bytes stand together."""
    return [cause.places for cause in causes_from(places, lambda _: None)]


def filled(head, items):
    """A line with as many first items as it has room for, beside the words that count the others."""
    line = head
    for told, item in enumerate(items):
        left = len(items) - told
        more = f" and {left - 1} more" if left > 1 else ""
        if len(line) + len(item) + len(more) > COLUMNS:
            return f"{line} and {left} more"
        line += item
    return line


def order_of(place):
    """Places stand by their kind, and within a kind by their number."""
    if place in KINDS:
        return KINDS.index(place), 0
    return KINDS.index(place[0]), int(place[1:], 16)


def named(place):
    """The name of a place. That of a byte or a key has the last six digits of its address."""
    return place[0] + place[1:][-6:]


def is_next(place, following):
    """Whether two places are bytes of which one is behind the other."""
    kinds = place[0] + following[0]
    return kinds == "ss" and int(place[1:], 16) + 1 == int(following[1:], 16)
