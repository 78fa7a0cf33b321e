"""Reads the trace of a run, as `monitor save trace` writes it, into columns of numbers and dictionaries of words.

A moment is an event, and has the stores of that event. Of a run with more than MOST_MOMENTS events a moment is several
successive ones of the CPU: it has the last of them, and the last store into each place.
"""
import bisect
import re
from array import array

from common import Fault

HEADER = "number,event,address,instruction,mnemonic,place,before,after,sources"
FIELDS = HEADER.count(",") + 1
STORE = ("place", "before", "after", "sources")
NO_STORE = ["", "", "", "\n"]
LONGEST_LINE = 1 << 20
MOST_MOMENTS = 200_000
PLACE = r"(?:p|r[0-9A-F]|s[0-9A-F]{6}|k[0-9A-F]{6}|run|ext|[ud][0-9A-F]{3})"
SOURCE = rf"(?:s[0-9A-F]{{6}}-[0-9A-F]{{6}}|{PLACE})"
FORMS = {
    "event": r"cpu|tick|enter|key [a-z]+|patch [a-z]|(?:channel|load) [0-9A-F]{3}",
    "address": r"(?:[0-9A-F]{6})?",
    "code": r"(?:(?:[0-9A-F]{2})*,[A-Z]*)",
    "place": PLACE,
    "value": r"[ -~]*",
    "sources": rf"(?:{SOURCE}(?: {SOURCE})*)?",
}
FORMS = {name: re.compile(form) for name, form in FORMS.items()}
NO_ADDRESS = 0
CPU = "cpu"


class Words(dict):
    """A dictionary of words in the order in which they came, each with its number from 0."""

    def __init__(self, kind):
        super().__init__()
        self.kind = kind

    def __missing__(self, word):
        if not FORMS[self.kind].fullmatch(word):
            raise ValueError(f"{word!a} is no {self.kind}")
        self[word] = len(self)
        return self[word]


class Trace:
    """The moments of a run and their stores, as numbers of words.

    `address` is one more than the address of a moment, or 0 if it has none. The stores of moment i are those from `begins[i]` on
    up to `begins[i + 1]`, in the order of places.
    """

    def __init__(self, name, first, events):
        self.name, self.first, self.events = name, first, events
        self.step = max(1, -(-events // MOST_MOMENTS))
        self.kinds, self.codes = Words("event"), Words("code")
        self.places, self.values, self.sources = Words("place"), Words("value"), Words("sources")
        self.number, self.kind, self.address, self.code = array("I"), array("I"), array("I"), array("I")
        self.begins = array("I", [0])
        self.place, self.before, self.after, self.source = array("I"), array("I"), array("I"), array("I")
        self.runs = {}  # how often each address was executed, by the CPU or a channel

    @property
    def moments(self):
        return len(self.kind)

    def moment(self, number):
        """The moment that has the event of this number."""
        return bisect.bisect_left(self.number, number)

    def add(self, number, event, stores):
        """Adds a moment: the number of its last event, its fields, and those of its stores."""
        name, address, code = event
        self.number.append(number)
        self.kind.append(self.kinds[name])
        self.address.append(int(address, 16) + 1 if address else NO_ADDRESS)
        self.code.append(self.codes[code])
        for place, before, after, sources in stores:
            self.place.append(self.places[place])
            self.before.append(self.values[before])
            self.after.append(self.values[after])
            self.source.append(self.sources[sources[:-1]])
        self.begins.append(len(self.place))


def lines_of(name):
    """The numbered lines of a file behind its header."""
    with open(name, encoding="ascii", errors="strict", newline="\n") as file:
        try:
            if file.readline().rstrip("\n") != HEADER:
                raise Fault(f"{name}: line 1: it does not begin as a trace: make one by 'monitor save trace FILE'")
            yield from enumerate(file, 2)
        except UnicodeDecodeError:
            raise Fault(f"{name}: a byte is not ASCII: it is no trace, or is damaged: save it again") from None


def span_of(name):
    """The number of the first event, and how many there are, by the first and the last line."""
    for _, first in lines_of(name):
        break
    else:
        raise Fault(f"{name}: line 1: no event follows: run something before you save the trace")
    with open(name, "rb") as file:
        file.seek(max(0, file.seek(0, 2) - LONGEST_LINE))
        last = file.read().decode("ascii", "replace").rstrip("\n").rpartition("\n")[2]
    numbers = [line.partition(",")[0] for line in (first, last)]
    # What is wrong with a line is found when it is read.
    first, last = (int(digits) if digits.isdecimal() else 1 for digits in numbers)
    return first, max(last - first, 0) + 1


def read(name):
    """The trace of a file."""
    trace = Trace(name, *span_of(name))
    reading = Reading(trace)
    number = 1
    try:
        for number, line in lines_of(name):
            reading.take(line)
        reading.end()
    except ValueError as fault:
        raise Fault(f"{name}: line {number}: {fault}: save the trace again") from None
    trace.events = reading.at - trace.first + 1
    return trace


class Reading:
    """Gathers the lines of a moment."""

    def __init__(self, trace):
        self.trace = trace
        self.head, self.at, self.event = None, trace.first - 1, None
        self.stores, self.gathered = {}, 0

    def take(self, line):
        """Takes a line: what is told of its event, and a store."""
        if line[-1] != "\n":
            raise ValueError("it was cut off")
        head, *store = line.rsplit(",", len(STORE))
        if head != self.head:
            self.begin(head, len(store))
        if store[0]:
            self.stores[store[0]] = store
        elif store != NO_STORE:
            raise ValueError("there is a value and no place")

    def begin(self, head, others):
        """Begins an event, by the fields of a line before so many others."""
        fields = head.split(",")
        if len(fields) + others != FIELDS:
            raise ValueError(f"it has {len(fields) + others} fields of {FIELDS}")
        number, name, address = fields[:3]
        if not number.isdecimal() or int(number) != self.at + 1:
            raise ValueError(f"number {number!a} follows {self.at}")
        if not FORMS["address"].fullmatch(address):
            raise ValueError(f"{address!a} is no address")
        if self.event and (self.gathered >= self.trace.step or name != CPU or self.event[0] != CPU):
            self.end()
        self.head, self.at, self.gathered = head, int(number), self.gathered + 1
        self.event = name, address, f"{fields[3]},{fields[4]}"
        if address:
            at = int(address, 16)
            self.trace.runs[at] = self.trace.runs.get(at, 0) + 1

    def end(self):
        self.trace.add(self.at, self.event, self.stores.values())
        self.stores, self.gathered = {}, 0
