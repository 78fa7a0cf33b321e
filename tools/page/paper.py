"""What units made and read, and the channel events that did: pages, cards, the console's dialogue, blocks of tapes.

An item has the moment of the event that ended its command, and its parts: of each command word, with those before it in a
chain of data, the address of its first byte in storage, how many bytes it moved, and its moment. Byte n of an item came from
storage there (or went there, if it was read). What was made before the trace has neither.
"""
import bisect
import re
from typing import NamedTuple

from common import CARD, Fault, contents_of
from tapes import items_of_awstape

READER, PUNCH, PRINTER, CONSOLE = "00C", "00D", "00E", "01F"
TAPES = {"tape0": "180", "tape1": "181"}
CHAIN_DATA, SKIP = 0x80, 0x10
# The low bits of a command say whether it reads, or moves nothing.
KIND, INPUT, CONTROL = 0x03, 0x02, 0x03
COMMAND_WORD, FIRST_OF_LOADING = 8, "0200000060000018"
# What `show d` counts, and the most bytes of an item.
COUNTED = {READER: r"next (\d+)", PUNCH: r"cards (\d+)", PRINTER: r"records (\d+)", CONSOLE: r"typed (\d+)"}
LIMITS = {READER: CARD, PUNCH: CARD, PRINTER: 132, CONSOLE: 256}
TAPE_BLOCK = 65_535
ENTERED = r"entered (\d+)"
POSITION, CARRIAGE = re.compile(r"position (\d+) of (\d+)"), re.compile(r"page (\d+) line (\d+)")
STACKERS = {PUNCH: ("P1", "P2", "RP3"), READER: ("R1", "R2", "RP3")}
WRITE, WRITE_MARK, READ, READ_BACKWARD = 0x01, 0x1F, 0x02, 0x0C


class Made(NamedTuple):
    """What one event did to a unit's media: its number among the items, from 0, its moment, what the unit's media were before
    it, the command, and its parts."""

    item: int
    moment: int
    before: str
    command: int
    parts: list[tuple[int, int, int]]


class Units:
    """The stores of each unit's device and channel state, in the order of the trace."""

    def __init__(self, trace):
        self.trace = trace
        self.codes = list(trace.codes)
        self.values = list(trace.values)
        self.kinds = list(trace.kinds)
        names = {number: place for place, number in trace.places.items() if place[0] in "ud" and len(place) == 4}
        self.stores = {place: [] for place in names.values()}
        for moment in range(trace.moments):
            # The places of units come last.
            for store in range(trace.begins[moment + 1] - 1, trace.begins[moment] - 1, -1):
                place = names.get(trace.place[store])
                if place is None:
                    break
                self.stores[place].append((moment, self.values[trace.before[store]], self.values[trace.after[store]]))
        self.moments = {place: [moment for moment, _, _ in stores] for place, stores in self.stores.items()}

    def word(self, moment):
        """The command word that a channel event executed: command, address, flags and count."""
        digits = self.codes[self.trace.code[moment]].partition(",")[0]
        word = bytes.fromhex(digits if self.trace.address[moment] else FIRST_OF_LOADING)
        if len(word) < COMMAND_WORD:
            return None
        return word[0], int.from_bytes(word[1:4], "big"), word[4], int.from_bytes(word[6:8], "big")

    def is_end(self, unit, moment):
        """Whether an event ended a command: the device changes in no other."""
        devices = self.moments.get(f"d{unit}", [])
        at = bisect.bisect_left(devices, moment)
        return at < len(devices) and devices[at] == moment

    def chain(self, unit, moment):
        """The moments of the command words of a record, of which this one is the last."""
        states, found = self.moments[f"u{unit}"], [moment]
        for at in range(bisect.bisect_left(states, moment) - 1, -1, -1):
            earlier = states[at]
            if self.is_end(unit, earlier) or self.kinds[self.trace.kind[earlier]] != f"channel {unit}":
                break
            word = self.word(earlier)
            if word is None or not word[2] & CHAIN_DATA:
                break
            found.insert(0, earlier)
        return found

    def parts(self, unit, moment):
        """The command of a record, and its parts."""
        chain, left, parts = self.chain(unit, moment), LIMITS.get(unit, TAPE_BLOCK), []
        words = [(m, self.word(m)) for m in chain]
        if words[0][1] is None:
            return READ, []
        command = words[0][1][0]
        if command & KIND == CONTROL:
            return command, []
        for at, (_, address, flags, count) in words:
            moved = min(left, count)
            is_skipped = flags & SKIP and command & KIND == INPUT
            parts.append((-1 if is_skipped else address, moved, at))
            left -= moved
        return command, parts

    def counted(self, unit, form):
        """The moments at which a count of a unit's media rose, each with the count before it."""
        for moment, before, after in self.stores.get(f"d{unit}", []):
            counts = [re.search(form, text) for text in (before, after)]
            if all(counts) and int(counts[0][1]) < int(counts[1][1]):
                yield moment, int(counts[0][1]), before

    def made(self, unit):
        """What was done to the items of cards, printer and console."""
        for moment, item, before in self.counted(unit, COUNTED[unit]):
            yield Made(item, moment, before, *self.parts(unit, moment))

    def of_tape(self, unit):
        """The blocks and marks that were written or read, with the item before which the tape stood."""
        for moment, before, after in self.stores.get(f"d{unit}", []):
            at, then = (POSITION.search(text) for text in (before, after))
            command, parts = self.parts(unit, moment) if self.word(moment) else (READ, [])
            if command == READ_BACKWARD:
                # Its bytes went to falling addresses, and from which one on the trace does not say.
                parts = []
            if at and then and at[1] != then[1] and command in (WRITE, WRITE_MARK, READ, READ_BACKWARD):
                item = int(at[1]) - (command == READ_BACKWARD)
                yield Made(item, moment, before, command, parts)


def of(item):
    """What the page is told of an event that made an item."""
    return {"moment": item.moment, "parts": item.parts}


def text_of(name):
    try:
        return contents_of(name).decode("ascii")
    except UnicodeDecodeError:
        raise Fault(f"{name}: a byte is not ASCII: save it by 'monitor save printer' or 'monitor save console'") from None


def pages_of(name, units):
    """The pages of a printer's file: of each line the texts that were printed there, one over another."""
    made = {}
    for item in units.made(PRINTER):
        made.setdefault(tuple(map(int, CARRIAGE.search(item.before).groups())), []).append(of(item))
    pages = [page.split("\n")[:-1] for page in text_of(name).split("\f")]
    return [
        [
            {"line": line, "texts": text.split("\r"), "made": made.get((page, line), [])}
            for line, text in enumerate(lines, 1)
            if text or (page, line) in made
        ]
        for page, lines in enumerate(pages, 1)
    ]


def cards_of(name, unit, units):
    """The cards of a deck, each with its stacker."""
    contents = contents_of(name)
    if len(contents) % CARD:
        raise Fault(f"{name}: {len(contents)} bytes are no cards of {CARD}: see tools/media/what {name}")
    made = {item.item: item for item in units.made(unit)}
    # A card that the next read gives again was not fed by this one.
    for number in range(len(contents) // CARD):
        item = made.get(number)
        yield {
            "bytes": contents[number * CARD : (number + 1) * CARD].hex(),
            "stacker": STACKERS[unit][min(item.command >> 6, 2)] if item else "hopper" if unit == READER else "",
            "made": of(item) if item else None,
        }


def dialogue_of(name, units):
    """The lines of a console's file in the order in which they came: what was typed, and what was entered."""
    lines = text_of(name).split("\n")[:-1]
    typed = [line for line in lines if not line.startswith("enter")]
    entered = [line for line in lines if line.startswith("enter")]
    made = {item.item: item for item in units.made(CONSOLE)}
    at = {item: moment for moment, item, _ in units.counted(CONSOLE, ENTERED)}
    told = [(made[i].moment if i in made else -1, line, made.get(i)) for i, line in enumerate(typed)]
    told += [(at.get(i, -1), line, None) for i, line in enumerate(entered)]
    # What the trace does not have came before it.
    for moment, line, item in sorted(told, key=lambda one: one[0]):
        kind, _, text = line.partition(" ")
        whole = of(item) if item else {"moment": moment, "parts": []} if moment >= 0 else None
        yield {"kind": kind, "text": text, "made": whole}


def blocks_of(name, unit, units):
    """The blocks and marks of a tape, with the events that wrote or read each."""
    done = {}
    for item in units.of_tape(unit):
        is_written = item.command in (WRITE, WRITE_MARK)
        if is_written:
            # What stood behind was discarded.
            done = {number: events for number, events in done.items() if number < item.item}
        done.setdefault(item.item, []).append({"did": "written" if is_written else "read", **of(item)})
    for number, block in enumerate(items_of_awstape(name, contents_of(name))):
        yield {"bytes": None if block is None else block.hex(), "events": done.get(number, [])}


def media_of(trace, files):
    """All that a page shows as paper, by what it is: only what has something on it. What was made comes before what was read."""
    units = Units(trace)
    readers = {
        "printer": lambda name: pages_of(name, units),
        "punch": lambda name: cards_of(name, PUNCH, units),
        "console": lambda name: dialogue_of(name, units),
        "tape0": lambda name: blocks_of(name, TAPES["tape0"], units),
        "tape1": lambda name: blocks_of(name, TAPES["tape1"], units),
        "reader": lambda name: cards_of(name, READER, units),
    }
    made = {what: list(read(files[what])) for what, read in readers.items() if files.get(what)}
    return {what: items for what, items in made.items() if any(items)}
