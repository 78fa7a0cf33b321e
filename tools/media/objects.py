"""Object decks, and the program that is linked from them.

A card of an object deck has 02 in its first byte, three letters, and its fields: ESD names control sections, entry points
and external references, TXT has bytes of a section, RLD says which of these are address constants, END ends a deck and may
say where the program starts. Source: IBM OS/360 Assembler (F) Programmer's Guide, GC26-3756, "Object Deck Output".
"""
import struct
from dataclasses import dataclass, field

from common import BLANK, CARD, Fault, text_of
from loading import Program

FIRST_BYTE = 0x02
SECTION, LABEL, REFERENCE, PRIVATE, COMMON, WEAK = 0x00, 0x01, 0x02, 0x04, 0x05, 0x0A
OTHER_TYPES = {0x06: "an external dummy section"}
CARDS = {letters.encode("cp037"): letters for letters in ("ESD", "TXT", "RLD", "END", "SYM")}
# The flags of an address constant: its kind, one less than its length, its sign, and whether the next
# item has the same two numbers and leaves them out.
KIND, LENGTH, NEGATIVE, SAME_POINTERS = 0xF0, 0x0C, 0x02, 0x01
BRANCH = 0x10
# What a field that has nothing is filled with.
EMPTY = BLANK + b"\0"
DOUBLEWORD = 8
DEFAULT_PLACE = 0x200


@dataclass
class Section:
    """A control section: where it was assembled, where it is linked, and which of its bytes are known."""

    name: str
    origin: int
    length: int
    is_common: bool = False
    place: int = 0

    def __post_init__(self):
        self.text, self.known = bytearray(self.length), bytearray(self.length)

    def grow(self, length):
        """Lengthens a section whose length was not known at first."""
        self.text, self.known = self.text.ljust(length, b"\0"), self.known.ljust(length, b"\0")
        self.length = max(self.length, length)

    def put(self, at, run, where):
        """Puts bytes at an address of the assembly."""
        first = at - self.origin
        if first < 0 or first + len(run) > self.length:
            raise Fault(f"{where}: {at:06X} is outside its section {self.name!r}: assemble it again")
        self.text[first : first + len(run)] = run
        self.known[first : first + len(run)] = b"\1" * len(run)

    def runs(self):
        """The bytes that are known, with their addresses as linked."""
        first = self.known.find(1)
        while first >= 0:
            # Where none is found, -1 becomes the length.
            behind = self.known.find(0, first) % (self.length + 1)
            yield self.place + first, bytes(self.text[first:behind])
            first = self.known.find(1, behind)


@dataclass
class Deck:
    """An object deck: what its dictionary's numbers stand for, its address constants, and where it starts."""

    name: str
    sections: dict[int, Section] = field(default_factory=dict)
    references: dict[int, tuple[str, bool]] = field(default_factory=dict)
    labels: dict[str, tuple[int, int]] = field(default_factory=dict)
    constants: list[tuple[str, int, int, int, int]] = field(default_factory=list)
    start: str | tuple[int, int] | None = None
    unsized: Section | None = None


def number(run):
    return int.from_bytes(run, "big")


def section_of(deck, identifier, where):
    try:
        return deck.sections[identifier]
    except KeyError:
        raise Fault(f"{where}: no section has the number {identifier}: assemble it again") from None


def take_dictionary(deck, card, where):
    """The items of an ESD card. All but labels are numbered."""
    data, identifier = data_of(card, where), number(card[14:16])
    if len(data) % 16:
        raise Fault(f"{where}: it ends within an item: assemble it again")
    for item in (data[at : at + 16] for at in range(0, len(data), 16)):
        name, kind = text_of(item[:8]), item[8]
        address, length = number(item[9:12]), number(item[13:16])
        if kind == LABEL:
            deck.labels[name] = address, length & 0xFFFF
            continue
        if kind in (SECTION, PRIVATE, COMMON):
            section = deck.sections[identifier] = Section(name, address, length, kind == COMMON)
            if not length and kind != COMMON:
                deck.unsized = section
        elif kind in (REFERENCE, WEAK):
            deck.references[identifier] = name, kind == WEAK
        else:
            what = OTHER_TYPES.get(kind, f"of type {kind:02X}")
            raise Fault(f"{where}: {name!r} is {what}, which cannot be linked")
        identifier += 1


def data_of(card, where):
    """The bytes that a card says it has."""
    count = number(card[10:12])
    if count > CARD - 24:
        raise Fault(f"{where}: a card has no {count} bytes of data: assemble it again")
    return card[16 : 16 + count]


def take_constants(deck, card, where):
    """The items of an RLD card: where an address constant is, and whose address is to be added."""
    data, at, same = data_of(card, where), 0, False
    while at < len(data):
        if not same:
            pointers, at = data[at : at + 4], at + 4
        flags, address = data[at : at + 1], data[at + 1 : at + 4]
        if len(pointers) + len(address) < 7:
            raise Fault(f"{where}: it ends within an item: assemble it again")
        kind, same, at = flags[0] & KIND, flags[0] & SAME_POINTERS, at + 4
        if kind not in (0, BRANCH):
            constant = f"the constant at {number(address):06X}"
            raise Fault(f"{where}: {constant} is no A, V or Y constant, and cannot be linked")
        target, section = struct.unpack(">HH", pointers)
        deck.constants.append((where, target, section, flags[0], number(address)))


def decks_of(name, contents):
    """The object decks of a file, one after another."""
    if not contents or len(contents) % CARD:
        raise Fault(f"{name}: {len(contents)} bytes are no cards of 80: copy the object deck again, as binary")
    deck = None
    for at in range(0, len(contents), CARD):
        card, where = contents[at : at + CARD], f"{name}, card {at // CARD + 1}"
        kind = CARDS.get(card[1:4]) if card[0] == FIRST_BYTE else None
        deck = deck or Deck(name)
        match kind:
            case "ESD":
                take_dictionary(deck, card, where)
            case "TXT":
                section, run = section_of(deck, number(card[14:16]), where), data_of(card, where)
                address = number(card[5:8])
                if section is deck.unsized:
                    section.grow(address + len(run) - section.origin)
                section.put(address, run, where)
            case "RLD":
                take_constants(deck, card, where)
            case "SYM":
                pass
            case "END":
                take_end(deck, card, where)
                yield deck
                deck = None
            case _:
                raise Fault(f"{where}: it is no ESD, TXT, RLD, SYM or END card: take it out")
    if deck:
        raise Fault(f"{name}: it has no END card at its end: assemble it again")


def take_end(deck, card, where):
    """Where the deck starts, and the length of a section that its dictionary did not know."""
    if card[16:24].strip(EMPTY):
        deck.start = text_of(card[16:24])
    elif number(card[14:16]) in deck.sections and card[5:8] != BLANK * 3:
        deck.start = number(card[14:16]), number(card[5:8])
    if deck.unsized and card[28:32].strip(EMPTY):
        length = number(card[29:32])
        if length < deck.unsized.length:
            raise Fault(f"{where}: {deck.unsized.name!r} has text behind its length: assemble it again")
        deck.unsized.grow(length)


def define(symbols, name, value, deck):
    if name in symbols:
        raise Fault(f"{deck.name}: {name!r} is defined twice: leave one deck out")
    if name:
        symbols[name] = value


def place_sections(decks, at):
    """Puts the sections one behind another, the common ones last: the address and length of each symbol."""
    symbols, commons = {}, {}
    for deck, section in ((deck, section) for deck in decks for section in deck.sections.values()):
        if section.is_common:
            commons.setdefault(section.name, []).append(section)
            continue
        if at is None:
            at = section.origin or DEFAULT_PLACE
        section.place = at + -at % DOUBLEWORD
        at = section.place + section.length
        define(symbols, section.name, (section.place, section.length), deck)
    for name, same in commons.items():
        if name not in symbols:
            place, length = (at or 0) + -(at or 0) % DOUBLEWORD, max(section.length for section in same)
            at = place + length
            define(symbols, name, (place, length), decks[0])
        for section in same:
            section.place = symbols[name][0] if name else place
    for deck in decks:
        for name, (address, identifier) in deck.labels.items():
            section = section_of(deck, identifier, deck.name)
            define(symbols, name, (address - section.origin + section.place, 0), deck)
    return symbols


def distance_of(deck, target, symbols, where):
    """How far the target of an address constant has moved. That of a reference moves from 0."""
    if target not in deck.references:
        section = section_of(deck, target, where)
        return section.place - section.origin
    name, is_weak = deck.references[target]
    if name not in symbols and not is_weak:
        raise Fault(f"{where}: no deck defines {name!r}: give the deck that does")
    return symbols.get(name, (0, 0))[0]


def relocate(deck, symbols):
    """Adds to each address constant how far its target has moved."""
    for where, target, identifier, flags, address in deck.constants:
        section = section_of(deck, identifier, where)
        distance = distance_of(deck, target, symbols, where)
        length = (flags & LENGTH) // 4 + 1
        first = address - section.origin
        old = number(section.text[first : first + length])
        value = old - distance if flags & NEGATIVE else old + distance
        if length < 3 and value >> 8 * length:
            fits = f"{value:06X} does not fit the {length} bytes at {address:06X}"
            raise Fault(f"{where}: {fits}: give a lower --at")
        section.put(address, (value % (1 << 8 * length)).to_bytes(length, "big"), where)


def link(files, at=None):
    """The program of object decks, given by the names and contents of their files, and its symbols."""
    decks = [deck for name, contents in files for deck in decks_of(name, contents)]
    symbols = place_sections(decks, at)
    for deck in decks:
        relocate(deck, symbols)
    sections = [section for deck in decks for section in deck.sections.values()]
    runs = [run for section in sections for run in section.runs()]
    return Program(runs, start_of(decks, symbols, sections)), symbols


def start_of(decks, symbols, sections):
    """Where the first END card that says so has the program start; else its first section."""
    for deck in decks:
        match deck.start:
            case str(name):
                if name not in symbols:
                    start = f"it starts at {name!r}, which no deck defines"
                    raise Fault(f"{deck.name}: {start}: give the deck that does")
                return symbols[name][0]
            case (identifier, address):
                section = section_of(deck, identifier, deck.name)
                return address - section.origin + section.place
    return next((section.place for section in sections if section.length), 0)
