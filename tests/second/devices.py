"""The units of the second machine on channel 0: reader 00C, punch 00D, printer 00E, console 01F.

A device is a value that a command makes another one of.

Source: the component descriptions of 2540, 1403 and 1052.
"""
import string
from typing import NamedTuple

CARD = 80
PRINT_LINE, TYPED_LINE = 132, 256
LINES_OF_PAGE, LAST_LINES, PAGES = 66, 56, 1 << 32
# What a command is to its device.
INPUT, OUTPUT, CONTROL, REFUSED = "input", "output", "control", "refused"
NOT_YET = "not yet"
UNIT_EXCEPTION = 0x0100
# Sense, which has zeros up to its device's length.
REJECTED, INTERVENTION = b"\x80", b"\x40"
NO_SENSE = bytes(1)
NO_OPERATION, SENSE = 0x03, 0x04
# The signs of EBCDIC bytes that are shown, and where a card lies.
SIGNS = string.ascii_letters + string.digits + " .<(+|&!$*);-/,%_>?:#@'=\""
SHOWN = "".join(sign if sign in SIGNS else "." for sign in bytes(range(256)).decode("cp037"))
READ_STACKERS, PUNCH_STACKERS = ("R1", "R2", "RP3"), ("P1", "P2", "RP3")


def with_text(name, line):
    """A name, and the signs of a line without the blanks at their end."""
    return f"{name} {''.join(map(SHOWN.__getitem__, line))}".rstrip(" ")


def told_items(device):
    """The items of a device's media, each on its line."""
    return [with_text(*whole) for whole in device.wholes()]


class DeckFault(Exception):
    """The fault of a file that is no deck's."""


def cards_of(file):
    """The cards of a deck's file."""
    whole, beyond = divmod(len(file), CARD)
    if beyond:
        raise DeckFault(f"short card at {whole * CARD}")
    return tuple(file[at : at + CARD] for at in range(0, len(file), CARD))


class Reader(NamedTuple):
    sense: bytes = NO_SENSE
    cards: tuple = ()
    stackers: tuple = ()
    has_end: bool = False

    def begun(self, command):
        if command not in (0x02, 0x42, 0x82, 0xC2, 0x23, 0x63, 0xA3):
            return REFUSED, REJECTED
        kind = INPUT if command & 15 == 2 else CONTROL
        if len(self.stackers) < len(self.cards):
            return kind, self.cards[len(self.stackers)]
        return (kind, b"") if self.has_end else (REFUSED, INTERVENTION)

    def done(self, command, _):
        if len(self.stackers) == len(self.cards):
            return self, UNIT_EXCEPTION
        feeds = () if command == 0xC2 else (command >> 6,)
        return self._replace(stackers=self.stackers + feeds), 0

    def shown(self):
        end = "on" if self.has_end else "off"
        return f"next {len(self.stackers)} of {len(self.cards)} eof {end}"

    def wholes(self):
        """What has each item or where it is, and its bytes."""
        fed = [READ_STACKERS[stacker] for stacker in self.stackers]
        places = fed + ["hopper"] * (len(self.cards) - len(fed))
        return list(zip(places, self.cards))

    items = told_items


class Punch(NamedTuple):
    sense: bytes = NO_SENSE
    cards: tuple = ()

    def begun(self, command):
        return (OUTPUT, CARD) if command in (0x01, 0x41, 0x81) else (REFUSED, REJECTED)

    def done(self, command, written):
        return self._replace(cards=self.cards + ((command, written.ljust(CARD, b"\x40")),)), 0

    def shown(self):
        return f"cards {len(self.cards)}"

    def wholes(self):
        return [(PUNCH_STACKERS[command >> 6], card) for command, card in self.cards]

    items = told_items


class Carriage(NamedTuple):
    page: int = 1
    line: int = 1

    def spaced(self, lines):
        """The carriage after spacing, and whether it came to the last lines of a page."""
        line = self.line + lines
        exception = UNIT_EXCEPTION if self.line < LAST_LINES <= line else 0
        if line > LINES_OF_PAGE:
            return self.next_page(line - LINES_OF_PAGE), exception
        return self._replace(line=line), exception

    def skipped(self, channel):
        line = 5 * channel - 4
        return (self._replace(line=line) if line > self.line else self.next_page(line)), 0

    def next_page(self, line):
        return Carriage(self.page % (PAGES - 1) + 1, line)

    def moved(self, command):
        """By what its code says before its lowest three bits."""
        if command & 0x80:
            return self.skipped(command >> 3 & 15)
        return self.spaced(command >> 3)


def moves(command):
    """Whether the code of a printer's command has a motion."""
    number = command >> 3 & 15
    return 1 <= number <= 12 if command & 0x80 else number <= 3


class Printer(NamedTuple):
    sense: bytes = NO_SENSE
    records: tuple = ()
    carriage: Carriage = Carriage()

    def begun(self, command):
        if command & 7 == 1 and moves(command):
            return OUTPUT, PRINT_LINE
        if command & 7 == 3 and moves(command):
            return CONTROL, b""
        return REFUSED, REJECTED

    def done(self, command, written):
        records = self.records
        if command & 7 == 1:
            records += ((self.carriage, written),)
        carriage, exception = self.carriage.moved(command)
        return self._replace(records=records, carriage=carriage), exception

    def shown(self):
        return f"page {self.carriage.page} line {self.carriage.line} records {len(self.records)}"

    def wholes(self):
        return [(f"page {at.page} line {at.line}", line) for at, line in self.records]

    items = told_items


class Console(NamedTuple):
    sense: bytes = NO_SENSE
    typed: tuple = ()
    entered: tuple = ()
    taken: int = 0

    def begun(self, command):
        if command in (0x01, 0x09):
            return OUTPUT, TYPED_LINE
        if command == 0x0B:
            return CONTROL, b""
        if command != 0x0A:
            return REFUSED, REJECTED
        if self.taken == len(self.entered):
            return NOT_YET, b""
        return INPUT, self.entered[self.taken]

    def done(self, command, written):
        if command == 0x0A:
            return self._replace(taken=self.taken + 1), 0
        names = {0x01: "type", 0x09: "return", 0x0B: "alarm"}
        return self._replace(typed=self.typed + ((names[command], written),)), 0

    def shown(self):
        return f"typed {len(self.typed)} entered {len(self.entered)} taken {self.taken}"

    def wholes(self):
        return list(self.typed)

    items = told_items


def begun(device, command):
    """The kind of a command, with the input's bytes, the output's limit or the sense."""
    if command == NO_OPERATION:
        return CONTROL, b""
    if command == SENSE:
        return INPUT, device.sense
    return device.begun(command)


def done(device, command, written):
    """The device after a command, and its unit exception."""
    if command in (NO_OPERATION, SENSE):
        return device, 0
    length = len(device.sense)
    kind, sense = device.begun(command)
    if kind == REFUSED:
        return device._replace(sense=sense.ljust(length, b"\0")), 0
    return device._replace(sense=bytes(length)).done(command, written)
