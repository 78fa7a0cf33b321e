"""The tapes of the second machine, units 180 and 181, and the files that they are read from.

Source: the component description of the 2400 series; the format AWSTAPE.
"""
from typing import NamedTuple

from .devices import CONTROL, INPUT, INTERVENTION, OUTPUT, REFUSED, REJECTED, UNIT_EXCEPTION

LONGEST_BLOCK = 65_535
BYTES_OF_LINE = SHOWN_OF_BLOCK = 32
# A tape is a list of blocks, which are bytes, and of this.
MARK = None
WRITE, WRITE_MARK, ERASE_GAP = 0x01, 0x1F, 0x17
READ, FORWARD_SPACE_BLOCK, FORWARD_SPACE_FILE = 0x02, 0x37, 0x3F
READ_BACKWARD, BACKSPACE_BLOCK, BACKSPACE_FILE = 0x0C, 0x27, 0x2F
REWIND, UNLOAD = 0x07, 0x0F
WRITES = (WRITE, WRITE_MARK, ERASE_GAP)
FORWARD = (READ, FORWARD_SPACE_BLOCK, FORWARD_SPACE_FILE)
BACKWARD = (READ_BACKWARD, BACKSPACE_BLOCK, BACKSPACE_FILE)
COMMANDS = (*WRITES, *FORWARD, *BACKWARD, REWIND, UNLOAD)
# Sense: a command that writes on a protected tape is rejected too.
NO_SENSE = bytes(6)
PROTECTED, LOAD_POINT = b"\x80\x02", b"\x00\x08"
# A part of a file: its header, and the flags in it.
HEADER = 6
WHOLE, FIRST, MIDDLE, LAST, TAPE_MARK = 0xA0, 0x80, 0x00, 0x20, 0x40


class TapeFault(Exception):
    """The first fault of a file that is no tape's."""


def items_of(image):
    """The blocks and marks of a file."""
    items, at = [], 0
    block = None  # what is read of a block that has not ended
    while at < len(image):
        if len(image) - at < HEADER:
            raise TapeFault(f"short header at {at}")
        length, flags = int.from_bytes(image[at : at + 2], "little"), image[at + 4]
        if flags not in (WHOLE, FIRST, MIDDLE, LAST, TAPE_MARK) or flags == TAPE_MARK and length:
            raise TapeFault(f"bad flags at {at}")
        is_inside = block is not None
        if is_inside != (flags in (MIDDLE, LAST)):
            raise TapeFault(f"part out of place at {at}")
        part = image[at + HEADER : at + HEADER + length]
        if len(part) < length:
            raise TapeFault(f"short block at {at}")
        block = block + part if is_inside else part
        if len(block) > LONGEST_BLOCK:
            raise TapeFault(f"block too long at {at}")
        if flags not in (FIRST, MIDDLE):
            items.append(MARK if flags == TAPE_MARK else block)
            block = None
        at += HEADER + length
    if block is not None:
        raise TapeFault(f"part out of place at {at}")
    return tuple(items)


def header(length, previous, flags, last=0):
    return length.to_bytes(2, "little") + previous.to_bytes(2, "little") + bytes([flags, last])


def image_of(items):
    """The file of whole blocks and marks."""
    image, previous = bytearray(), 0
    for item in items:
        block = b"" if item is MARK else item
        image += header(len(block), previous, TAPE_MARK if item is MARK else WHOLE) + block
        previous = len(block)
    return bytes(image)


def shown_image(items):
    """The lines that show the file of blocks and marks."""
    image = image_of(items)
    starts = range(0, len(image), BYTES_OF_LINE)
    lines = [image[at : at + BYTES_OF_LINE].hex().upper() for at in starts]
    return [f"image {len(image)}", *lines]


def shown_item(item):
    if item is MARK:
        return "mark"
    return f"block {len(item)} {item[:SHOWN_OF_BLOCK].hex().upper()}".rstrip(" ")


class Tape(NamedTuple):
    sense: bytes = NO_SENSE
    recorded: tuple = ()
    position: int = 0
    is_protected: bool = False
    is_unloaded: bool = False

    @property
    def before(self):
        return self.recorded[: self.position]

    @property
    def after(self):
        return self.recorded[self.position :]

    def passed(self, command):
        """The item that a command reads or spaces over."""
        return self.after[0] if command in FORWARD else self.before[-1]

    def begun(self, command):
        if command not in COMMANDS:
            return REFUSED, REJECTED
        if self.is_unloaded:
            return REFUSED, INTERVENTION
        if command in WRITES and self.is_protected:
            return REFUSED, PROTECTED
        has_none_ahead = MARK not in self.after if command == FORWARD_SPACE_FILE else not self.after
        if command in FORWARD and has_none_ahead:
            return REFUSED, INTERVENTION
        if command in BACKWARD and self.position == 0:
            return REFUSED, LOAD_POINT
        if command == WRITE:
            return OUTPUT, LONGEST_BLOCK
        if command not in (READ, READ_BACKWARD):
            return CONTROL, b""
        block = self.passed(command) or b""
        return INPUT, block if command == READ else block[::-1]

    def done(self, command, written):
        if command in (WRITE, WRITE_MARK):
            item = written if command == WRITE else MARK
            return self._replace(recorded=(*self.before, item), position=self.position + 1), 0
        exception = 0
        if command in (READ, FORWARD_SPACE_BLOCK, READ_BACKWARD, BACKSPACE_BLOCK):
            exception = UNIT_EXCEPTION if self.passed(command) is MARK else 0
        moved = self._replace(position=self.position_after(command))
        return moved._replace(is_unloaded=command == UNLOAD), exception

    def position_after(self, command):
        if command in (READ, FORWARD_SPACE_BLOCK):
            return self.position + 1
        if command in (READ_BACKWARD, BACKSPACE_BLOCK):
            return self.position - 1
        if command == FORWARD_SPACE_FILE:
            return self.position + self.after.index(MARK) + 1
        if command == BACKSPACE_FILE:
            marks = [number for number, item in enumerate(self.before) if item is MARK]
            return marks[-1] if marks else 0
        return self.position if command == ERASE_GAP else 0

    def shown(self):
        loaded = "unloaded" if self.is_unloaded else "loaded"
        return f"position {self.position} of {len(self.recorded)} {loaded}"

    def items(self):
        return [shown_item(item) for item in self.recorded]

    def wholes(self):
        """What each item is, and its bytes."""
        return [("mark", b"") if item is MARK else (f"block {len(item)}", item) for item in self.recorded]
