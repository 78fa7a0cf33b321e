"""Tape files: the formats AWSTAPE and SIMH's as blocks and marks. A mark is None.

Sources: docs/reference/images.md; SIMH, "Magtape Representation and Handling": each record stands between two words with its
length, low byte first, and is filled up to an even length; a word of zeros is a mark.
"""
import struct

from common import Fault

HEADER = struct.Struct("<HHBB")
MARK, FIRST_PART, LAST_PART = 0x40, 0x80, 0x20
PARTS = (0x00, FIRST_PART, LAST_PART, FIRST_PART | LAST_PART)
COMPRESSED = 0x03
MOST_BYTES = 65_535
SIMH_MARK, SIMH_GAP, SIMH_END = 0, 0xFFFFFFFE, 0xFFFFFFFF


def written(items):
    """The AWSTAPE file of blocks and marks."""
    before = 0
    for block in items:
        length = len(block or b"")
        if length > MOST_BYTES:
            raise Fault(f"a block of {length} bytes: a tape has blocks of at most {MOST_BYTES}")
        yield HEADER.pack(length, before, MARK if block is None else FIRST_PART | LAST_PART, 0)
        yield block or b""
        before = length


def items_of_simh(name, contents):
    """The blocks and marks of a tape in SIMH's format."""
    at = 0
    while at < len(contents):
        if at + 4 > len(contents):
            raise Fault(f"{name}: no tape in SIMH's format: it ends within the word at {at}")
        (length,) = struct.unpack_from("<I", contents, at)
        at += 4
        if length == SIMH_END:
            return
        if length == SIMH_MARK:
            yield None
        elif length != SIMH_GAP:
            behind = at + length + length % 2
            if contents[behind : behind + 4] != contents[at - 4 : at]:
                raise Fault(f"{name}: no tape in SIMH's format: the record at {at - 4} has no end")
            yield contents[at : at + length]
            at = behind + 4


def items_of_awstape(name, contents):
    """The blocks and marks of a tape in the format AWSTAPE."""
    at, block = 0, None
    while at < len(contents):
        if at + HEADER.size > len(contents):
            raise Fault(f"{name}: short header at {at}: it was cut off: copy the tape again, as binary")
        length, _, flags, _ = HEADER.unpack_from(contents, at)
        part = contents[at + HEADER.size : at + HEADER.size + length]
        if flags & ~COMPRESSED in PARTS and flags & COMPRESSED:
            raise Fault(f"{name}: compressed block at {at}: hetupd -d {name} OTHER, of Hercules, writes it plain")
        if flags not in (*PARTS, MARK) or flags == MARK and length:
            raise Fault(f"{name}: bad flags at {at}: no tape in the format AWSTAPE: see tools/media/what")
        if (block is None) != bool(flags & (FIRST_PART | MARK)):
            raise Fault(f"{name}: part out of place at {at}: write the tape again")
        if len(part) < length:
            raise Fault(f"{name}: short block at {at}: it was cut off: copy the tape again, as binary")
        if flags == MARK:
            yield None
        else:
            block = (block or b"") + part
            if flags & LAST_PART:
                yield block
                block = None
        at += HEADER.size + length
    if block is not None:
        raise Fault(f"{name}: part out of place at {at}: write the tape again")
