"""What kind of file one is, by its first bytes, its length, and how many of its bytes have a sign."""
import string

from common import CARD, SIGNS, Fault
from loading import CHAIN_COMMAND, ELF_MAGIC, READ
from objects import CARDS, FIRST_BYTE
from tapes import COMPRESSED, FIRST_PART, HEADER, LAST_PART, MARK, items_of_simh

PRINTED = string.printable.encode()
EBCDIC_SIGNS = "".join(SIGNS).encode("cp037")
FIRST_FLAGS = (FIRST_PART, FIRST_PART | LAST_PART, MARK)
# A few bytes of a deck or of a text may be no signs. The blank of EBCDIC is a sign of ASCII too.
MOST = 0.9


def share(contents, signs):
    """How much of a file these bytes are."""
    return 1 - len(contents.translate(None, signs)) / len(contents)


def is_awstape(contents):
    """Whether the first header is one, and a second one says how long the first part was."""
    if len(contents) < HEADER.size:
        return False
    length, before, flags, last = HEADER.unpack_from(contents)
    if before or last or flags & ~COMPRESSED not in FIRST_FLAGS or flags == MARK and length:
        return False
    behind = HEADER.size + length
    return len(contents) < behind + HEADER.size or HEADER.unpack_from(contents, behind)[1] == length


def is_simh(contents):
    """Whether it has a record with its length on both sides, before anything is wrong."""
    try:
        return any(item for item in items_of_simh("", contents))
    except Fault:
        return False


def loads_itself(contents):
    """Whether the first card has a PSW and two command words, the first of which reads more."""
    return contents[8:9] == bytes([READ]) and len(contents) > 12 and contents[12] & CHAIN_COMMAND


def kind_of(contents):
    """The name of a kind."""
    if not contents:
        return "empty"
    if contents.startswith(ELF_MAGIC):
        return "ELF"
    if contents[0] == FIRST_BYTE and contents[1:4] in CARDS:
        return "object deck"
    printed, signs = share(contents, PRINTED), share(contents, EBCDIC_SIGNS)
    if printed > MOST and printed > signs:
        return "ASCII text" if b"\n" in contents or len(contents) % CARD else "ASCII deck"
    if is_awstape(contents):
        return "AWSTAPE"
    if is_simh(contents):
        return "SIMH tape"
    return "deck" if loads_itself(contents) or signs > MOST else "flat image"
