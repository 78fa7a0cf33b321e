#!/usr/bin/env python3
"""Runs both programs where no script can say what has to hold: a status, standard error, a stream
that fails, files that are named on the command line, a terminal, a script of the greatest length.

The first faults of tape files are those that the second machine finds, which is written apart from
the program.

It needs the programs as `rt ci` or `./build s360dbg s360gdb` has built them, a C compiler, and Python's standard library
alone.
"""
import errno
import itertools
import os
import pathlib
import pty
import resource
import subprocess
import sys
import tempfile
import termios
from typing import NamedTuple

TOP = pathlib.Path(__file__).resolve().parent.parent.parent
sys.path.insert(0, str(TOP / "tests"))
from packet_rows import framed
from second.debugger import Debugger
from second.remote import LINES
from second.tapes import FIRST, LAST, LONGEST_BLOCK, MARK, TAPE_MARK, TapeFault
from second.tapes import header, image_of, items_of, shown_image, shown_item

DEBUGGER = "s360dbg"
SERVER = "s360gdb"
SECONDS = 120
LONGEST_SCRIPT = 1_048_576
LONGEST_FILE = 67_108_864
CARD = 80
END_OF_FILE = b"\x04"
# So many lines and requests have answers that take some writes, and are read by some reads.
MANY_LINES = 10_000
SOME_CALLS = 2
# What a call of the system fails with, none of which is a reason to try it again; or a write takes no
# byte.
ERRORS = {name: getattr(errno, name) for name in ("ENOSPC", "EINTR", "EAGAIN", "EIO", "EPIPE")}
NO_BYTE = 0

# The sum of 5 and 7 in register 1, and what a script is answered of it.
ADDITION = b"""patch s 200 1A12
patch p 0000000000000200
patch r 1 5
patch r 2 7
step
"""
ADDED = b"""1 changed 2 s000200 s000201
2 changed 1 p
3 changed 1 r1
4 changed 1 r2
5 changed 2 p r1
"""


class Repeated(NamedTuple):
    """The contents of a file: so many times the same."""

    part: bytes
    times: int


# A block, a mark and a block; and a block in two parts.
WHOLE_BLOCKS = image_of((b"\xc1\xc2\xc3", MARK, b"\xd1"))
BLOCK_IN_PARTS = header(2, 0, FIRST) + b"\xc1\xc2" + header(1, 2, LAST) + b"\xc3"
LONGEST = image_of((bytes(LONGEST_BLOCK),))
LONGEST_FIRST = header(LONGEST_BLOCK, 0, FIRST) + bytes(LONGEST_BLOCK)

# What lies where a program is run: contents, or a length of zeros.
FILES = {
    "standing.s360": b"standing\n",
    "longer.s360": LONGEST_SCRIPT + 1,
    "many.s360": Repeated(b"standing\n", MANY_LINES),
    "addition.s360": ADDITION,
    "two.deck": b"\xc1" * (2 * CARD),
    "short.deck": b"\xc1" * (2 * CARD + 1),
    "empty.deck": b"",
    "full.deck": LONGEST_FILE // CARD * CARD,
    "longest.deck": LONGEST_FILE,
    "longer.deck": LONGEST_FILE + 1,
    "whole.tape": WHOLE_BLOCKS,
    "parts.tape": BLOCK_IN_PARTS,
    "empty.tape": b"",
    "short.tape": bytes.fromhex("03000000A000C1C2C30100"),
    "longest.tape": LONGEST_FILE,
    "longer.tape": LONGEST_FILE + 1,
    "blocks.tape": Repeated(LONGEST, LONGEST_FILE // len(LONGEST)),
    "marks.tape": Repeated(header(0, 0, TAPE_MARK), LONGEST_FILE // 6),
    "longest-block.tape": LONGEST_FIRST + header(0, 0, LAST),
    "too-long.tape": LONGEST_FIRST + header(1, 0, LAST) + b"\xc1",
    "short-and-too-long.tape": LONGEST_FIRST + header(2, 0, LAST) + b"\xc1",
}
FOLDER = "folder"


class Has(NamedTuple):
    """A text that has each of these, and is not told in full here."""

    parts: tuple[bytes, ...]

    def __eq__(self, text):
        return all(part in text for part in self.parts)


class Case(NamedTuple):
    what: str
    args: list[str | bytes] = []
    script: bytes | None = b""  # None: standard input is a folder, which cannot be read
    status: int = 0
    output: bytes | Has | None = b""  # None: the stream is a device that takes nothing
    errors: bytes | Has | None = b""
    program: str = DEBUGGER


def built(program):
    return TOP / "crates" / program / "out" / program


def usage(*parts, program=DEBUGGER):
    return Has((b"error: ", b"Usage: %s " % program.encode(), *parts))


def told(text, program=DEBUGGER):
    return b"%s: %s\n" % (program.encode(), text)


STANDING = b"standing 0\n"
NO_DECK = b"00C sense 00 next 0 of 0 eof off\n"
TWO_CARDS = b"00C sense 00 next 0 of 2 eof off\n"
NO_SIZE = b"storage size must be a multiple of 2048 bytes from 8192 to 1048576"
SIZE = told(NO_SIZE)
OPTIONS = (b"--storage <BYTES>", b"65536", b"--reader <FILE>", b"80 bytes", b"--tape0 <FILE>",
           b"--tape1 <FILE>", b"--protect0", b"--protect1", b"--fetch", b"[SCRIPT]")
PAGES = (b"examples/", b"docs/guide.md")
HELP = Has((b"Usage: s360dbg [OPTIONS] [SCRIPT]\n", *OPTIONS, b"standard input", b"Example:\n",
            *(b"\n  %s\n" % line.encode() for line in LINES), *PAGES))
VERSION = (b"%s 0.1.0\nDebugs programs of a simulated IBM System/360, forward and backward,"
           b" by scripts or from gdb.\n")
NUMBER = b"no decimal number below 4294967296\n"

SCRIPTS = [
    Case("an empty script has no answers"),
    Case("a script that is read to its end, whatever its lines answer", [], b"halt\nback\n", 0,
         b"? unknown\nnothing stands\n"),
    Case("a script of the greatest length", [], b" " * LONGEST_SCRIPT),
    Case("its last line is read", [], b"standing".rjust(LONGEST_SCRIPT - 1) + b"\n", 0,
         b"? line too long\n"),
    Case("and the line after a comment", [], b"*" * (LONGEST_SCRIPT - 9) + b"\nstanding", 0,
         STANDING),
    Case("a script of a byte more is not begun", [], b"standing\n" + b" " * (LONGEST_SCRIPT - 8), 1,
         b"", told(b"script: script too long")),
    Case("a script that cannot be read", [], None, 1, b"", told(b"script: read failed")),
    Case("answers that cannot be written", [], b"standing\n", 1, None,
         told(b"script: write failed")),
    Case("no answers to write", [], b"*\n", 0, None),
    Case("a script in a file", ["standing.s360"], b"halt\n", 0, STANDING),
    Case("whose answers cannot be written", ["standing.s360"], b"", 1, None,
         told(b"script: write failed")),
    Case("a script that does not open", ["absent.s360"], b"", 1, b"",
         told(b"script: cannot read")),
    Case("a folder in place of a script", [FOLDER], b"", 1, b"", told(b"script: read failed")),
    Case("a script that is named like an option", ["--", "--help"], b"", 1, b"",
         told(b"script: cannot read")),
]
STORAGE = [
    Case("65,536 bytes where no size is given", [], b"show s FFFF 1\nshow s 10000 1\n", 0,
         b"00FFFF 00\nrefused 2 outside storage\n"),
    Case("the smallest size", ["--storage", "8192"], b"show s 1FFF 1\nshow s 2000 1\n", 0,
         b"001FFF 00\nrefused 2 outside storage\n"),
    Case("with an equals sign, and zeros before it", ["--storage=0008192"], b"show s 2000 1\n", 0,
         b"refused 2 outside storage\n"),
    Case("the greatest size", ["--storage", "1048576"], b"show s FFFFF 1\n", 0, b"0FFFFF 00\n"),
    Case("no multiple of 2,048", ["--storage", "9000"], b"", 2, b"", SIZE),
    Case("too small", ["--storage", "6144"], b"", 2, b"", SIZE),
    Case("both", ["--storage", "5000"], b"", 2, b"", SIZE),
    Case("too great", ["--storage", "1050624"], b"", 2, b"", SIZE),
    Case("the greatest number", ["--storage", "4294967295"], b"", 2, b"", SIZE),
    Case("a number of more bits", ["--storage", "4294967296"], b"", 2, b"", usage(NUMBER)),
    Case("no number", ["--storage", "abc"], b"", 2, b"", usage(b"'abc'", NUMBER)),
    Case("hexadecimal", ["--storage", "2000h"], b"", 2, b"", usage(NUMBER)),
    Case("a sign", ["--storage", "+8192"], b"", 2, b"", usage(NUMBER)),
    Case("no digit", ["--storage="], b"", 2, b"", Has((b"error: ", b"'--storage <BYTES>'"))),
    Case("a size that standard error cannot tell of", ["--storage", "9000"], b"", 2, b"", None),
]
DECKS = [
    Case("no card where no deck is named", [], b"show d 00C\n", 0, NO_DECK),
    Case("a deck of two cards", ["--reader", "two.deck"], b"show d 00C\n", 0, TWO_CARDS),
    Case("with a script in a file", ["--reader=two.deck", "standing.s360"], b"", 0, STANDING),
    Case("a deck of no bytes", ["--reader", "empty.deck"], b"show d 00C\n", 0, NO_DECK),
    Case("a byte after the last card", ["--reader", "short.deck"], b"standing\n", 1, b"",
         told(b"reader: short card at 160")),
    Case("a deck that does not open", ["--reader", "absent.deck"], b"", 1, b"",
         told(b"reader: cannot read")),
    Case("a folder in place of a deck", ["--reader", FOLDER], b"", 1, b"",
         told(b"reader: cannot read")),
    Case("a deck of the most cards", ["--reader", "full.deck"], b"show d 00C\n", 0,
         b"00C sense 00 next 0 of 838860 eof off\n"),
    Case("a file of the greatest length is decoded", ["--reader", "longest.deck"], b"", 1, b"",
         told(b"reader: short card at 67108800")),
    Case("a file of a byte more is not", ["--reader", "longer.deck"], b"", 1, b"",
         told(b"reader: file too long")),
    Case("a fault that standard error cannot tell of", ["--reader", FOLDER], b"", 1, b"", None),
]
BLANK_TAPES = b"""180 sense 000000000000 position 0 of 0 loaded
181 sense 000000000000 position 0 of 0 loaded
"""
# A mark is to be written on 180. Were the cost of that in proportion to the tape, so many of them
# could not be written in the time that a case has.
MARK_AT_LOAD_POINT = b"""patch p 0000000000000200
patch s 48 00000400
patch s 200 9C000180
patch s 400 1F00000000000001
step
"""
MARK_IS_STARTED = b"""1 changed 1 p
2 changed 1 s00004A
3 changed 3 s000200 s000202 s000203
4 changed 2 s000400 s000407
5 changed 2 p u180
"""
MANY = 10_000
# An output to 180 of one word of one byte, which a transfer chains to itself: each event gathers a byte
# more, up to the longest block. The states before it are kept, so none may have a copy of the others' bytes.
CHAINED_TO_ITSELF = b"""patch p 0000000000000200
patch s 48 00000400
patch s 200 9C000180
patch s 400 0100060080000001
patch s 408 0800040000000000
step
run 100000
show d 180
"""
CHAIN_ENDS = b"""run 65539 idle
180 sense 000000000000 position 1 of 1 loaded
"""
CHAIN_MEMORY = 60_000_000
# Two moves that alter 256 bytes each time, and a branch to the first of them. So many events are run that they
# would take some gigabytes.
LOOP_OF_MOVES = (
    "patch p 0000000000000200",
    "patch s 500 " + "01" * 256,
    "patch s 600 " + "02" * 256,
    "patch s 200 D2FF07000500D2FF0700060047F00200",
)
RUNS = 900
EVENTS_OF_RUN = 10_000
# Bounds of the address space, in bytes.
BOUNDS = [mebibytes * 2**20 for mebibytes in (64, 128, 256, 512)]
OUT_OF_MEMORY = b"s360dbg: memory: out of memory\n"


def loaded(count):
    return f"180 sense 000000000000 position 0 of {count} loaded\n".encode()


def faulty(what, name, fault):
    return Case(what, ["--tape0", name], b"standing\n", 1, b"", told(b"tape0: " + fault))


MOST_MARKS = loaded(LONGEST_FILE // 6)
TAPES = [
    Case("blank tapes where none is named", [], b"show d 180\nshow d 181\n", 0, BLANK_TAPES),
    Case("files of no bytes", ["--tape0", "empty.tape", "--tape1=empty.tape"],
         b"show d 180\nshow d 181\n", 0, BLANK_TAPES),
    Case("each tape has its file", ["--tape1", "parts.tape", "--tape0", "whole.tape"],
         b"show m 180 1\nshow m 180 2\nshow m 180 3\nshow m 181 1\nshow m 181 2\n", 0,
         b"block 3 C1C2C3\nmark\nblock 1 D1\nblock 3 C1C2C3\nnone\n"),
    Case("both tapes from one file", ["--tape0", "parts.tape", "--tape1", "parts.tape"],
         b"show m 180 1\nshow m 181 1\n", 0, b"block 3 C1C2C3\n" * 2),
    Case("protected, with a deck and a script in a file",
         ["--protect0", "--tape0", "whole.tape", "--reader", "two.deck", "--protect1",
          "standing.s360"], b"", 0, STANDING),
    faulty("two bytes of a header", "short.tape", b"short header at 9"),
    Case("the same of the other tape", ["--tape1", "short.tape"], b"", 1, b"",
         told(b"tape1: short header at 9")),
    faulty("a tape that does not open", "absent.tape", b"cannot read"),
    faulty("a folder in place of a tape", FOLDER, b"cannot read"),
    Case("and of the other tape", ["--tape1", FOLDER], b"", 1, b"", told(b"tape1: cannot read")),
    Case("a block of the greatest length", ["--tape0", "longest-block.tape"],
         b"show d 180\nshow m 180 1\n", 0,
         loaded(1) + b"block 65535 " + b"00" * 32 + b"\n"),
    faulty("a block of a byte more", "too-long.tape", b"block too long at 65541"),
    faulty("whose file ends before it", "short-and-too-long.tape", b"short block at 65541"),
    Case("a file of the most longest blocks", ["--tape0", "blocks.tape"], b"show d 180\n", 0,
         loaded(1023)),
    Case("a file of the most marks, and writes that discard all of them and are taken back",
         ["--tape0", "marks.tape"],
         MARK_AT_LOAD_POINT + b"channel 180\nback\n" * MANY + b"show d 180\n", 0,
         MARK_IS_STARTED + b"6 changed 2 u180 d180\nback 6 channel 180\n" * MANY + MOST_MARKS),
    faulty("a file of the greatest length is decoded", "longest.tape", b"part out of place at 0"),
    faulty("a file of a byte more is not", "longer.tape", b"file too long"),
    Case("a fault that standard error cannot tell of", ["--tape0", FOLDER], b"", 1, b"", None),
]
# The first bytes of the file of whole blocks, and other files, with their first faults.
FIRST_FAULTS = {
    **dict.fromkeys(range(1, 6), b"short header at 0"),
    **dict.fromkeys(range(6, 9), b"short block at 0"),
    **dict.fromkeys(range(10, 15), b"short header at 9"),
    **dict.fromkeys(range(16, 21), b"short header at 15"),
    21: b"short block at 15",
}
# The first bytes of that file that are tapes, and what is on them.
FIRST_ITEMS = {0: b"none\nnone\n", 9: b"block 3 C1C2C3\nnone\n", 15: b"block 3 C1C2C3\nmark\n"}
OTHER_FAULTS = {
    "020000008000C1C2": b"part out of place at 8",
    "000000006000": b"bad flags at 0",
    "010000004000": b"bad flags at 0",
    "01000000400000": b"bad flags at 0",
    # at one header: flags, then place, then bytes that are left
    "050000006000": b"bad flags at 0",
    "050000002000": b"part out of place at 0",
    "050000000000": b"part out of place at 0",
    "05000000A000C1": b"short block at 0",
    # inside of a block
    "010000008000C10100": b"short header at 7",
    "010000008000C1000000006000": b"bad flags at 7",
    "010000008000C1010000004000": b"bad flags at 7",
    "010000008000C1000000004000": b"part out of place at 7",
    "010000008000C105000000A000": b"part out of place at 7",
    "010000008000C1050000008000": b"part out of place at 7",
    "010000008000C1050000002000": b"short block at 7",
    "010000008000C1000000000000": b"part out of place at 13",
    # after a block and after a mark
    "010000008000C1000000002000000000000000": b"part out of place at 13",
    "000000004000000000002000": b"part out of place at 6",
    # the first of two faulty headers
    "000000002000000000006000": b"part out of place at 0",
}


def name_of(image):
    return f"{image.hex().upper()}.tape"


def changed(image):
    """The files that have another byte in one place."""
    for at in range(len(image)):
        for byte in (0x00, 0x20, 0x40, 0x80, 0xA0, 0xFF):
            yield image[:at] + bytes([byte]) + image[at + 1 :]


def computed(option, unit, image):
    """What has to be answered of a file: its first fault, or its items."""
    args = [f"--{option}", name_of(image)]
    try:
        items = items_of(image)
    except TapeFault as fault:
        return Case(f"the tape file {image.hex()}", args, b"standing\n", 1, b"",
                    told(f"{option}: {fault}".encode()))
    shown = [*shown_image(items), *map(shown_item, items), "none"]
    numbers = range(1, len(items) + 2)
    script = "".join([f"show image {unit}\n", *(f"show m {unit} {n}\n" for n in numbers)])
    answers = "".join(f"{line}\n" for line in shown)
    return Case(f"the tape file {image.hex()}", args, script.encode(), 0, answers.encode())


def tape_files():
    """Each file of which a fault is told here or computed, and its case."""
    for length, fault in FIRST_FAULTS.items():
        image = WHOLE_BLOCKS[:length]
        yield image, faulty(f"the first {length} bytes of a tape", name_of(image), fault)
    for length, items in FIRST_ITEMS.items():
        image = WHOLE_BLOCKS[:length]
        args = ["--tape0", name_of(image)]
        script = b"show m 180 1\nshow m 180 2\nshow m 180 3\n"
        yield image, Case(f"the first {length} bytes of a tape", args, script, 0, items + b"none\n")
    for digits, fault in OTHER_FAULTS.items():
        yield bytes.fromhex(digits), faulty(f"no tape {digits}", f"{digits}.tape", fault)
    for whole, option, unit in ((WHOLE_BLOCKS, "tape0", 180), (BLOCK_IN_PARTS, "tape1", 181)):
        prefixes = [whole[:length] for length in range(len(whole) + 1)]
        for image in dict.fromkeys([*prefixes, *changed(whole)]):
            yield image, computed(option, unit, image)


TAPE_FILES = list(tape_files())
FILES |= {name_of(image): image for image, _ in TAPE_FILES}
ORDER = [
    Case("the command line before a deck", ["--reader", "absent.deck", "--storage", "abc"], b"", 2,
         b"", usage(NUMBER)),
    Case("a deck before the storage size", ["--storage", "9000", "--reader", "short.deck"], b"", 1,
         b"", told(b"reader: short card at 160")),
    Case("the storage size before the script", ["--storage", "9000", "absent.s360"], b"", 2, b"",
         SIZE),
    Case("a deck before the script", ["--reader", "absent.deck", "absent.s360"], b"", 1, b"",
         told(b"reader: cannot read")),
    Case("a deck before the tapes", ["--tape0", "absent.tape", "--reader", "short.deck"], b"", 1,
         b"", told(b"reader: short card at 160")),
    Case("a tape before the other", ["--tape1", "absent.tape", "--tape0", "short.tape"], b"", 1,
         b"", told(b"tape0: short header at 9")),
    Case("the other before the storage size", ["--storage", "9000", "--tape1", "short.tape"], b"",
         1, b"", told(b"tape1: short header at 9")),
]
COMMAND_LINES = [
    Case("help", ["--help"], b"standing\n", 0, HELP),
    Case("help in short", ["-h"], b"", 0, HELP),
    Case("help before what else is wrong", ["--help", "--reader", "absent.deck"], b"", 0, HELP),
    Case("help that cannot be written", ["--help"], b"", 1, None),
    Case("the version", ["--version"], b"standing\n", 0, VERSION % b"s360dbg"),
    Case("the version in short", ["-V"], b"", 0, VERSION % b"s360dbg"),
    Case("an unknown option", ["--quick"], b"", 2, b"", usage(b"'--quick'")),
    Case("an unknown option that standard error cannot tell of", ["--quick"], b"", 2, b"", None),
    Case("an option twice", ["--reader", "two.deck", "--reader", "two.deck"], b"", 2, b"",
         usage(b"cannot be used multiple times")),
    Case("a tape twice", ["--tape0", "whole.tape", "--tape0", "whole.tape"], b"", 2, b"",
         usage(b"cannot be used multiple times")),
    Case("protection twice", ["--protect1", "--protect1"], b"", 2, b"",
         usage(b"cannot be used multiple times")),
    Case("protection with a value", ["--protect0=yes"], b"", 2, b"",
         Has((b"error: ", b"'--protect0'"))),
    Case("a third tape", ["--tape2", "whole.tape"], b"", 2, b"", usage(b"'--tape2'")),
    Case("an option with no value", ["--reader"], b"", 2, b"", Has((b"error: ", b"'--reader <FILE>'"))),
    Case("two scripts", ["standing.s360", "standing.s360"], b"", 2, b"",
         usage(b"unexpected argument 'standing.s360'")),
    Case("a word that is no UTF-8", [b"\xff"], b"", 2, b"",
         told(b"a word of the command line is not UTF-8")),
]


def served(what, args=(), sent=b"", status=0, output=b"", errors=b""):
    return Case(what, list(args), sent, status, output, errors, SERVER)


def server_told(text):
    return told(text, SERVER)


def sent(*requests):
    return b"".join(map(framed, requests))


def answered(*answers):
    """The answers to requests, each behind the byte that says that the packet came. One may be of
    several packets."""
    several = (answer if isinstance(answer, tuple) else (answer,) for answer in answers)
    return b"".join(b"+" + b"".join(map(framed, packets)) for packets in several)


SERVER_HELP = Has((b"Usage: s360gdb [OPTIONS] [SCRIPT]\n", *OPTIONS, b"gdb's remote protocol",
                   b"standard input and output", b"carried out first", b"standard error",
                   b"Example:\n", b"`monitor help`", *PAGES))
# 5 goes to register 1, 3 in gdb's count, and the instruction at 200 is run and taken back.
STEPPED_BACK = (b"M200,2:1a12", b"P1=00000200", b"P3=00000005", b"P4=00000007", b"s", b"bs")
STEPS_BACK = (b"OK", b"OK", b"OK", b"OK", b"T05", b"T05")
# A step back that finds nothing to take back says so.
AT_THE_START = (b"O" + b"start of what was recorded\n".hex().encode(), b"T00")
# BCT 3,200 branches to itself: 300,000 events later gdb is let in.
COUNTING = (b"M200,4:46300200", b"P1=00000200")
LET_IN = b"T05swbreak:;"
SERVING = [
    served("gdb: help", ["--help"], b"", 0, SERVER_HELP),
    served("gdb: the version", ["--version"], sent(b"?"), 0, VERSION % b"s360gdb"),
    served("gdb: an unknown option", ["--quick"], b"", 2, b"", usage(b"'--quick'", program=SERVER)),
    served("gdb: two scripts", ["standing.s360", "standing.s360"], b"", 2, b"",
           usage(b"unexpected argument 'standing.s360'", program=SERVER)),
    served("gdb: no number", ["--storage", "abc"], b"", 2, b"",
           usage(b"'abc'", NUMBER, program=SERVER)),
    served("gdb: a word that is no UTF-8", [b"\xff"], b"", 2, b"",
           server_told(b"a word of the command line is not UTF-8")),
    served("gdb: no size of storage", ["--storage", "9000"], b"", 2, b"", server_told(NO_SIZE)),
    served("gdb: a deck that does not open", ["--reader", "absent.deck"], b"", 1, b"",
           server_told(b"reader: cannot read")),
    served("gdb: a deck before the script", ["--reader", "short.deck", "absent.s360"], b"", 1, b"",
           server_told(b"reader: short card at 160")),
    served("gdb: a script that does not open", ["absent.s360"], sent(b"?"), 1, b"",
           server_told(b"script: cannot read")),
    served("gdb: a folder in place of a script", [FOLDER], b"", 1, b"",
           server_told(b"script: read failed")),
    served("gdb: a script of a byte too many", ["longer.s360"], sent(b"?"), 1, b"",
           server_told(b"script: script too long")),
    served("gdb: a script's answers on standard error", ["standing.s360"], b"", 0, b"", STANDING),
    served("gdb: answers that standard error does not take", ["standing.s360"], sent(b"?"), 1, b"",
           None),
    served("gdb: a script's events are gdb's to take back", ["addition.s360"],
           sent(b"p3", b"bs", b"p3", b"bs", b"p3"), 0,
           answered(b"0000000c", b"T05", b"00000005", AT_THE_START, b"00000000"), ADDED),
    served("gdb: no script is read from standard input", [], b"standing\n", 0),
    served("gdb: no packet"),
    served("gdb: no packet, and no answer that is written", [], b"", 0, None),
    served("gdb: standard input that cannot be read", [], None, 1, b"",
           server_told(b"gdb: read failed")),
    served("gdb: answers that cannot be written", [], sent(b"?"), 1, None,
           server_told(b"gdb: write failed")),
    served("gdb: the input ends in a packet", [], sent(b"?") + b"$p3", 0, answered(b"T05")),
    served("gdb: what comes behind its leave is dropped", [], sent(b"D", b"?"), 0, answered(b"OK")),
    served("gdb: a write drops what was recorded", [], sent(*STEPPED_BACK, b"P3=00000009", b"p3"), 0,
           answered(*STEPS_BACK, b"OK", b"00000009"), server_told(b"dropped 1 recorded changes")),
    served("gdb: a write that was recorded drops nothing", [],
           sent(b"P3=00000005", b"bs", b"P3=00000005", b"p3"), 0,
           answered(b"OK", AT_THE_START, b"OK", b"00000005")),
    served("gdb: a long run lets it in, forward and back", [],
           sent(*COUNTING, b"c", b"p5", b"c", b"p5", b"bc", b"p5", b"bc", b"p5", b"bc"), 0,
           answered(b"OK", b"OK", LET_IN, b"fffb6c20", LET_IN, b"fff6d840", LET_IN, b"fffb6c20",
                    LET_IN, b"00000000", b"T05replaylog:begin;")),
    served("gdb: each drop is told once", [],
           sent(*STEPPED_BACK, b"P3=00000009", b"s", b"bs", b"P4=00000002", b"s"), 0,
           answered(*STEPS_BACK, b"OK", b"T05", b"T05", b"OK", b"T05"),
           server_told(b"dropped 1 recorded changes") * 2),
    served("gdb: a drop that standard error cannot tell of", [],
           sent(*STEPPED_BACK, b"P3=00000009", b"p3"), 0,
           answered(*STEPS_BACK, b"OK", b"00000009"), None),
]
CASES = [*SCRIPTS, *STORAGE, *DECKS, *TAPES, *ORDER, *COMMAND_LINES, *SERVING]
CASES += [case for _, case in TAPE_FILES]


class Failing(NamedTuple):
    """A run of a program that reads or writes by several calls: the stream of its answers, all of them,
    and what is told where a call fails, in the order in which the calls come."""

    what: str
    calls: dict[str, str]
    program: str
    args: list[str]
    script: bytes = b""
    stream: str = "stdout"
    whole: bytes = b""
    faults: tuple[bytes, ...] = ()


def writes_to(descriptor):
    return {"FAIL_CALL": "write", "FAIL_FILE": str(descriptor)}


READS = {"FAIL_CALL": "read"}
STANDINGS = b"standing\n" * MANY_LINES
STAND = STANDING * MANY_LINES
QUESTIONS = sent(b"?") * MANY_LINES
STOPS = answered(b"T05") * MANY_LINES
MEDIA = ["--reader", "two.deck", "--tape0", "whole.tape", "--tape1", "parts.tape"]
UNREAD_MEDIA = (b"reader: cannot read", b"tape0: cannot read", b"tape1: cannot read")
UNREAD_SCRIPT = (*UNREAD_MEDIA, b"script: read failed")
FAILING = [
    Failing("a write of a script's answers", writes_to(1), DEBUGGER, [], STANDINGS, "stdout", STAND,
            (b"script: write failed",)),
    Failing("a write of its answers to standard error", writes_to(2), SERVER, ["many.s360"], b"",
            "stderr", STAND, (b"script: write failed",)),
    Failing("a write of gdb's answers", writes_to(1), SERVER, [], QUESTIONS, "stdout", STOPS,
            (b"gdb: write failed",)),
    Failing("a read of files, or of a script on standard input", READS, DEBUGGER, MEDIA, STANDINGS,
            "stdout", STAND, UNREAD_SCRIPT),
    Failing("a read of files and of a script in a file", READS, DEBUGGER, [*MEDIA, "many.s360"], b"",
            "stdout", STAND, UNREAD_SCRIPT),
    Failing("a read of files, of a script and of what gdb sends", READS, SERVER,
            [*MEDIA, "standing.s360"], QUESTIONS, "stdout", STOPS,
            (*UNREAD_SCRIPT, b"gdb: read failed")),
]
# What is written by one call is not told at all where that fails, and the status is this.
UNTOLD = [
    (Failing("the write of help", writes_to(1), DEBUGGER, ["--help"]), 1),
    (Failing("the write of what is wrong with a command line", writes_to(2), SERVER, ["--quick"]), 2),
    (Failing("the first write of a fault", writes_to(2), DEBUGGER, ["absent.s360"]), 1),
]


class Writing(NamedTuple):
    """Channel programs that write a tape, and what is on it then."""

    script: bytes
    answers: bytes  # the last of them
    items: tuple


START = b"""patch p 0000000000000200
patch s 48 00000400
patch s 200 9C000180
"""
WRITINGS = {
    "a block, a mark and a block of the greatest length": Writing(
        START
        + b"""patch s 600 C1C2C3
patch s 400 0100060040000003
patch s 408 1F00000060000001
patch s 410 010006000000FFFF
run 4
""",
        b"run 4 done\n",
        (b"\xc1\xc2\xc3", MARK, b"\xc1\xc2\xc3" + bytes(LONGEST_BLOCK - 3)),
    ),
    "one block of the greatest length": Writing(
        START
        + b"""patch s 400 010006000000FFFF
run 2
show u 180
""",
        b"run 2 done\n180 waiting 00000408 0C000000\n",
        (bytes(LONGEST_BLOCK),),
    ),
}


def make_files(folder):
    """Makes the files and the folder that command lines name. A file of zeros takes no room."""
    for name, contents in FILES.items():
        with open(folder / name, "wb") as file:
            if isinstance(contents, int):
                file.truncate(contents)
            elif isinstance(contents, Repeated):
                file.write(contents.part * contents.times)
            else:
                file.write(contents)
    (folder / FOLDER).mkdir()


def fault_of(case, folder):
    """What is wrong with a case, or nothing."""
    stdin = os.open("/", os.O_RDONLY) if case.script is None else None
    full = os.open("/dev/full", os.O_WRONLY)
    try:
        how = {"stdin": stdin} if stdin is not None else {"input": case.script}
        done = subprocess.run(
            [built(case.program), *case.args],
            stdout=full if case.output is None else subprocess.PIPE,
            stderr=full if case.errors is None else subprocess.PIPE,
            timeout=SECONDS,
            cwd=folder,
            **how,
        )
    finally:
        os.close(full)
        if stdin is not None:
            os.close(stdin)
    right = (case.status == done.returncode, case.output == done.stdout, case.errors == done.stderr)
    return None if all(right) else (done.returncode, done.stdout, done.stderr)


def fault_of_read_back(writing, folder):
    """What is wrong with a tape that is written, and read back from the bytes that are shown."""
    lines = [*shown_image(writing.items), *map(shown_item, writing.items), "none"]
    wanted = "".join(f"{line}\n" for line in lines).encode()
    numbers = range(1, len(writing.items) + 2)
    showing = "".join(["show image 180\n", *(f"show m 180 {n}\n" for n in numbers)]).encode()
    how = {"capture_output": True, "timeout": SECONDS, "cwd": folder}
    writes = [built(DEBUGGER), "--storage", "131072"]
    done = subprocess.run(writes, input=writing.script + showing, **how)
    _, _, shown = done.stdout.partition(writing.answers)
    if shown == wanted:
        digits = shown.decode().splitlines()[1 : len(shown_image(writing.items))]
        (folder / "written.tape").write_bytes(bytes.fromhex("".join(digits)))
        reads = [built(DEBUGGER), "--tape0", "written.tape"]
        done = subprocess.run(reads, input=showing, **how)
        shown = done.stdout
    right = shown == wanted and done.returncode == 0
    return None if right else (done.returncode, done.stdout, done.stderr)


def bounded(kind, most, folder, script, args=()):
    """A run of the debugger under a bound of its memory."""

    def bound():
        resource.setrlimit(kind, (most, most))

    how = {"capture_output": True, "timeout": SECONDS, "cwd": folder, "preexec_fn": bound}
    return subprocess.run([built(DEBUGGER), *args], input=script, **how)


def fault_of_chain(folder):
    """What is wrong with a data chain of the most words, in memory that is in proportion to its bytes."""
    done = bounded(resource.RLIMIT_DATA, CHAIN_MEMORY, folder, CHAINED_TO_ITSELF)
    right = done.returncode == 0 and done.stdout.endswith(CHAIN_ENDS) and not done.stderr
    return None if right else (done.returncode, done.stdout[-200:], done.stderr)


def runs_of_moves():
    """The lines of a script that runs the loop of moves again and again, with their answers."""
    debugger = Debugger()
    for line in LOOP_OF_MOVES:
        yield line, *debugger.answer(line)
    first = len(LOOP_OF_MOVES)
    for events in range(EVENTS_OF_RUN, RUNS * EVENTS_OF_RUN + 1, EVENTS_OF_RUN):
        # Of three events the last is the branch.
        last_move = events - 1 if events % 3 == 0 else events
        yield f"run {EVENTS_OF_RUN}", f"run {EVENTS_OF_RUN} done"
        yield "standing", f"standing {first + events}"
        yield "last p", f"last {first + events}"
        yield "last s 7FF", f"last {first + last_move}"


def fault_under_a_bound(most, folder):
    """What is wrong with a session that runs out of memory: the answers before that are right, and whole lines."""
    lines, answers = zip(*runs_of_moves())
    script, whole = ("".join(f"{line}\n" for line in text).encode() for text in (lines, answers))
    done = bounded(resource.RLIMIT_AS, most, folder, script)
    lines_written = done.stdout.count(b"\n")
    is_first_part = whole.startswith(done.stdout) and done.stdout.endswith(b"\n")
    is_cut = len(LOOP_OF_MOVES) < lines_written < len(answers)
    right = is_first_part and is_cut and (done.returncode, done.stderr) == (1, OUT_OF_MEMORY)
    return None if right else (done.returncode, lines_written, done.stdout[-200:], done.stderr)


def fault_of_a_tape_under_a_bound(folder):
    """What is wrong with a tape that takes more memory than there is."""
    done = bounded(resource.RLIMIT_AS, BOUNDS[0], folder, b"standing\n", ["--tape0", "blocks.tape"])
    right = (done.returncode, done.stdout, done.stderr) == (1, b"", OUT_OF_MEMORY)
    return None if right else (done.returncode, done.stdout, done.stderr)


def fault_at_a_terminal(folder):
    """What is wrong with a script that is typed: a person is told once what is waited for."""
    terminal, typed = pty.openpty()
    try:
        modes = termios.tcgetattr(typed)
        modes[3] &= ~termios.ECHO
        termios.tcsetattr(typed, termios.TCSANOW, modes)
        os.write(terminal, b"standing\n" + END_OF_FILE)
        done = subprocess.run(
            [built(DEBUGGER)], stdin=typed, capture_output=True, timeout=SECONDS, cwd=folder
        )
    finally:
        os.close(terminal)
        os.close(typed)
    lines = done.stderr.count(b"\n")
    right = done.returncode == 0 and done.stdout == STANDING and lines == 1 and b"Ctrl-D" in done.stderr
    return None if right else (done.returncode, done.stdout, done.stderr)


def fault_of_a_leave(folder):
    """What is wrong where gdb leaves and its pipe stays open: the server ends, and waits for nothing more."""
    pipes = {"stdin": subprocess.PIPE, "stdout": subprocess.PIPE, "stderr": subprocess.PIPE}
    with subprocess.Popen([built(SERVER)], cwd=folder, **pipes) as server:
        try:
            server.stdin.write(sent(b"?", b"D"))
            server.stdin.flush()
            status = server.wait(timeout=SECONDS)
            shown = server.stdout.read(), server.stderr.read()
        except subprocess.TimeoutExpired:
            server.kill()
            return "it waits for more"
    right = status == 0 and shown == (answered(b"T05", b"OK"), b"")
    return None if right else (status, *shown)


def runs_with_a_failure(failing, shim, folder, error):
    """Runs of a program of which the first call fails, the second, and so on, up to the run that has no
    such call."""
    for nth in itertools.count(1):
        failure = {"LD_PRELOAD": str(shim), "FAIL_NTH": str(nth), "FAIL_ERRNO": str(error)}
        environment = {**os.environ, **failure, **failing.calls}
        how = {"capture_output": True, "timeout": SECONDS, "cwd": folder, "env": environment}
        command = [built(failing.program), *failing.args]
        yield subprocess.run(command, input=failing.script, **how)


def fault_of_failures(failing, shim, folder, error):
    """What is wrong where one call fails, and each later one would be made. None is tried again: the
    answers are those that were written before, and then the fault is told."""
    told_of = {told(fault, failing.program): fault for fault in failing.faults}
    faults, answers = [], []
    for done in runs_with_a_failure(failing, shim, folder, error):
        answer = getattr(done, failing.stream)
        if done.returncode == 0:
            break
        ending = next((line for line in told_of if done.stderr.endswith(line)), None)
        if ending is None or done.returncode != 1:
            return f"call {len(faults) + 1}: {done.returncode}, {done.stderr[-200:]}"
        faults.append(told_of[ending])
        answers.append(answer.removesuffix(ending))
    right = (
        answer == failing.whole,
        all(faults.count(fault) >= SOME_CALLS for fault in failing.faults),
        faults == sorted(faults, key=failing.faults.index),
        all(failing.whole.startswith(part) for part in answers),
        answers == sorted(answers, key=len),
        # A script is read whole before it is answered, and each write that succeeds writes some.
        not any(part for fault, part in zip(faults, answers) if fault in UNREAD_SCRIPT),
        failing.calls == READS or len({*answers, failing.whole}) > len(answers),
    )
    return None if all(right) else (right, faults, [len(part) for part in answers])


def faults_of_failures(folder):
    """What is wrong where one call fails, of each kind of calls and by each error."""
    shim = folder / "fail_nth.so"
    source = TOP / "tests/program/fail_nth.c"
    subprocess.run(["cc", "-O1", "-shared", "-fPIC", "-o", shim, source], check=True)
    for failing in FAILING:
        for name, error in ERRORS.items():
            fault = fault_of_failures(failing, shim, folder, error)
            yield f"{failing.what} fails once with {name}", fault
        if failing.calls != READS:
            fault = fault_of_failures(failing, shim, folder, NO_BYTE)
            yield f"{failing.what} takes no byte once", fault
    for failing, status in UNTOLD:
        for name, error in ERRORS.items():
            done = next(runs_with_a_failure(failing, shim, folder, error))
            right = (done.returncode, done.stdout, done.stderr) == (status, b"", b"")
            yield f"{failing.what} fails with {name}", None if right else done


def main():
    with tempfile.TemporaryDirectory() as name:
        folder = pathlib.Path(name)
        make_files(folder)
        faults = [(case.what, fault_of(case, folder)) for case in CASES]
        faults.append(("a data chain of the most words", fault_of_chain(folder)))
        for most in BOUNDS:
            fault = fault_under_a_bound(most, folder)
            faults.append((f"a session in an address space of {most} bytes", fault))
        fault = fault_of_a_tape_under_a_bound(folder)
        faults.append(("a tape in an address space that it does not fit", fault))
        faults.append(("a script that is typed at a terminal", fault_at_a_terminal(folder)))
        faults.append(("gdb: the program ends when gdb leaves", fault_of_a_leave(folder)))
        faults += faults_of_failures(folder)
        for what, writing in WRITINGS.items():
            fault = fault_of_read_back(writing, folder)
            faults.append((f"a tape that is written and read back: {what}", fault))
    failed = [(what, fault) for what, fault in faults if fault]
    for what, fault in failed:
        print(f"{what}: {fault!r:.400}")
    print(f"{len(faults) - len(failed)} passed, {len(failed)} failed")
    return 1 if failed else 0


if __name__ == "__main__":
    sys.exit(main())
