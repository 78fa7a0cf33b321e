"""Finds the byte of storage that a sign on paper was printed of."""
import re

import gdb
from s360_machine import standing, told
from s360_places import Change, changes_of

PRINTER = "00E"
# No line has more parts.
MOST_PARTS = 132
# What is told of a printed line, and of a command word that the channel has carried out.
RECORD = re.compile(r"page (\d+) line (\d+) ?(.*)")
COMMAND_WORD = re.compile(rf"\d+ channel {PRINTER} at (?:.* to )?[0-9A-F]{{6}} ([0-9A-F]{{16}})")
CHAIN_DATA = 0x80


def record_of(line: int, column: int, page: int | None) -> int:
    """The number of the last record that has a sign there."""
    last = int(told(f"show d {PRINTER}").split()[-1])
    for number in range(last, 0, -1):
        its_page, its_line, text = RECORD.match(told(f"show m {PRINTER} {number}")).groups()
        page = page or int(its_page)
        if (int(its_page), int(its_line)) == (page, line) and text[column - 1 : column].strip():
            return number
    raise gdb.GdbError(f"Nothing is printed in line {line} column {column}.")


def data_printed() -> list[int]:
    """The addresses of the bytes that the last change has printed, whose command words may be chained."""
    data: list[int] = []
    for found in map(COMMAND_WORD.match, reversed(told(f"history {MOST_PARTS}").splitlines())):
        word = bytes.fromhex(found[1]) if found else bytes(8)
        if data and not word[4] & CHAIN_DATA:
            break
        start, count = int.from_bytes(word[1:4], "big"), int.from_bytes(word[6:8], "big")
        data[:0] = range(start, start + count)
    return data


def print_of(line: int, column: int, page: int | None) -> tuple[Change, int, list[Change]]:
    """The change that printed a sign, of the last page if none is named, the address of its byte, and what changed that before."""
    item, stood = record_of(line, column, page), standing()
    # Back where it stood, so that `goto last` goes there.
    try:
        event = told(f"who m {PRINTER} {item}").splitlines()[0]
        change = Change(int(event.split()[0]), event, {})
        told(f"goto {change.number}")
        address = data_printed()[column - 1]
        return change, address, changes_of([f"s {address:06X}"], 1)
    finally:
        told(f"goto {stood}")
