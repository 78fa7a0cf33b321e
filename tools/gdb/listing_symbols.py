"""The labels, fields and lines of a listing, as input of GNU as: what gdb has to know of a program.

A label of code is a symbol that reaches to the next one. A label of data is a variable as well, whose type is that of its
constant: F a word, H a halfword, A and V an address, C characters, any other bytes. Command words and PSWs are two words.
Each statement that has storage has its line.
"""
import bisect
import os
import re
from collections.abc import Iterable, Iterator
from typing import NamedTuple

from listing import Statement, Unreadable, statements

MOST_ADDRESSES = 1 << 24
DUMMY, CONTROL = ("DSECT", "COM", "DXD"), ("CSECT", "START", "RSECT")
WORDS = ("CCW", "CCW0", "PSW")
NO_INSTRUCTION = ("", "DC", "DS", "EBCDIC", *WORDS)
SELF_DEFINING = re.compile(r"(\d+)|X'([0-9A-F]+)'")
NAME = re.compile(r"[A-Za-z@#$_.][\w@#$.]*")
# The operand of a field. In the examples a number alone counts bytes.
FIELD = re.compile(r"(?P<count>\d*)(?P<kind>[A-Z]?)(?:L(?P<length>\d+))?")
# Of each type of a constant the length that it has if none is said; and the type of its elements, if they are no bytes.
LENGTHS = {kind: length for length, kinds in {1: "CXBPZ", 2: "HYS", 4: "FEAVQ", 8: "D", 16: "L"}.items() for kind in kinds}
TYPES = {"F": "int", "H": "short", "A": "address", "V": "address", "C": "char"}
BYTES = "byte"
# An assembler may print no more of a constant.
MOST_PRINTED = 8
ASSEMBLER_LANGUAGE = 0x8001
# Names the listing's columns if they were told: s360.py looks for statements in the listing.
PRODUCER = "s360gdb"
# The compilation unit, base types, an address, an array, its bound, a variable (DWARF 3, "Debugging Information Format").
ABBREVIATIONS = """
.uleb128 1, 0x11; .byte 1; .uleb128 0x10, 6, 0x03, 8, 0x1b, 8, 0x25, 8, 0x13, 5, 0x11, 1, 0x12, 1, 0, 0
.uleb128 2, 0x24; .byte 0; .uleb128 0x03, 8, 0x0b, 0x0b, 0x3e, 0x0b, 0, 0
.uleb128 3, 0x0f; .byte 0; .uleb128 0x0b, 0x0b, 0, 0
.uleb128 4, 0x01; .byte 1; .uleb128 0x49, 0x13, 0, 0
.uleb128 5, 0x21; .byte 0; .uleb128 0x2f, 0x0f, 0, 0
.uleb128 6, 0x34; .byte 0; .uleb128 0x03, 8, 0x49, 0x13, 0x3f, 0x0c, 0x02, 0x0a, 0, 0
.byte 0
"""
# Their names, sizes and encodings: signed, signed characters and unsigned.
BASE_TYPES = {"int": ("int", 4, 5), "short": ("short", 2, 5), "char": ("char", 1, 8), "byte": ("unsigned char", 1, 7)}
DW_OP_ADDR = 3


class Label(NamedTuple):
    """A name for an address. A field has the type of its elements; code has none."""

    name: str
    address: int
    size: int
    element: str | None
    count: int


def placed(listed: Iterable[Statement]) -> Iterator[Statement]:
    """The statements that have a place in storage: those of a dummy section have none."""
    dummy = False
    for statement in listed:
        dummy = statement.operation in DUMMY or dummy and statement.operation not in CONTROL
        if statement.location is None or dummy:
            continue
        if statement.location >= MOST_ADDRESSES:
            raise Unreadable(f"line {statement.line}: the location {statement.location:X} is above FFFFFF")
        if statement.operation != "EQU" or statement.operands.startswith("*"):
            yield statement


def labels_of(found: list[Statement]) -> Iterator[Label]:
    """The labels of statements in the order of their locations, each name once."""
    starts = sorted({s.location for s in found})
    code = {s.location for s in found if s.code and s.operation not in NO_INSTRUCTION and s.operation[0] != "."}
    named = {s.label: s for s in reversed(found) if NAME.fullmatch(s.label)}
    places = sorted({s.location for s in named.values()})
    end = max(s.location + len(s.code) for s in found)

    def behind(places: list[int], address: int) -> int:
        """How far it is to the next of some places."""
        at = bisect.bisect_right(places, address)
        return (places[at] if at < len(places) else max(end, address)) - address

    for name, statement in named.items():
        address = statement.location
        if address in code:
            yield Label(name, address, behind(places, address), None, 0)
            continue
        field = FIELD.match("2A" if statement.operation in WORDS else statement.operands)
        # A field of no storage of its own lies over others.
        count = int(field["count"] or 1) or 1
        length = int(field["length"] or 0)
        if statement.operation == "DS" or statement.operation in WORDS:
            length = length or LENGTHS.get(field["kind"], 1)
        size = count * length or len(statement.code)
        if not length and size == MOST_PRINTED:
            size = behind(starts, address)
        element, width = TYPES.get(field["kind"], BYTES), LENGTHS.get(field["kind"], 1)
        if element == BYTES or size % width:
            element, width = BYTES, 1
        yield Label(name, address, size, element, size // width)


def lines_of(found: list[Statement]) -> Iterator[str]:
    """The lines by their addresses, and the code. GNU as enters a line that has no instruction where a label is."""
    filled = [s for s in found if s.code or s.operation == "DS"]
    end = max(s.location + max(len(s.code), 1) for s in found)
    yield ".loc_mark_labels 1"
    for statement, behind in zip(filled, [*(s.location for s in filled[1:]), end]):
        yield f".org {statement.location}; .loc 1 {statement.line}; .Lline{statement.line}:"
        if code := statement.code[: behind - statement.location]:
            yield f".byte {', '.join(map(str, code))}"
    yield f".loc_mark_labels 0; .org {end}; .Lend:"


def symbol(name: str, value: str, kind: str, size: int) -> str:
    return f'.globl "{name}"; .set "{name}", {value}; .type "{name}", @{kind}; .size "{name}", {size}'


def variables_of(labels: list[Label]) -> Iterator[str]:
    """The entries of the fields."""
    for number, label in enumerate(label for label in labels if label.element and label.count):
        kind = f".Ltype_{label.element}"
        if label.count > 1 or label.element in ("char", "byte"):
            yield f".Larray{number}: .uleb128 4; .4byte {kind} - .Linfo; .uleb128 5, {label.count - 1}; .byte 0"
            kind = f".Larray{number}"
        name = f'.asciz "{label.name}"; .4byte {kind} - .Linfo'
        yield f'.uleb128 6; {name}; .byte 1, 5, {DW_OP_ADDR}; .4byte "{label.name}"'


def assembly_of(file: str, text: str, columns: str | None) -> str:
    """What GNU as makes the symbols of a listing of."""
    listed = list(statements(text, columns))
    found = sorted(placed(listed), key=lambda s: s.location)
    if not found:
        raise Unreadable("no statement of this listing has a location")
    labels = list(labels_of(found))
    named = {label.name for label in labels}
    told = f"{PRODUCER} {columns}" if columns else PRODUCER
    name, folder, producer = (word.replace("\\", r"\\").replace('"', r"\"") for word in (file, os.getcwd(), told))
    out = [f'.file 1 "{name}"', '.section .text,"ax"', ".Lstart:", *lines_of(found)]
    for label in labels:
        kind = "object" if label.element else "function"
        out.append(symbol(label.name, f".Lstart + {label.address}", kind, label.size))
    for statement in listed:
        value = SELF_DEFINING.fullmatch(statement.operands)
        if statement.operation == "EQU" and value and NAME.fullmatch(statement.label) and statement.label not in named:
            out.append(symbol(statement.label, value[1] or f"0x{value[2]}", "notype", 0))
    out += ['.section .debug_abbrev,"",@progbits', ".Labbreviations:", ABBREVIATIONS]
    out += ['.section .debug_line,"",@progbits', ".Llines:"]
    out += ['.section .debug_info,"",@progbits', ".Linfo: .4byte .Linfo_end - .Lversion"]
    out += [".Lversion: .2byte 3; .4byte .Labbreviations; .byte 4"]
    out += [f'.uleb128 1; .4byte .Llines; .asciz "{name}"; .asciz "{folder}"; .asciz "{producer}"']
    out += [f".2byte {ASSEMBLER_LANGUAGE}; .4byte .Lstart, .Lend"]
    for kind, (spelt, size, encoding) in BASE_TYPES.items():
        out.append(f'.Ltype_{kind}: .uleb128 2; .asciz "{spelt}"; .byte {size}, {encoding}')
    out += [".Ltype_address: .uleb128 3; .byte 4", *variables_of(labels), ".byte 0", ".Linfo_end:"]
    return "\n".join([*out, ""])
