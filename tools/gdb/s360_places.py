"""The places of the machine that an expression of gdb names, and what changed them."""
import re
from collections.abc import Iterator
from typing import NamedTuple

import gdb
from s360_machine import BYTES, label_at, show, told

ADDRESS_BITS = 0xFFFFFF
MOST_BYTES = 256
# So many changes of a place are told.
MOST_TOLD = 1000
REGISTER = re.compile(r"\$r(\d|1[0-5])")
PSW = ("$pc", "$pswa", "$pswm", "$cc")
# A place, an item of a unit and a byte of storage as monitor names them.
MONITOR_PLACE = re.compile(r"[srudk] [0-9A-Fa-f]+|ext|run|p")
MONITOR_ITEM = re.compile(r"m\s+\w.*")
MONITOR_BYTE = re.compile(r"s ([0-9A-Fa-f]+)")
LABEL = re.compile(r"(?P<quote>'?)(?P<name>[A-Za-z_.@#][\w.@#$]*)(?P=quote)\s*(?P<offset>[-+].*)?")
# A number behind an expression: what is before it is not to be continued.
COUNTED = re.compile(r"(?P<expression>.*[\w)\]'\"])\s+(?P<count>\d+)")


def value_of(expression: str) -> gdb.Value:
    """A value of gdb, whose own words tell why there is none."""
    try:
        return gdb.parse_and_eval(expression)
    except gdb.error as fault:
        raise gdb.GdbError(str(fault)) from None


def length_of_label(address: int) -> int:
    """How many bytes from a label's address on belong to it."""
    name = label_at(address)[:-1]
    own = (at for at in range(1, MOST_BYTES) if label_at(address + at) != f"{name}+{at}>")
    return next(own, MOST_BYTES) if name else 1


def bytes_of(expression: str) -> tuple[int, int]:
    """The address and the number of the bytes that an expression names: of a label its field, of a number one byte."""
    if found := MONITOR_BYTE.fullmatch(expression):
        return int(found[1], 16), 1
    if found := LABEL.fullmatch(expression):
        label = value_of(f"&'{found['name']}'")
        start = int(label) & ADDRESS_BITS
        if found["offset"]:
            return start + int(value_of(f"0 {found['offset']}")) & ADDRESS_BITS, 1
        if label.type.target().code in (gdb.TYPE_CODE_FUNC, gdb.TYPE_CODE_ERROR):
            return start, length_of_label(start)
        # gdb takes a name with other signs in quotes alone.
        expression = f"'{found['name']}'"
    value = value_of(expression)
    if value.address is not None:
        if value.type.sizeof > MOST_BYTES:
            raise gdb.GdbError(f"{value.type.sizeof} bytes are too many: ask for at most {MOST_BYTES}.")
        return int(value.address) & ADDRESS_BITS, value.type.sizeof
    if value.type.strip_typedefs().code not in (gdb.TYPE_CODE_INT, gdb.TYPE_CODE_PTR):
        raise gdb.GdbError(f"{expression} is no place.")
    return int(value) & ADDRESS_BITS, 1


def places_of(expression: str) -> list[str]:
    """The places of an expression, as monitor names them."""
    if not expression:
        raise gdb.GdbError("Argument required (a place).")
    if found := REGISTER.fullmatch(expression):
        return [f"r {int(found[1]):X}"]
    if expression in PSW:
        return ["p"]
    if MONITOR_PLACE.fullmatch(expression):
        return [expression]
    address, length = bytes_of(expression)
    return [f"s {at:06X}" for at in range(address, address + length)]


def places_of_value(value: gdb.Value) -> list[str]:
    """The bytes of a value that is in storage."""
    address = int(value.address) & ADDRESS_BITS
    return [f"s {at:06X}" for at in range(address, address + value.type.sizeof)]


def extent_of(places: list[str]) -> str:
    """Places as one place, or as successive bytes, as monitor names them."""
    first, last = places[0], places[-1]
    return first if first == last else f"{first}-{last.partition(' ')[2]}"


def count_of(places: list[str]) -> int:
    """How many standing changes altered places."""
    return int(told(f"count {extent_of(places)}").split()[1])


def with_count(words: str) -> tuple[str, int | None]:
    """An expression, and the number behind it or nothing."""
    found = None if MONITOR_PLACE.fullmatch(words) else COUNTED.fullmatch(words)
    return (found["expression"], int(found["count"])) if found else (words, None)


class Change(NamedTuple):
    """A change of places: its number, what it says of its event, and of each place where it is and how it changed."""

    number: int
    event: str
    places: dict[str, str]


def changes_of(places: list[str], count: int) -> list[Change]:
    """The last standing changes of places, the oldest first, and no more than are told of one."""
    found: dict[int, Change] = {}
    for place in places:
        lines = told(f"changes {place} {count}").splitlines()
        for event, line in zip(lines[::2], lines[1::2]):
            number = int(event.split()[0])
            change = found.setdefault(number, Change(number, event, {}))
            name, _, how = line.partition(" ")
            change.places[name] = how
    return [found[number] for number in sorted(found)][-min(count, MOST_TOLD) :]


def run_of(places: dict[str, str]) -> Iterator[str]:
    """The lines of a change's places: successive bytes have one."""
    runs = []
    for name, how in places.items():
        before, _, after = how.partition(" -> ")
        address = int(name[1:], 16) if BYTES.fullmatch(name) else None
        if runs and address is not None and runs[-1][1] == address - 1:
            first, _, *values = runs[-1]
            runs[-1] = (first, address, values[0] + before, values[1] + after)
        else:
            runs.append((name, address, before, after))
    for first, last, before, after in runs:
        end = f"-{last:06X}" if last is not None and f"s{last:06X}" != first else ""
        yield f"{first}{end} {before} -> {after}"


def show_change(change: Change) -> None:
    show("\n".join([change.event, *run_of(change.places), ""]))
