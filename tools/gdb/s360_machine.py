"""What the machine answers to a line of monitor, with labels and source lines."""
import functools
import pathlib
import re
import struct

import gdb
import listing
import listing_symbols

# In an answer: a byte or successive bytes; where a jump or a call leads to; what an event met, and where. In a line: a place in storage.
BYTES = re.compile(r"\bs([0-9A-F]{6})(-[0-9A-F]{6})?")
LED_TO = re.compile(r"\bto ([0-9A-F]{6})\b(?! [0-9A-F]{16})")
MET = re.compile(
    r"\b(?P<who>cpu|channel \w+) at (?P<address>[0-9A-F]{6})(?: (?P<happening>(?:[A-Z]+ )?(?P<digits>[0-9A-F]{2,})\b))?"
)
OUTSIDE = re.compile(r"\w+ ([sk]) ([0-9A-Fa-f]+)\b")
KINDS = {"s": "byte", "k": "block"}
REFUSALS = ("refused", "no such change", "not saved")
SECTION_TABLE, SECTION_COUNT = 32, 46
PROGBITS, ALLOC = 1, 2
GNU_LABEL_OR_REMARK = re.compile(r"^\s*[\w.$@]+:|#.*")


def machine() -> gdb.RemoteTargetConnection | None:
    """The connection to the machine, or nothing."""
    connection = gdb.selected_inferior().connection
    return connection if isinstance(connection, gdb.RemoteTargetConnection) else None


def answer(line: str) -> str:
    """What the machine answers to a line of monitor."""
    if machine() is None:
        raise gdb.GdbError("There is no machine.")
    reply = machine().send_packet(b"qRcmd," + line.encode().hex().encode())
    if reply.startswith(b"E"):
        raise gdb.GdbError("There is no memory left for this.")
    return "" if reply == b"OK" else bytes.fromhex(reply.decode()).decode()


def told(line: str) -> str:
    """The answer to a line that the machine takes."""
    text = answer(line)
    if text.startswith("? argument 2") and (place := OUTSIDE.match(line)):
        raise gdb.GdbError(f"Storage has no {KINDS[place[1]]} at {place[2]}.")
    if text.startswith("?"):
        raise gdb.GdbError(f'The machine does not take "{line}".')
    if text.startswith(REFUSALS):
        raise gdb.GdbError(text.strip())
    return text


def label_at(address: int) -> str:
    """The label before an address, as gdb has it in `<START+4>`; or nothing."""
    found = re.match(r"(.+?)(?: \+ (\d+))? in section", gdb.execute(f"info symbol {address}", to_string=True))
    return "" if not found else f" <{found[1]}{found[2] and '+' + found[2] or ''}>"


@functools.lru_cache
def statements_of(file: str, producer: str | None) -> dict[int, str]:
    """The statements of a source by their lines."""
    try:
        text = pathlib.Path(file).read_text(errors="replace")
    except OSError:
        return {}
    name, _, columns = (producer or "").partition(" ")
    if name == listing_symbols.PRODUCER:
        return {s.line: f"{s.operation} {s.operands}".strip() for s in listing.statements(text, columns)}
    lines = (GNU_LABEL_OR_REMARK.sub("", line) for line in text.split("\n"))
    return {number: " ".join(line.split()) for number, line in enumerate(lines, 1)}


@functools.lru_cache
def sections_of(file: str) -> list[tuple[int, bytes]]:
    """The addresses and the contents of a program's sections (ELF specification, "Sections")."""
    contents = pathlib.Path(file).read_bytes()
    (start,) = struct.unpack_from(">I", contents, SECTION_TABLE)
    size, count = struct.unpack_from(">HH", contents, SECTION_COUNT)
    headers = (struct.unpack_from(">6I", contents, start + size * number) for number in range(count))
    return [(h[3], contents[h[4] : h[4] + h[5]]) for h in headers if h[1] == PROGBITS and h[2] & ALLOC]


def was_assembled(address: int, code: bytes) -> bool:
    """Whether the program has this code at an address: a statement that was patched is not what is executed."""
    file = gdb.current_progspace().filename
    sections = sections_of(file) if file else []
    return any(start <= address and contents[address - start :].startswith(code) for start, contents in sections)


def source_at(address: int) -> tuple[str | None, str | None]:
    """The statement that begins at an address, and the file and line of what is there; or nothing."""
    found = gdb.find_pc_line(address)
    if not found.symtab or not found.line:
        return None, None
    symtab = found.symtab
    statement = statements_of(symtab.fullname(), symtab.producer).get(found.line)
    return statement if found.pc == address else None, f"{pathlib.Path(symtab.filename).name}:{found.line}"


def labelled(text: str) -> str:
    """An answer of the machine with labels, and with statements in place of instructions."""

    def met(found: re.Match[str]) -> str:
        who, where, happening, digits = found.group("who", "address", "happening", "digits")
        address = int(where, 16)
        statement, line = source_at(address)
        # A line of GNU as reaches over the data behind it.
        if who != "cpu" and not statement:
            line = None
        if digits and statement and was_assembled(address, bytes.fromhex(digits)):
            happening = statement
        told_so = f"{who} at {where}{label_at(address)}"
        return " ".join(filter(None, [told_so, happening])) + (f"  {line}" if line else "")

    def with_label(found: re.Match[str]) -> str:
        return found[0] + label_at(int(found[1], 16))

    return BYTES.sub(with_label, LED_TO.sub(with_label, MET.sub(met, text)))


def standing() -> int:
    """How many changes stand."""
    return int(answer("standing").split()[1])


def show(text: str) -> None:
    gdb.write(labelled(text))
