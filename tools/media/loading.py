"""Programs, and the records by which they load themselves.

Initial program loading reads 24 bytes of the first record to 0: the PSW with which the program starts, and two command
words. These go on with command words that the next record puts into the loader's area. Each such record has eight words
for the program's own records, then one for the next record of words, and a transfer to the first of them. So the channel
loads all, and no instruction is executed before the program's own. Sources: GA22-6821, "Initial Program Loading"; the ELF
specification.
"""
import struct
from dataclasses import dataclass

from common import CARD, Fault, hexadecimal

LOADED_FIRST = 24
LOADER, WORDS_OF_A_RECORD = 0x80, 8
# A record of words has two more: that of the next record of words, and the transfer.
LOADER_BYTES = 8 * (WORDS_OF_A_RECORD + 2)
MOST_STORAGE = 1 << 20
READ, TRANSFER_IN_CHANNEL = 0x02, 0x08
SUPPRESS_LENGTH, CHAIN_COMMAND = 0x20, 0x40

ELF_MAGIC = b"\x7fELF"
THIRTY_TWO_BITS, HIGH_BYTE_FIRST, MACHINE_S390 = 1, 2, 22
RELOCATABLE = 1
NOBITS, ALLOCATED = 8, 2
ELF_HEADER = struct.Struct(">16x2HI3II6H")
SECTION_HEADER = struct.Struct(">10I")


@dataclass
class Program:
    """The runs of bytes of a program with their addresses, and the address of its first instruction."""

    runs: list[tuple[int, bytes]]
    start: int


def elf_sections(name, contents):
    """The entry of an ELF, and its sections that are in storage: name, address, bytes."""
    try:
        kind, machine, _, entry, _, table, *_, size, count, named = ELF_HEADER.unpack_from(contents)
        if contents[4:6] != bytes([THIRTY_TWO_BITS, HIGH_BYTE_FIRST]) or machine != MACHINE_S390:
            raise Fault(f"{name}: an ELF of another machine: assemble with s390x-linux-gnu-as -m31 -mesa")
        if kind == RELOCATABLE:
            raise Fault(f"{name}: it is not linked: link it with s390x-linux-gnu-ld -m elf_s390 -Ttext=200")
        headers = [SECTION_HEADER.unpack_from(contents, table + size * n) for n in range(count)]
        names = headers[named][4] if headers else 0
    except (struct.error, IndexError):
        raise Fault(f"{name}: it ends within the headers of an ELF: link it again") from None
    sections = []
    for label, kind, flags, address, offset, length, *_ in headers:
        if flags & ALLOCATED and length:
            # A length that no storage has is for `judge` to find.
            length = min(length, MOST_STORAGE + 1)
            section = bytes(length) if kind == NOBITS else contents[offset : offset + length]
            if len(section) < length:
                raise Fault(f"{name}: it ends within the section at {address:06X}: link it again")
            at = names + label
            text = contents[at : contents.find(b"\0", at)].decode("ascii", "replace")
            sections.append((text, address, section))
    return entry, sections


def program_of(name, contents, at=None, start=None):
    """The program of an ELF, whose sections say where they are, or of a flat image."""
    if not contents.startswith(ELF_MAGIC):
        if at is None:
            raise Fault(f"{name}: a flat image, which does not say where it goes: give --at")
        return Program([(at, contents)], at if start is None else start)
    if at is not None:
        raise Fault(f"{name}: an ELF says where it goes: leave --at out")
    entry, sections = elf_sections(name, contents)
    runs = [(address, section) for _, address, section in sections]
    return Program(runs, entry if start is None else start)


def judge(name, program, loader):
    """Finds what keeps a program from being loaded."""
    if not any(run for _, run in program.runs):
        raise Fault(f"{name}: it has no bytes to load")
    if loader % 8 or not LOADED_FIRST <= loader <= MOST_STORAGE - LOADER_BYTES:
        raise Fault(f"--loader {loader:X}: give a multiple of 8 from 18 to {MOST_STORAGE - LOADER_BYTES:X}")
    areas = [
        (0, LOADED_FIRST, "initial program loading reads 24 bytes to 0: move the program"),
        (loader, loader + LOADER_BYTES, "the loader's area is there: give --loader another address"),
    ]
    end = 0
    for at, run in sorted(program.runs):
        if at + len(run) > MOST_STORAGE:
            raise Fault(f"{name}: it ends at {at + len(run):06X}, and storage at {MOST_STORAGE:06X} at most: move it")
        if at < end:
            raise Fault(f"{name}: two sections are at {at:06X}: link them apart")
        for first, behind, why in areas:
            if at < behind and first < at + len(run):
                raise Fault(f"{name}: it has bytes at {max(at, first):06X}, and {why}")
        end = at + len(run)
    if program.start % 2 or program.start >= MOST_STORAGE:
        raise Fault(f"{name}: no instruction can be at {program.start:06X}: give --start")


def command_word(code, at, flags, count):
    return struct.pack(">IBxH", code << 24 | at, flags, count)


def records_of(program, loader, most):
    """The records that load a program, each of whose own has at most so many bytes."""
    parts = [
        (at + offset, run[offset : offset + most])
        for at, run in program.runs
        for offset in range(0, len(run), most)
    ]
    transfer = command_word(TRANSFER_IN_CHANNEL, loader, 0, 1)
    more = command_word(READ, loader, CHAIN_COMMAND | SUPPRESS_LENGTH, LOADER_BYTES)
    yield struct.pack(">II", 0, program.start) + more + transfer
    for first in range(0, len(parts), WORDS_OF_A_RECORD):
        group = parts[first : first + WORDS_OF_A_RECORD]
        is_last = first + WORDS_OF_A_RECORD >= len(parts)
        flags = [CHAIN_COMMAND] * (len(group) - is_last) + [0] * is_last
        words = b"".join(
            command_word(READ, at, flag | SUPPRESS_LENGTH, len(part))
            for (at, part), flag in zip(group, flags)
        )
        # The transfer is the word that follows the one by which this record is read.
        yield words.ljust(LOADER_BYTES - 16, b"\0") + (bytes(8) if is_last else more) + transfer
        yield from (part for _, part in group)


def ipl_deck(program, loader):
    return b"".join(record.ljust(CARD, b"\0") for record in records_of(program, loader, CARD))


def add_loader(words):
    """The word of a command line that says where the loader's area is."""
    help_text = f"the loader's {LOADER_BYTES} bytes; {LOADER:X} unless given"
    words.add_argument("--loader", metavar="A", type=hexadecimal, default=LOADER, help=help_text)


def add_places(words):
    """The words that say where a program goes."""
    words.add_argument("--at", metavar="A", type=hexadecimal, help="where a flat image, or the first section, goes")
    words.add_argument("--start", metavar="A", type=hexadecimal, help="the first instruction, if the file does not say it")
    add_loader(words)
