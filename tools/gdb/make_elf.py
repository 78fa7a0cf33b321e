#!/usr/bin/env python3
"""Makes the file that gdb is given for the machine: what gdb has to know of every address, and the symbols of a program.

    tools/gdb/make_elf.py FILE [--symbols FILE] [--listing-columns COLUMNS] [WORD ..]

The words are those of s360gdb's command line, of which `--storage` tells the size of storage. FILE is an ELF file of 32 bits for
s390, with the high byte first, whose one frame description covers all 16 megabytes. Its return address is undefined, so
that each frame is the outermost: else `stepi`, `nexti`, `until` and `set var $pc` fail, since gdb looks for a caller by
the rules of a later system. Without symbols its one section has the size of storage.

The file of the symbols is an ELF file that GNU ld made for s390, or an assembler's listing, as listing.py says. Sources:
the ELF specification; DWARF 3.
"""
import argparse
import struct
import subprocess
import sys
import tempfile
from pathlib import Path
from typing import NoReturn

from listing import Unreadable
from listing_symbols import assembly_of

ADDRESSES, STORAGE = 1 << 24, 65536
RETURN_ADDRESS, STACK_POINTER = 14, 15
DW_CFA_UNDEFINED, DW_CFA_DEF_CFA = 0x07, 0x0C
PROGBITS, NOBITS, STRTAB = 1, 8, 3
ALLOC_AND_EXECUTE = 6
ELF_HEADER, SECTION_HEADER = 52, 40
ELF, HIGH_BYTE_FIRST = b"\x7fELF", 2
RELOCATABLE, EXECUTABLE, MACHINE_S390 = 1, 2, 22
TOOLS = "s390x-linux-gnu-"


def entry(body):
    """An entry of a frame section, filled up to words, behind its length."""
    body += bytes(-len(body) % 4)
    return struct.pack(">I", len(body)) + body


def frames():
    """The section of frames: one common entry, and one description of all addresses."""
    common = struct.pack(">I", 0xFFFFFFFF)
    # Version 1, no augmentation, code aligned to 1, data to -4, the return address in register 14.
    common += bytes([1, 0, 1, 0x7C, RETURN_ADDRESS])
    common += bytes([DW_CFA_DEF_CFA, STACK_POINTER, 0, DW_CFA_UNDEFINED, RETURN_ADDRESS])
    return entry(common) + entry(struct.pack(">III", 0, 0, ADDRESSES))


def elf(storage):
    """The file of a machine with so many bytes of storage."""
    names = b"\0.debug_frame\0.shstrtab\0.text\0"
    described = frames()
    headers = ELF_HEADER + len(described) + len(names)
    headers += -headers % 4

    def section(name, kind, flags, offset, size, align):
        return struct.pack(">10I", names.index(name), kind, flags, 0, offset, size, 0, 0, align, 0)

    sections = [
        bytes(SECTION_HEADER),
        section(b".debug_frame", PROGBITS, 0, ELF_HEADER, len(described), 4),
        section(b".text", NOBITS, ALLOC_AND_EXECUTE, ELF_HEADER, storage, 4),
        section(b".shstrtab", STRTAB, 0, ELF_HEADER + len(described), len(names), 1),
    ]
    # 32 bits, high byte first, version 1, System V.
    identity = ELF + bytes([1, HIGH_BYTE_FIRST, 1, 0]) + bytes(8)
    header = identity + struct.pack(
        ">HHIIIIIHHHHHH",
        *(EXECUTABLE, MACHINE_S390, 1, 0, 0, headers, 0),
        *(ELF_HEADER, 0, 0, SECTION_HEADER, len(sections), len(sections) - 1),
    )
    return (header + described + names).ljust(headers, b"\0") + b"".join(sections)


def run(tool: str, *words: str | Path) -> None:
    """Runs one of the GNU binutils for s390."""
    try:
        done = subprocess.run([TOOLS + tool, *words], capture_output=True, text=True)
    except FileNotFoundError:
        sys.exit(f"{TOOLS}{tool}: not installed: type tools/setup gdb")
    if done.returncode:
        sys.exit(done.stderr.partition("\n")[0])


def look_at(symbols: str, header: bytes) -> None:
    """Ends if an ELF file is not a linked one for s390."""
    if len(header) < ELF_HEADER:
        sys.exit(f"{symbols}: the ELF header ends after {len(header)} bytes")
    kind, machine = struct.unpack_from(">HH", header, 16)
    if header[5] != HIGH_BYTE_FIRST or machine != MACHINE_S390:
        sys.exit(f"{symbols}: an ELF file of another machine: assemble it by {TOOLS}as -m31 -g")
    if kind == RELOCATABLE:
        sys.exit(f"{symbols}: not linked: type {TOOLS}ld -m elf_s390 -Ttext=0 -e 0 -o FILE {symbols}")


def elf_with(symbols: str, columns: str | None) -> bytes:
    """The file of a machine whose program has these symbols."""
    contents = Path(symbols).read_bytes()
    with tempfile.TemporaryDirectory() as name:
        folder = Path(name)
        linked = Path(symbols)
        if contents.startswith(ELF):
            look_at(symbols, contents[:ELF_HEADER])
        else:
            try:
                assembly = assembly_of(symbols, contents.decode(errors="replace"), columns)
            except Unreadable as fault:
                sys.exit(f"{symbols}: {fault}")
            linked = folder / "linked"
            (folder / "listing.s").write_text(assembly)
            run("as", "-m31", "-o", folder / "listing.o", folder / "listing.s")
            run("ld", "-m", "elf_s390", "-Ttext=0", "-e", "0", "-o", linked, folder / "listing.o")
        (folder / "frames").write_bytes(frames())
        own = ["--remove-section=.debug_frame", "--remove-section=.eh_frame"]
        added = ["--add-section", f".debug_frame={folder / 'frames'}"]
        # gdb takes a file of 64 bits for another machine.
        run("objcopy", *own, *added, "--output-target=elf32-s390", linked, folder / "merged")
        return (folder / "merged").read_bytes()


class Parser(argparse.ArgumentParser):
    """Tells a fault in one line."""

    def error(self, message: str) -> NoReturn:
        sys.exit(f"{self.prog}: {message}")


def main():
    parser = Parser(usage=__doc__.split("\n")[2].strip(), allow_abbrev=False)
    parser.add_argument("file", metavar="FILE")
    parser.add_argument("--symbols")
    parser.add_argument("--listing-columns")
    parser.add_argument("--storage", type=int, default=STORAGE)
    options, _others = parser.parse_known_args()
    if options.listing_columns and options.symbols is None:
        parser.error("argument --listing-columns: there is no --symbols")
    try:
        made = elf(options.storage)
        if options.symbols is not None:
            made = elf_with(options.symbols, options.listing_columns)
        Path(options.file).write_bytes(made)
    except OSError as fault:
        sys.exit(f"{fault.filename}: {fault.strerror}")


if __name__ == "__main__":
    main()
