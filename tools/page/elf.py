"""The labels and lines of an ELF file of 32 bits with the high byte first (the ELF specification; DWARF 2 to 5, "Line Number
Information").
"""
import os
import struct

from common import Fault

SECTION_HEADER = struct.Struct(">10I")
SYMBOL = struct.Struct(">IIIBBH")
SYMBOL_TABLE, FIRST_RESERVED, MACHINE_S390, EXECUTABLE = 2, 0xFF00, 22, 2
LABEL_KINDS = (0, 1, 2)  # no type, data, code
CODE = 2
# Standard opcodes of a line program, and extended ones behind a zero.
COPY, ADVANCE_ADDRESS, ADVANCE_LINE, SET_FILE, CONSTANT_ADDRESS, FIXED_ADDRESS = 1, 2, 3, 4, 8, 9
END_SEQUENCE, SET_ADDRESS = 1, 2
# Forms of DWARF 5 that an entry of a file has, by their numbers.
STRING, LINE_STRP, STRP, UDATA, DATA1, DATA2, DATA4, DATA8, DATA16, BLOCK = 8, 0x1F, 0x0E, 0x0F, 0x0B, 5, 6, 7, 0x1E, 9
SIZES = {DATA1: 1, DATA2: 2, DATA4: 4, DATA8: 8, DATA16: 16}
PATH, DIRECTORY = 1, 2


class Reader:
    """Numbers and texts of a section, one behind another."""

    def __init__(self, contents, at=0):
        self.contents, self.at = contents, at

    def number(self, size):
        self.at += size
        return int.from_bytes(self.contents[self.at - size : self.at], "big")

    def signed(self):
        value, shift, byte = 0, 0, 0x80
        while byte & 0x80:
            byte = self.number(1)
            value, shift = value | (byte & 0x7F) << shift, shift + 7
        return value - (1 << shift) if byte & 0x40 else value

    def unsigned(self):
        value, shift, byte = 0, 0, 0x80
        while byte & 0x80:
            byte = self.number(1)
            value, shift = value | (byte & 0x7F) << shift, shift + 7
        return value

    def text(self):
        end = self.contents.index(b"\0", self.at)
        found, self.at = self.contents[self.at : end], end + 1
        return found.decode(errors="replace")


def sections(contents):
    """The header and the contents of each section, by its name."""
    at, count, names = struct.unpack_from(">I", contents, 32)[0], *struct.unpack_from(">HH", contents, 48)
    headers = [SECTION_HEADER.unpack_from(contents, at + 40 * number) for number in range(count)]
    parts = [contents[header[4] : header[4] + header[5]] for header in headers]
    return {Reader(parts[names], header[0]).text(): (header, part, parts) for header, part in zip(headers, parts)}


def checked(name, contents):
    """The sections of a linked file for s390."""
    kind, machine = struct.unpack_from(">HH", contents, 16) if len(contents) >= 52 else (0, 0)
    if contents[4:6] != b"\x01\x02" or machine != MACHINE_S390 or kind != EXECUTABLE:
        raise Fault(f"{name}: no linked ELF file of 32 bits for s390: see docs/reference/gdb.md, Symbols")
    return sections(contents)


def labels(name, contents):
    """The labels: address, name, size, and whether it is of code."""
    found = {}
    for header, part, parts in checked(name, contents).values():
        if header[1] == SYMBOL_TABLE:
            for text, address, size, info, _, section in SYMBOL.iter_unpack(part):
                label = Reader(parts[header[6]], text).text()
                if info & 15 in LABEL_KINDS and 0 < section < FIRST_RESERVED and label and not label.startswith("."):
                    found[address] = (label, size, info & 15)
    ends = sorted(found)[1:]
    behind = dict(zip(sorted(found), [*ends, max(found, default=0) + 1]))
    return [(at, label, size or behind[at] - at, kind == CODE) for at, (label, size, kind) in found.items()]


def lines(contents):
    """Of each line that has code its file, its number and the address where it begins."""
    parts = {name: part for name, (_, part, _) in sections(contents).items()}
    strings = {LINE_STRP: parts.get(".debug_line_str", b""), STRP: parts.get(".debug_str", b"")}
    reader = Reader(parts.get(".debug_line", b""))
    while reader.at < len(reader.contents):
        end = reader.number(4) + reader.at
        yield from unit_lines(reader, end, strings)
        reader.at = end


def unit_lines(reader, end, strings):
    """The lines of one unit, each where it begins."""
    version = reader.number(2)
    reader.at += 2 if version >= 5 else 0
    begin = reader.number(4) + reader.at
    reader.at += 3 if version >= 4 else 2
    base, span, first = (reader.number(1) ^ 0x80) - 0x80, reader.number(1), reader.number(1)
    lengths = [reader.number(1) for _ in range(first - 1)]
    files = files_of(reader, strings) if version >= 5 else old_files_of(reader)
    reader.at = begin
    told = None
    for file, line, address in rows(reader, end, base, span, first, lengths):
        if (file, line) != told and file < len(files):
            yield files[file], line, address
        told = file, line


def rows(reader, end, base, span, first, lengths):
    """The rows of a line program: file, line and address."""
    file, line, address = 1, 1, 0
    while reader.at < end:
        code = reader.number(1)
        if code >= first:
            address, line = address + (code - first) // span, line + base + (code - first) % span
            yield file, line, address
        elif code == 0:
            length = reader.unsigned()
            kind, behind = reader.number(1), reader.at + length - 1
            if kind == END_SEQUENCE:
                file, line, address = 1, 1, 0
            elif kind == SET_ADDRESS:
                address = reader.number(length - 1)
            reader.at = behind
        elif code == COPY:
            yield file, line, address
        elif code == ADVANCE_LINE:
            line += reader.signed()
        elif code == CONSTANT_ADDRESS:
            address += (255 - first) // span
        elif code == FIXED_ADDRESS:
            address += reader.number(2)
        else:
            words = [reader.unsigned() for _ in range(lengths[code - 1])]
            address += words[0] if code == ADVANCE_ADDRESS else 0
            file = words[0] if code == SET_FILE else file


def old_files_of(reader):
    """The files of DWARF 2 to 4, of which the first has number 1."""
    folders = [""]
    while folder := reader.text():
        folders.append(folder)
    files = [""]
    while file := reader.text():
        folder = reader.unsigned()
        reader.unsigned(), reader.unsigned()
        files.append(os.path.join(folders[folder], file))
    return files


def files_of(reader, strings):
    """The files of DWARF 5."""
    folders = [entry.get(PATH, "") for entry in entries(reader, strings)]
    return [os.path.join(folders[entry.get(DIRECTORY, 0)], entry.get(PATH, "")) for entry in entries(reader, strings)]


def entries(reader, strings):
    """The entries of a table, each by the numbers of its contents."""
    forms = [(reader.unsigned(), reader.unsigned()) for _ in range(reader.number(1))]
    return [{content: value_of(reader, form, strings) for content, form in forms} for _ in range(reader.unsigned())]


def value_of(reader, form, strings):
    if form == STRING:
        return reader.text()
    if form in strings:
        return Reader(strings[form], reader.number(4)).text()
    if form == UDATA:
        return reader.unsigned()
    if form == BLOCK:
        return reader.number(reader.unsigned())
    return reader.number(SIZES[form])
