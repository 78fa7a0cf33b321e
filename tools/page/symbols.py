"""The labels and lines of a program: of an assembler's listing, or of an ELF file that GNU ld has linked."""
import bisect
import pathlib

import elf
from common import Fault, contents_of
from listing import Unreadable, form_of, statements
from listing_symbols import labels_of, placed


class Symbols:
    """The labels of a program in the order of addresses, and the lines of its source.

    A label is its address, name and size in bytes, and whether it is of code. A line is its number, from 1, among `lines`, with
    its address and what it says as a statement.
    """

    def __init__(self, file="", lines=(), labels=(), statements_at=()):
        self.file, self.lines = file, list(lines)
        self.labels = sorted(labels)
        self.statements = sorted(statements_at)
        self.addresses = [label[0] for label in self.labels]

    def label(self, address):
        """The last label at or before an address."""
        at = bisect.bisect_right(self.addresses, address) - 1
        return self.labels[at] if at >= 0 else None

    def named(self, address):
        """An address as a label and what is added to it, if one reaches there."""
        label = self.label(address)
        if label is None or address >= label[0] + max(label[2], 1):
            return ""
        return f"{label[1]}+{address - label[0]}" if address > label[0] else label[1]

    def statement(self, address):
        """What the source says at an address, with its line; of an address without a line nothing."""
        at = bisect.bisect_left(self.statements, (address,))
        if at < len(self.statements) and self.statements[at][0] == address:
            return self.statements[at]
        return None


def of_listing(name, contents, columns):
    text = contents.decode(errors="replace")
    try:
        found = sorted(placed(list(statements(text, columns))), key=lambda s: s.location)
    except Unreadable as fault:
        raise Fault(f"{name}: {fault}") from None
    if not found:
        raise Fault(f"{name}: no statement of this listing has a location: give another file as --symbols")
    labels = [(label.address, label.name, label.size, label.element is None) for label in labels_of(found)]
    told = [(s.location, s.line, f"{s.operation} {s.operands}".strip()) for s in found if s.code or s.operation == "DS"]
    return Symbols(name, sources_of(text, columns), labels, told)


def sources_of(text, columns):
    """Of each line of a listing what stands in the columns of its source; all of a line that has something else before them."""
    lines = [line.rstrip("\r").replace("\f", "") for line in text.removesuffix("\n").split("\n")]
    form = form_of([line.rstrip() for line in lines], columns)
    longest = max(map(len, lines), default=0)
    return [source_of(form.match(line.ljust(longest + 1)), line) for line in lines]


def source_of(found, line):
    is_statement = found and not (found["location"] + (found["code"] or "")).strip(" 0123456789ABCDEF")
    return (found["source"] if is_statement else line).rstrip()


def of_elf(name, contents):
    labels = elf.labels(name, contents)
    files = {}
    for file, line, address in elf.lines(contents):
        files.setdefault(file, []).append((address, line))
    # The source with the most statements; the others are what it includes.
    file = max(files, key=lambda file: len(files[file]), default=None)
    if file is None:
        return Symbols(name, (), labels)
    found = [path for path in (pathlib.Path(file), pathlib.Path(name).parent / pathlib.Path(file).name) if path.is_file()]
    if not found:
        return Symbols(name, (), labels)
    lines = found[0].read_text(errors="replace").removesuffix("\n").split("\n")
    told = [(address, line, lines[line - 1].strip()) for address, line in files[file] if line <= len(lines)]
    return Symbols(str(found[0]), lines, labels, told)


def read(name, columns=None):
    """The symbols of a file."""
    contents = contents_of(name)
    return of_elf(name, contents) if contents.startswith(b"\x7fELF") else of_listing(name, contents, columns)
