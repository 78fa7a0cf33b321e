"""What the tools for decks and tapes share: faults, files, numbers, and the signs of EBCDIC bytes."""
import argparse
import os
import pathlib
import string
import sys

CARD, BLANK = 80, b"\x40"
# Those of docs/reference/devices.md. Code page 037 has them, and more.
SIGNS = frozenset(string.ascii_letters + string.digits + " .<(+|&!$*);-/,%_>?:#@'=\"")


class Fault(Exception):
    """What is wrong with an input, in one line that names the file and the place."""


def ebcdic(text, place):
    """The EBCDIC bytes of a text. A fault names the place of the text."""
    for column, sign in enumerate(text, 1):
        if sign not in SIGNS:
            raise Fault(f"{place}, column {column}: {sign!a} has no EBCDIC sign: replace it")
    return text.encode("cp037")


def text_of(contents):
    """Bytes as signs, with a period for a byte that has none, and without the blanks at the end."""
    signs = (sign if sign in SIGNS else "." for sign in contents.decode("cp037"))
    return "".join(signs).rstrip()


def parser_of(text):
    """A parser of command lines, whose help is a tool's own text."""
    return argparse.ArgumentParser(
        description=text, formatter_class=argparse.RawTextHelpFormatter, allow_abbrev=False
    )


def hexadecimal(digits):
    """An address on a command line."""
    try:
        return int(digits, 16)
    except ValueError:
        raise argparse.ArgumentTypeError(f"{digits!r} is no hexadecimal address") from None


def contents_of(name):
    return pathlib.Path(name).read_bytes()


def write(name, contents):
    """Writes a file whole, or leaves the one that is there. Without a name it is standard output."""
    if name is None:
        sys.stdout.buffer.write(contents)
        sys.stdout.flush()
        return
    path = pathlib.Path(name).resolve()
    written = path.with_name(f".{path.name}.{os.getpid()}")
    try:
        if path.exists() and not path.is_file():
            path.write_bytes(contents)
            return
        written.write_bytes(contents)
        written.replace(path)
    except OSError as fault:
        written.unlink(missing_ok=True)
        raise Fault(f"{name}: {fault.strerror}") from None


def carry_out(main):
    """Ends with status 1 and the line of a fault."""
    try:
        main()
    except Fault as fault:
        sys.exit(str(fault))
    except OSError as fault:
        sys.exit(f"{fault.filename or 'standard output'}: {fault.strerror}")
