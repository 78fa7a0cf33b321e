#!/usr/bin/env python3
"""Makes a tape file in the format AWSTAPE, on standard output or in a file that --out names.

    tools/media/make_tape.py blocks LENGTH FILE ..    each file in blocks of LENGTH bytes, and a mark behind it
    tools/media/make_tape.py simh FILE                the blocks and marks of a tape in SIMH's format
    tools/media/make_tape.py ipl FILE                 of an ELF, or of a flat image with --at: it loads itself, and starts

The last block of a file has the bytes that are left. Addresses are hexadecimal.
"""
import argparse

from common import carry_out, contents_of, parser_of, write
from loading import add_places, judge, program_of, records_of
from tapes import MOST_BYTES, items_of_simh, written


def length_of_block(digits):
    if not digits.isdecimal() or not 1 <= int(digits) <= MOST_BYTES:
        raise argparse.ArgumentTypeError(f"{digits!r} is no length of a block: give 1 to {MOST_BYTES}")
    return int(digits)


def blocks(length, names):
    """The blocks of files, with a mark behind each file."""
    for contents in map(contents_of, names):
        yield from (contents[at : at + length] for at in range(0, len(contents), length))
        yield None


def ipl_blocks(name, given):
    program = program_of(name, contents_of(name), given.at, given.start)
    judge(name, program, given.loader)
    return [*records_of(program, given.loader, MOST_BYTES), None]


def main():
    parser = parser_of(__doc__)
    kinds = parser.add_subparsers(dest="kind", required=True, metavar="blocks|simh|ipl")
    for kind, count in (("blocks", "+"), ("simh", 1), ("ipl", 1)):
        words = kinds.add_parser(kind, allow_abbrev=False)
        if kind == "blocks":
            words.add_argument("length", metavar="LENGTH", type=length_of_block)
        words.add_argument("files", metavar="FILE", nargs=count)
        words.add_argument("--out", metavar="FILE", help="the tape; standard output unless given")
        if kind == "ipl":
            add_places(words)
    given = parser.parse_args()
    name = given.files[0]
    match given.kind:
        case "blocks":
            items = blocks(given.length, given.files)
        case "simh":
            items = items_of_simh(name, contents_of(name))
        case _:
            items = ipl_blocks(name, given)
    write(given.out, b"".join(written(items)))


if __name__ == "__main__":
    carry_out(main)
