#!/usr/bin/env python3
"""Makes a deck of 80-byte cards, on standard output or in a file that --out names.

    tools/media/make_deck.py ipl FILE       of an ELF, or of a flat image with --at: it loads itself, and starts
    tools/media/make_deck.py object FILE .. of object decks, which are linked: likewise; --elf FILE has their symbols for gdb
    tools/media/make_deck.py text FILE      a card for each line of an ASCII text

Addresses are hexadecimal. docs/reference/media.md says which bytes a load alters.
"""
import binutils
from common import CARD, Fault, carry_out, contents_of, ebcdic, parser_of, write
from loading import add_places, ipl_deck, judge, program_of
from objects import link


def deck_of_text(name):
    """A card for each line of a text."""
    cards = []
    for number, line in enumerate(contents_of(name).decode("latin-1").splitlines(), 1):
        place = f"{name}, line {number}"
        if len(line) > CARD:
            raise Fault(f"{place}: {len(line)} columns, and a card has {CARD}: break the line")
        cards.append(ebcdic(line.ljust(CARD), place))
    return b"".join(cards)


def options():
    parser = parser_of(__doc__)
    kinds = parser.add_subparsers(dest="kind", required=True, metavar="ipl|object|text")
    for kind, count in (("ipl", 1), ("object", "+"), ("text", 1)):
        words = kinds.add_parser(kind, allow_abbrev=False)
        words.add_argument("files", metavar="FILE", nargs=count)
        words.add_argument("--out", metavar="FILE", help="the deck; standard output unless given")
        if kind != "text":
            add_places(words)
        if kind == "object":
            words.add_argument("--elf", metavar="FILE", help="an ELF with the symbols of the object decks")
    return parser.parse_args()


def main():
    given = options()
    name = given.files[0]
    if given.kind == "text":
        write(given.out, deck_of_text(name))
        return
    if given.kind == "ipl":
        program = program_of(name, contents_of(name), given.at, given.start)
    else:
        program, symbols = link([(file, contents_of(file)) for file in given.files], given.at)
        if given.start is not None:
            program.start = given.start
    judge(name, program, given.loader)
    # No fault keeps one of the two from being written.
    elf = binutils.elf_of(program, symbols) if given.kind == "object" and given.elf else None
    write(given.out, ipl_deck(program, given.loader))
    if elf:
        write(given.elf, elf)


if __name__ == "__main__":
    carry_out(main)
