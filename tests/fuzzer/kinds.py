"""The kinds of sessions. Each makes a sitting of some cases from a source of random numbers."""
from second.channels import CONSOLE, CSW, PRINTER, READER, START, TAPES, UNITS, Program
from second.core import BLOCK
from second.devices import SIGNS
from second.lines import LONGEST_LINE
from second.programs import COMMANDS
from second.tapes import LONGEST_BLOCK, READ, REWIND

from . import media
from .lines import INSTRUCTION, Lines
from .media import CHAIN, OPERANDS, WORDS, Media
from .sessions import CHUNK

# Of the address space, in megabytes.
LIMITS = (64, 64, 64, 80, 96, 128, 256, 512)
MEGABYTE = 1 << 20
# So many cases are one session, where they share its media.
CASES_OF_PROGRAMS, CASES_OF_BYTES, CASES_OF_LINES = 6, 4, 4
# Commands of the printer that print and space, or only space.
SPACES = (0x01, 0x09, 0x11, 0x19, 0x0B, 0x13, 0x1B)
KEY = 3
TRANSFER = 0x08
# What a word of a line is put into.
OTHER_WORDS = (b"0", b"10000001", b"0000001", b"G", b"1F", b"-1", b"*", b"\t")


def decks(some):
    """Decks of the reader: whole cards, and files that end within a card. One case."""
    sitting = Lines(some, Media(media.size(some), media.deck_file(some)))
    if not sitting.fault:
        sitting.use_medium(READER)
    sitting.take_back()
    return sitting


def tapes(some):
    """Files of tapes, right and spoilt and of any bytes. One case."""
    files = None, media.tape_file(some), some.choice([None, media.tape_file(some)])
    protects = some.random() < 0.2, some.random() < 0.2
    sitting = Lines(some, Media(media.size(some), *files, *protects))
    if not sitting.fault:
        for unit in TAPES:
            sitting.use_medium(unit)
    sitting.take_back()
    return sitting


def make_cases(sitting, count, make_case):
    """So many cases, each of which is taken back."""
    for _ in range(count):
        make_case(sitting)
        sitting.take_back()


def programs(some):
    """Channel programs that overwrite themselves, of any units beside each other."""
    sitting = Lines(some, media.media(some))
    make_cases(sitting, CASES_OF_PROGRAMS, programs_case)
    sitting.finish()
    return sitting


def programs_case(sitting):
    some, size = sitting.random, sitting.media.storage
    units = some.sample(UNITS, some.choice([1, 1, 1, 2, 2, 3, 6]))
    words = [media.command_word(some, some.choice(units), size) for _ in range(WORDS)]
    keys = [0]
    if some.random() < 0.2:
        # A read from one block of storage to the next, of which one has a key.
        keys = [0, KEY, KEY, KEY]
        command = some.choice(COMMANDS[units[0]])
        words[0] = media.word_of(command, BLOCK - some.randrange(40), 0x60, some.choice([20, 40]))
        at = some.choice([CHAIN, CHAIN, BLOCK, size - 1])
        sitting.say(f"patch k {at:X} {some.choice([0, KEY, KEY])}")
        sitting.say(f"patch f {at:X} {some.randrange(2)}")
    sitting.patch_bytes(CHAIN, b"".join(words))
    if some.random() < 0.3:
        sitting.patch_bytes(CSW, some.randbytes(8))
    if CONSOLE in units:
        sitting.say(f"enter {sitting.line()}".rstrip())
    for unit in units:
        ends = [CHAIN + 8 * some.randrange(WORDS), CHAIN + some.randrange(64), size - 8, size]
        at = some.choices([CHAIN, *ends], [60, 30, 3, 4, 3])[0]
        sitting.start_program(unit, some.choice(keys), at)
    if some.random() < 0.03:
        turn_pages(sitting)
        units.append(PRINTER)
    for _ in range(some.randint(2, 8)):
        program_line(sitting, units)
    sitting.say(f"show s {CHAIN:X} {8 * WORDS}")
    sitting.say(f"show s {CSW:X} 8")
    for unit in some.sample(units, min(len(units), 2)):
        sitting.show_unit(unit)
        sitting.say(f"last d {unit:X}")


def turn_pages(sitting):
    """Lines printed and spaced in a circle, up to the last lines of a page."""
    some = sitting.random
    codes = [some.choice(SPACES) for _ in range(some.randint(1, 3))]
    words = [media.word_of(code, OPERANDS, 0x60, some.randint(1, 9)) for code in codes]
    sitting.patch_bytes(CHAIN, b"".join([*words, media.word_of(TRANSFER, CHAIN, 0, 0)]))
    sitting.start_program(PRINTER)
    sitting.say(f"run {some.randint(20, 80)}")


def program_line(sitting, units):
    some = sitting.random
    active = sitting.units_with(Program)
    kind = some.random()
    if kind < 0.6:
        sitting.say(f"channel {some.choice(active or units):X}")
    elif kind < 0.67:
        sitting.say(f"run {some.choice([1, 3, 10, 30])}")
    elif kind < 0.75 and sitting.is_standing():
        sitting.say("back")
    elif kind < 0.92:
        sitting.start_program(some.choice(UNITS), code=START + some.randrange(4))
    else:
        sitting.say(sitting.any_line())


def spoilt_line(some, line):
    """A line of which something is other than right."""
    at = some.randrange(len(line) + 1)
    words = line.split(b" ")
    number = some.randrange(len(words))
    kind = some.randrange(10)
    if kind == 0:
        return line.swapcase()
    if kind == 1:
        return line[:at] + bytes([some.getrandbits(8)]) + line[at:]
    if kind == 2:
        return line[:at] + line[at + 1 :]
    if kind == 3:
        return line[:at] + b" " * some.choice([1, 2, 5]) + line[at:]
    if kind == 4:
        return b" ".join(words[:number] + words[number + 1 :])
    if kind == 5:
        return b" ".join([*words[:number], some.choice(words), *words[number:]])
    if kind == 6:
        words[number] = some.choice(OTHER_WORDS)
        return b" ".join(words)
    if kind == 7:
        words[number] += some.choice([b"0", b"0" * 8, b"\r", b"\0", b"x", words[number]])
        return b" ".join(words)
    if kind == 8:
        return some.choice([b"*", b" *", b"\r", b"\t", b"\xef\xbb\xbf"]) + line
    end = some.choice([LONGEST_LINE - 1, LONGEST_LINE, LONGEST_LINE + 1, 5_000])
    return some.choice([line.ljust(end), line.rjust(end), line.ljust(end, b"0")])


def line_of_bytes(sitting):
    some = sitting.random
    line = sitting.any_line().encode()
    kind = some.random()
    if kind < 0.55:
        line = spoilt_line(some, line)
    elif kind < 0.7:
        line = some.randbytes(some.choice([0, 1, 3, some.randrange(40)]))
    elif kind < 0.75:
        line = some.choice([b"", b" ", b" " * 2_000, b"*" + some.randbytes(9), b"*" * 2_000])
    elif kind < 0.78:
        count = some.choice([255, 256, 257, LONGEST_LINE - 6, LONGEST_LINE - 5])
        line = b"enter " + some.choice(SIGNS).encode() * count
    elif kind < 0.81:
        line = b"enter " + some.randbytes(3)
    return line + b"\r" * some.choice([0, 0, 0, 0, 1, 2])


def texts(some):
    """Scripts of bytes: lines that are nearly right, and lines of any bytes."""
    sitting = Lines(some, Media(media.LEAST, media.deck(some)))
    make_cases(sitting, CASES_OF_BYTES, texts_case)
    sitting.finish(line_of_bytes(sitting).replace(b"\n", b""))
    return sitting


def texts_case(sitting):
    for _ in range(sitting.random.randint(4, 16)):
        sitting.say(line_of_bytes(sitting))


def lines(some):
    """Scripts of right lines, over storage of the least and the most bytes and of some between."""
    sitting = Lines(some, media.media(some))
    make_cases(sitting, CASES_OF_LINES, lines_case)
    sitting.finish()
    return sitting


def lines_case(sitting):
    some = sitting.random
    for _ in range(some.randint(2, 10)):
        sitting.say(sitting.any_line())
    if some.random() < 0.01:
        sitting.set_breakpoints()
    if some.random() < 0.2:
        sitting.visit_breakpoint()
    if some.random() < 0.05:
        sitting.case()
    for _ in range(some.randint(1, 4)):
        sitting.try_instruction()
    for _ in range(some.randint(0, 4)):
        sitting.say(sitting.any_line())


def memory(some):
    """Sessions that take much memory, under a limit of the address space. One case."""
    limit = some.choice(LIMITS) * MEGABYTE
    tape0, tape1, reader = media.two_blocks(some), media.ballast(some, limit), None
    if some.random() < 0.3:
        reader = media.card_ballast(some, limit)
    storage = some.choice([65_536 * 4, media.MOST])
    sitting = Lines(some, Media(storage, reader, tape0, tape1), limit)
    parts = [run_exclusive_ors, sound_alarms, read_blocks, show_image, show_image]
    run_additions(sitting)
    for _ in range(some.randint(1, 3)):
        some.choice(parts)(sitting)
    sitting.take_back()
    return sitting


def run_loop(sitting, instructions, count):
    """Instructions and a branch back to them, for so many events."""
    branch = bytes([0x47, 0xF0]) + INSTRUCTION.to_bytes(2, "big")
    sitting.put_instruction(bytes.fromhex(instructions) + branch)
    sitting.say(f"run {count}")


def run_additions(sitting):
    sitting.say("patch r 2 1")
    run_loop(sitting, "1A12", sitting.random.choice([1_000, 10_000]))


def run_exclusive_ors(sitting):
    sitting.patch_bytes(0x700, b"\xff" * CHUNK)
    run_loop(sitting, "D7FF06000700", sitting.random.choice([200, 1_000]))


def run_circle(sitting, unit, words, count):
    """A channel program that goes in a circle, for so many events, and its end by the reset key."""
    words = [*words, media.word_of(TRANSFER, CHAIN, 0, 0)]
    sitting.patch_bytes(CHAIN, b"".join(words))
    sitting.start_program(unit)
    for line in (f"run {count}", "key reset", "key start"):
        sitting.say(line)


def sound_alarms(sitting):
    words = [media.word_of(0x0B, 0, 0x60, 1)]
    run_circle(sitting, CONSOLE, words, sitting.random.choice([500, 3_000]))


def read_blocks(sitting):
    """Two long blocks of tape to one place, and a rewind."""
    words = [media.word_of(READ, 0x10000, 0x60, LONGEST_BLOCK)] * 2
    words.append(media.word_of(REWIND, 0, 0x60, 1))
    run_circle(sitting, TAPES[0], words, sitting.random.choice([3, 10]))


def show_image(sitting):
    sitting.say(f"show image {sitting.random.choice(TAPES):X}")


KINDS = {kind.__name__: kind for kind in (decks, tapes, programs, texts, lines, memory)}
# For how many cases of other kinds one stands, if it is not for one.
WEIGHTS = {memory.__name__: 200}
