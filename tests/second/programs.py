"""Random media and channel programs: CAWs, and chains of CCWs from `CHAIN`.

Most of the programs are right, or wrong at one edge.
"""
from .channels import CONSOLE, PRINTER, PUNCH, READER, TAPES
from .core import BLOCK, SIZE
from .devices import CARD
from .tapes import FIRST, LAST, MARK, MIDDLE, TAPE_MARK, WHOLE, Tape, header

CHAIN = 0x400
MOST_WORDS = 6
COMMANDS = {
    READER: [0x02, 0x42, 0x82, 0xC2, 0x23, 0x63, 0xA3],
    PUNCH: [0x01, 0x41, 0x81],
    PRINTER: [0x01, 0x09, 0x11, 0x19, 0x0B, 0x13, 0x1B, 0x89, 0xD9, 0xE1, 0x8B, 0xDB, 0xE3],
    CONSOLE: [0x01, 0x09, 0x0A, 0x0A, 0x0B],
}
# A tape is mostly read, and seldom unloaded, which nothing undoes.
TAPE_COMMANDS = [0x01, 0x1F, 0x17, 0x07, 0x3F, 0x2F, *[0x02, 0x0C, 0x37, 0x27] * 2] * 4 + [0x0F]
COMMANDS |= {unit: TAPE_COMMANDS for unit in TAPES}
TRANSFERS = [0x08, 0x08, 0x08, 0xF8]
FLAGS = [0x00, 0x20, 0x40, 0x60, 0x40, 0x60, 0x60, 0x80, 0x80, 0x80, 0xA0, 0xC0, 0xE0, 0x10, 0x90]
FLAGS += [0x50, 0x08]
COUNTS = [1, 1, 2, 3, 39, 40, 77, 79, 80, 80, 81, 131, 132, 133, 255, 256, 257]


def address_word(some, size=SIZE):
    key = some.choice([0, 0, 0, 0x50]) | some.choice([0] * 19 + [1 << some.randrange(4)])
    word = CHAIN + 8 * some.choice([0, 0, 0, 0, 1, 2])
    at = some.choices([word, CHAIN + some.randrange(8), size - 8, size], [90, 4, 3, 3])[0]
    return bytes([key]) + at.to_bytes(3, "big")


def command_word(some, operands, unit, size=SIZE):
    if some.random() < 0.15:
        target = CHAIN + 8 * some.randrange(MOST_WORDS)
        targets = [target, target + some.randrange(8), size - 8, size]
        data, command = some.choices(targets, [90, 4, 3, 3])[0], some.choice(TRANSFERS)
    else:
        near = [operands + some.randrange(256), BLOCK - some.randrange(81)]
        far = [size - some.randrange(84), some.getrandbits(24)]
        data = some.choices([*near, *far], [80, 8, 8, 4])[0]
        others = COMMANDS[some.choice(list(COMMANDS))]
        commands = [*map(some.choice, (COMMANDS[unit], others)), 0x03, 0x04, some.getrandbits(8)]
        command = some.choices(commands, [50, 5, 15, 20, 10])[0]
    flags = some.choices([some.choice(FLAGS), some.getrandbits(8)], [95, 5])[0]
    count = some.choices([some.choice(COUNTS), some.getrandbits(16), 0], [90, 7, 3])[0]
    words = command << 24 | data, flags << 24 | some.getrandbits(8) << 16 | count
    return b"".join(word.to_bytes(4, "big") for word in words)


def chain(some, operands, unit, size=SIZE):
    count = some.randint(1, MOST_WORDS)
    return b"".join(command_word(some, operands, unit, size) for _ in range(count))


def initial_record(some):
    """A record that loading begins with: a PSW and two CCWs. The first may end the program."""
    count = some.choice([1, 80, 80, 400])
    flags = some.choice([0x00, 0x20, 0x20, 0x60])
    target = some.choice([0, 8, 0x200, 0x200])
    psw = some.choice([0, some.getrandbits(32)]) << 32 | 0x200
    words = psw, 0x02 << 56 | target << 32 | flags << 24 | count
    first = b"".join(word.to_bytes(8, "big") for word in words)
    return first + command_word(some, 0x600, READER)


def deck(some):
    """Cards of signs and of any bytes, with blanks at their end. At times some can be loaded."""
    cards = [card(some) for _ in range(some.choice([0, 1, 20, 200]))]
    if some.random() < 0.7:
        cards = [initial_record(some) if some.random() < 0.3 else record for record in cards]
    return [record.ljust(CARD, b"\x40") for record in cards]


def card(some):
    kinds = [bytes(range(0xC1, 0xCA)), bytes(range(0xF0, 0xFA)), bytes(range(256)), b"\x40"]
    return bytes(some.choice(some.choice(kinds)) for _ in range(some.randint(0, CARD)))


def tape(some):
    """Blocks, some of them long and some empty, and marks."""
    count = some.choice([0, 1, 5, 40])
    return Tape(recorded=tuple(item(some) for _ in range(count)), is_protected=some.random() < 0.2)


def item(some):
    if some.random() < 0.3:
        return MARK
    if some.random() < 0.3:
        return initial_record(some)
    return some.randbytes(some.choice([0, 1, 2, 39, 80, some.randrange(400)]))


def image(some, items):
    """A file of a tape, with blocks in parts, and with any numbers where none is checked."""
    return b"".join(
        header(len(part), some.getrandbits(16), flags, some.getrandbits(8)) + part
        for item in items
        for flags, part in parts(some, item)
    )


def parts(some, item):
    if item is MARK:
        return [(TAPE_MARK, b"")]
    cuts = sorted(some.randint(0, len(item)) for _ in range(some.choice([0, 0, 1, 2, 3])))
    ends = zip([0, *cuts], [*cuts, len(item)])
    flags = [FIRST, *[MIDDLE] * (len(cuts) - 1), LAST] if cuts else [WHOLE]
    return [(flag, item[start:end]) for flag, (start, end) in zip(flags, ends)]
