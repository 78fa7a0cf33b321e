"""The holes of a card's columns: the card code of the 256 EBCDIC bytes (GA22-6821, Appendix F).

A column has the rows 12, 11, 0, 1 .. 9. A byte's left digit gives rows 12, 11, 0 and 9, and its right digit rows 1 to 8, but
for some bytes, which EXCEPTIONS has.
"""

ROWS = ("12", "11", "0", *"123456789")
# Of each left digit the rows for the right digits 1 to 7 (also 0 and 8, but for exceptions), and for 9 to F.
LEFT = ["12 9", "11 9", "0 9", "9", "12 0 9", "12 11 9", "11 0 9", "12 11 0 9"]
LEFT += ["12 0", "12 11", "11 0", "12 11 0", "12", "11", "0", ""]
HIGH = ["12 9", "11 9", "0 9", "9", "12", "11", "0", ""]
HIGH += ["12 0", "12 11", "11 0", "12 11 0", "12 0 9", "12 11 9", "11 0 9", "12 11 0 9"]
NINE = LEFT[8:12] + ["12", "11", "0", ""]
EXCEPTIONS = {
    0x00: "12 0 9 8 1", 0x10: "12 11 9 8 1", 0x20: "11 0 9 8 1", 0x30: "12 11 0 9 8 1",
    0x40: "", 0x50: "12", 0x60: "11", 0x70: "12 11 0",
    0x80: "12 0 8 1", 0x90: "12 11 8 1", 0xA0: "11 0 8 1", 0xB0: "12 11 0 8 1",
    0xC0: "12 0", 0xD0: "11 0", 0xE0: "0 8 2", 0xF0: "0",
    0x61: "0 1", 0xE1: "11 0 9 1", 0x6A: "12 11",
}  # fmt: skip


def rows_of(byte):
    """The rows that are punched for a byte, as words."""
    left, right = byte >> 4, byte & 15
    if byte in EXCEPTIONS:
        return EXCEPTIONS[byte].split()
    if right <= 8:
        return [*LEFT[left].split(), str(right)]
    if right == 9:
        return [*HIGH[left].split(), "8", "1"] if left < 8 else [*NINE[left - 8].split(), "9"]
    return [*HIGH[left].split(), "8", str(right - 8)]


def holes_of(byte):
    """The holes as bits, of which the lowest is row 12."""
    return sum(1 << ROWS.index(row) for row in rows_of(byte))


HOLES = [holes_of(byte) for byte in range(256)]
