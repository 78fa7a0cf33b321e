#!/usr/bin/env python3
"""Looks that the listings of assemblers are read: their statements, and the labels that gdb is given.

    tests/listings.py

The columns of each form are those that its assembler prints. The last line says how many looks passed.
"""
import pathlib
import sys

import tally

sys.path.insert(0, str(pathlib.Path(__file__).resolve().parent.parent / "tools/gdb"))
import listing  # noqa: E402
from listing_symbols import assembly_of, labels_of, placed  # noqa: E402

OWN = """\
* A program
000200                           ORG   X'200'
000200 41100210         START    LA    1,FIELD              remark
000204 D20302100214              MVC   FIELD,OTHER

000210 00000005         FIELD    DC    F'5'
000214                  OTHER    DS    4
                        CAW      EQU   72
"""
ASSEMBLER_F = """\
\f                                                                                                       PAGE    2

  LOC  OBJECT CODE    ADDR1 ADDR2  STMT   SOURCE STATEMENT                                    F01MAY72  11/29/70

                                      1 * A PROGRAM
000200                                2 PROG     START X'200'
000200 05C0                           3          BALR  12,0
000202                                4          USING *,12
                            00003     5=R3       EQU   3
                                      6          SAVE  (14,12)
000202 90EC D00C            0000C     7+         STM   14,12,12(13)
000206 D203 C00A C00E 0020C 00210     8 MOVE     MVC   FIELD,OTHER           A REMARK
00020C 00000005                       9 FIELD    DC    F'5'
000210                               10 OTHER    DS    CL4
000218 0002000000000BAD              11 STOP     DC    X'0002000000000BAD'
000220                               12 CARD     DS    0CL80
000220                               13 NUMBER   DS    CL6
000226                               14          DS    CL74
000270 4040404040404040              15 BLANKS   DC    CL20' '
000284 C1C2C3C4C5C6C7C8              16 TEXT     DC    C'ABCDEFGHIJ'
000290 00000001                      17 TWO      DC    2F'1'
000298                               18 SAVE     DS    18F
0002E0                               15 LOOP     EQU   *
0002E0 07FE                          16          BR    14
000000                               17 AREA     DSECT
000000                               18 NEXT     DS    F
                                     19          END
"""
Z390 = """\
000200                                       (1/3)3 DEMO     CSECT
000200 90ECD00C              00000C          (2/77)5+         STM   14,12,12(13)
000204 D203020A020E   00020A 00020E          (1/6)6 MOVE     MVC   FIELD(4),OTHER
00020A 00000005                              (1/7)7 FIELD    DC    F'5'
00020E C1C2C3C4                              (1/8)8 OTHER    DC    C'ABCD'
"""
ASMA = """\
    LOC      OBJECT CODE      ADDR1     ADDR2    STMT

                                                    1 *  A PROGRAM
00000200  41100210                     00000210     2 START    LA    1,FIELD
00000204  D20302100214      00000210   00000214     3          MVC   FIELD(4),OTHER
00000210  00000005                                  4 FIELD    DC    F'5'
00000214  C1C2C3C4                                  5 OTHER    DC    C'ABCD'
"""
TOLD = """\
1 00200 4110 0210 START LA 1,FIELD
2 00210 00000005  FIELD DC F'5'
"""
# Of each listing the columns that are told, and the line, location, code, label and operation of statements.
STATEMENTS = [
    ("the examples' form", OWN, None, [(3, 0x200, "41100210", "START", "LA"), (4, 0x204, "D20302100214", "", "MVC")]),
    ("assembler F", ASSEMBLER_F, None, [(7, 0x200, "05C0", "", "BALR"), (9, None, "", "R3", "EQU")]),
    ("a macro of F", ASSEMBLER_F, None, [(11, 0x202, "90ECD00C", "", "STM")]),
    ("addresses of F", ASSEMBLER_F, None, [(12, 0x206, "D203C00AC00E", "MOVE", "MVC")]),
    ("a long constant of F", ASSEMBLER_F, None, [(15, 0x218, "0002000000000BAD", "STOP", "DC")]),
    ("z390", Z390, None, [(2, 0x200, "90ECD00C", "", "STM"), (3, 0x204, "D203020A020E", "MOVE", "MVC")]),
    ("ASMA", ASMA, None, [(4, 0x200, "41100210", "START", "LA"), (7, 0x214, "C1C2C3C4", "OTHER", "DC")]),
    ("columns", TOLD, "3-7,9-17,19", [(1, 0x200, "41100210", "START", "LA"), (2, 0x210, "00000005", "FIELD", "DC")]),
]
# Of each listing the names, addresses, sizes and types of labels.
LABELS = [
    ("the examples' form", OWN, [("START", 0x200, 16, None), ("FIELD", 0x210, 4, "int"), ("OTHER", 0x214, 4, "byte")]),
    ("code of F", ASSEMBLER_F, [("PROG", 0x200, 6, None), ("MOVE", 0x206, 6, None), ("LOOP", 0x2E0, 2, None)]),
    ("fields of F", ASSEMBLER_F, [("FIELD", 0x20C, 4, "int"), ("OTHER", 0x210, 4, "char"), ("STOP", 0x218, 8, "byte")]),
    ("constants that are printed in part", ASSEMBLER_F, [("BLANKS", 0x270, 20, "char"), ("TEXT", 0x284, 12, "char")]),
    ("fields of words", ASSEMBLER_F, [("SAVE", 0x298, 72, "int")]),
    ("a field over others", ASSEMBLER_F, [("CARD", 0x220, 80, "char"), ("NUMBER", 0x220, 6, "char")]),
]
FAULTS = [
    ("no form", "START LA 1,2\n", None, "the columns of this listing are not known: tell them as in --listing-columns 1-6,8-23,25"),
    ("an empty file", "", None, "the columns of this listing are not known: tell them as in --listing-columns 1-6,8-23,25"),
    ("other columns", OWN, "6-1,8-23,25", "the columns '6-1,8-23,25' are not of the form 1-6,8-23,25"),
    ("columns too far on", OWN, "1-6,8-23,2500", "the columns '1-6,8-23,2500' are not of the form 1-6,8-23,25"),
    ("no location", OWN, "40-45,50-60,70", "no statement of this listing has a location"),
    ("a high location", "1000000 07FE  BR 14\n", "1-7,9-12,14", "line 1: the location 1000000 is above FFFFFF"),
]


def fault_of(text, columns):
    try:
        assembly_of("a.listing", text, columns)
    except listing.Unreadable as fault:
        return str(fault)
    return ""


def main():
    wrong, looks = [], 0
    for name, text, columns, wanted in STATEMENTS:
        found = {s.line: s for s in listing.statements(text, columns)}
        got = [(s.line, s.location, s.code.hex().upper(), s.label, s.operation) for s in map(found.get, (w[0] for w in wanted))]
        looks += 1
        wrong += [] if got == wanted else [f"{name}: it has to be {wanted}, and is {got}"]
    for name, text, wanted in LABELS:
        found = {label.name: label for label in labels_of(list(placed(listing.statements(text))))}
        got = [(w[0], found[w[0]].address, found[w[0]].size, found[w[0]].element) for w in wanted]
        looks += 1
        wrong += [] if got == wanted and not {"R3", "AREA", "NEXT", "CAW"} & {*found} else [f"{name}: {wanted}, and is {found}"]
    for name, text, columns, wanted in FAULTS:
        looks += 1
        wrong += [] if fault_of(text, columns) == wanted else [f"{name}: {fault_of(text, columns)!r}"]
    return tally.end(looks - len(wrong), wrong)


if __name__ == "__main__":
    sys.exit(main())
