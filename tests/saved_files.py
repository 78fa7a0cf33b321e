#!/usr/bin/env python3
"""Lets s360gdb save what units have, and compares the files with what they have to be.

    tests/saved_files.py [--program FILE]

What a file has to be is written here by the pages gdb.md, devices.md and images.md of
docs/reference, and tape files are read by a reader of this script's own, and by `hetmap` and `hetget`
of Hercules, another emulator. Cards and tapes that were saved are loaded again, and shown. Traces of a
small program are worked by hand, and those of examples and random scripts made by the second machine.
The status is 0 if each file and each answer is right.
"""
import argparse
import csv
import os
import pathlib
import re
import subprocess
import sys
import tempfile

import tally
from packet_rows import PROGRAM, TOP, framed, items_of
from second.lines import lines_of
from second.recording import Recording
from second.scripts import Script
from second.traces import carried_out, trace_of, trace_of_script
from second_opinion import command_line

SECONDS = 600
CARD, BLANK, HEADER = 80, b"\x40", 6
WHOLE, MARK_FLAGS = 0xA0, 0x40
PROGRAM_AT, WORDS_AT, DATA_AT = 0x200, 0x400, 0x1000
COMMAND_CHAIN = 0x40
MOST_PATCHED = 256
# Examples whose traces are made twice, with what they load; and seeds of random scripts, each of so many cases.
TRACED = {"cards": "reader", "turns": "reader", "marked": "reader", "charge": "tape0", "overflow": None, "timer": None}
SEEDS, CASES = range(1, 9), 40
FIELDS = ["number", "event", "address", "instruction", "mnemonic", "place", "before", "after", "sources"]
# A program that stores a register and a byte, and the line of each place that the events store into.
SMALL_PROGRAM = {
    "patch r 1 00C2": ["1,patch r,,,,r1,00000000,000000C2,"],
    "patch s 300 5A": ["2,patch s,,,,s000300,00,5A,"],
    "patch k 800 3": ["3,patch k,,,,k000800,0,3,k000800"],
    "patch s 200 5010030092C20303": [
        f"4,patch s,,,,s{0x200 + i:06X},00,{byte:02X}," for i, byte in enumerate(bytes.fromhex("5010030092C20303"))
    ],
    "patch p 0000000000000200": ["5,patch p,,,,p,0000000000000000,0000000000000200,"],
    "step": [
        "6,cpu,000200,50100300,ST,p,0000000000000200,0000000000000204,p",
        "6,cpu,000200,50100300,ST,s000300,5A,00,r1",
        "6,cpu,000200,50100300,ST,s000301,00,00,r1",
        "6,cpu,000200,50100300,ST,s000302,00,00,r1",
        "6,cpu,000200,50100300,ST,s000303,00,C2,r1",
    ],
    # An equal value is stored.
    " step": [
        "7,cpu,000204,92C20303,MVI,p,0000000000000204,0000000000000208,p",
        "7,cpu,000204,92C20303,MVI,s000303,C2,C2,",
    ],
    "tick": [
        "8,tick,,,,s000050,00,FF,s000050-000053",
        "8,tick,,,,s000051,00,FF,s000050-000053",
        "8,tick,,,,s000052,00,FF,s000050-000053",
        "8,tick,,,,s000053,00,00,s000050-000053",
        "8,tick,,,,ext,none,timer,s000050-000053 ext",
    ],
    # It stores nothing: no unit executes a program, and no fetch bit is there.
    "channel 00C": ["9,channel 00C,,,,,,,"],
    "patch f 800 1": ["10,patch f,,,,,,,"],
    "key stop": ["11,key stop,,,,run,operating,stopped,run"],
    "  step": ["12,cpu,,,,,,,"],
}
# A program of a channel whose second word is a transfer to one at 418, and that to one at 422, which is none; and which word
# each of its events executes.
TRANSFERS = [
    "patch s 48 00000400",
    "patch s 200 9C00000E",
    "patch p 0000000000000200",
    "patch s 400 0B000000400000010800041800000000",
    "patch s 418 13000000400000010800042200000000",
    "step",
    *["channel 00E"] * 3,
]
TRANSFERRED = ["000400,0B00000040000001", "000418,1300000040000001", "000420,0800042200000000"]


def ebcdic(text):
    return text.encode("cp037")


class Channel:
    """A channel program: the lines that put it into storage and let it be executed."""

    def __init__(self, unit):
        self.unit, self.words, self.data = unit, [], b""

    def command(self, code, data=b""):
        self.words.append((code, DATA_AT + len(self.data), len(data) or 1))
        self.data += data
        return self

    def lines(self):
        flags = [COMMAND_CHAIN] * (len(self.words) - 1) + [0]
        words = b"".join(
            bytes([code, *at.to_bytes(3, "big"), flag, 0, *count.to_bytes(2, "big")])
            for (code, at, count), flag in zip(self.words, flags)
        )
        places = [(0x48, WORDS_AT.to_bytes(4, "big")), (WORDS_AT, words), (DATA_AT, self.data)]
        places += [(PROGRAM_AT, bytes([0x9C, 0, *self.unit.to_bytes(2, "big")]))]
        puts = [
            f"patch s {at + first:X} {run[first : first + MOST_PATCHED].hex()}"
            for at, run in places
            for first in range(0, len(run), MOST_PATCHED)
        ]
        runs = [f"channel {self.unit:03X}"] * len(self.words)
        return [*puts, f"patch p {PROGRAM_AT:016X}", "step", *runs]


def answers_of(program, words, lines):
    """What each line is answered, to a machine that these words ask for."""
    digits = [line.encode("utf-8", "surrogateescape").hex() for line in lines]
    data = [b"QStartNoAckMode", *(b"qRcmd," + line.encode() for line in digits)]
    sent = b"".join(map(framed, data))
    done = subprocess.run([program, *words], input=sent, capture_output=True, timeout=SECONDS)
    if done.returncode or done.stderr:
        raise ValueError(f"status {done.returncode}: {done.stderr}")
    _, _, *packets = items_of(done.stdout)
    return [bytes.fromhex(data.decode()).decode() for _, data in packets]


def items_of_tape(image):
    """The blocks and marks (None) of a file of whole ones, by docs/reference/images.md."""
    items, before, at = [], 0, 0
    while at < len(image):
        count, previous = image[at] + 256 * image[at + 1], image[at + 2] + 256 * image[at + 3]
        flags, last = image[at + 4], image[at + 5]
        block = image[at + HEADER : at + HEADER + count]
        if (previous, last, len(block)) != (before, 0, count) or flags not in (WHOLE, MARK_FLAGS):
            raise ValueError(f"at {at} of a tape file")
        items.append(block if flags == WHOLE else None)
        before, at = count, at + HEADER + count
    return items


def map_of_tape(tape):
    """What `hetmap` finds between the marks of a tape file: the number of blocks, and the sizes of the
    smallest and of the greatest."""
    done = subprocess.run(["hetmap", "-t", tape], capture_output=True, text=True, timeout=SECONDS)
    line = r"File \d+: Blocks=(\d+), block size min=(\d+), max=(\d+)"
    return [tuple(map(int, found)) for found in re.findall(line, done.stdout)]


def bytes_on_tape(tape, number, size):
    """What `hetget` reads of the file of this number, whose blocks are at most of this size."""
    to = tape.with_suffix(".read")
    words = ["hetget", "-n", "-u", tape, to, str(number), "U", "0", str(size)]
    subprocess.run(words, capture_output=True, timeout=SECONDS, check=True)
    return to.read_bytes()


class Cases:
    def __init__(self, program, folder):
        self.program, self.folder = program, folder
        self.passed, self.wrong = 0, []

    def expect(self, what, wanted, got):
        if wanted == got:
            self.passed += 1
        else:
            self.wrong.append(f"{what}: it has to be {wanted!r}, and is {got!r}")

    def file(self, name):
        path = self.folder / name
        return path.read_bytes() if path.exists() else None

    def answers(self, lines, *words):
        """The answers to lines, in which `@` stands for the folder."""
        lines = [line.replace("@", f"{self.folder}/") for line in lines]
        return answers_of(self.program, words, lines)

    def saved(self, before, lines, *words):
        """The answers to some last lines."""
        return self.answers([*before, *lines], *words)[len(before) :]

    def printer(self):
        # Lines 1 (twice), 2 and 4 of page 1, nothing on page 2, lines 1 and 6 of page 3. A byte of
        # zeros has no sign.
        program = Channel(0x00E).command(0x01, ebcdic("TITLE")).command(0x09, ebcdic("_____"))
        program.command(0x11, ebcdic("A  ")).command(0x89, ebcdic("  C")).command(0x8B)
        program.command(0x19, ebcdic("B")).command(0x93).command(0x01, ebcdic("X") + bytes(1))
        lines = ["save printer @pages", "show d 00E", "standing", "back", "back", "back", "back"]
        lines += ["save printer @page one", "goto start", "save printer @none", "goto end"]
        answers = self.saved(program.lines(), [*lines, "save printer @pages"])
        self.expect("the answer of three pages", "saved 3 pages\n", answers[0])
        self.expect("pages", b"TITLE\r_____\nA\n\n  C\n\f\fB\n\n\n\n\nX.\n", self.file("pages"))
        self.expect("the answer of one page", "saved 1 page\n", answers[7])
        self.expect("a page", b"TITLE\r_____\nA\n\n  C\n", self.file("page one"))
        self.expect("the answer of none", "saved 0 pages\n", answers[9])
        self.expect("no page", b"", self.file("none"))
        self.expect("the answer where the file is there", "not saved: file exists\n", answers[11])
        self.expect("what stands", "standing 14\n", answers[2])

    def punch(self):
        program = Channel(0x00D).command(0x01, ebcdic("HELLO")).command(0x41, ebcdic("A" * CARD))
        program.command(0x81, bytes(range(10))).command(0x01, ebcdic("2 P1"))
        cards = [ebcdic("HELLO").ljust(CARD, BLANK), ebcdic("A" * CARD)]
        cards += [bytes(range(10)).ljust(CARD, BLANK), ebcdic("2 P1").ljust(CARD, BLANK)]
        lines = ["save punch @deck", "save P1 @first", "save P2 @second", "save RP3 @third"]
        said = "".join(self.saved(program.lines(), lines)).splitlines()
        told = ["saved 4 cards", "saved 2 cards", "saved 1 card", "saved 1 card"]
        self.expect("the answers of cards", told, said)
        self.expect("all cards", b"".join(cards), self.file("deck"))
        self.expect("P1", cards[0] + cards[3], self.file("first"))
        self.expect("P2", cards[1], self.file("second"))
        self.expect("RP3", cards[2], self.file("third"))
        shows = [f"show m 00C {number}" for number in (1, 4, 5)]
        shown = self.answers(shows, "--reader", self.folder / "deck")
        held = ["hopper HELLO\n", "hopper 2 P1\n", "none\n"]
        self.expect("the deck that is read again", held, shown)

    def console(self):
        program = Channel(0x01F).command(0x01, ebcdic("READY "))
        program.command(0x09, ebcdic("GO")).command(0x0B)
        lines = ["enter YES  ", "enter", "save console @log"]
        answer = self.saved(program.lines(), lines)[-1]
        self.expect("the answer of the console", "saved 5 lines\n", answer)
        wanted = b"type READY\nreturn GO\nalarm\nenter YES  \nenter \n"
        self.expect("the console", wanted, self.file("log"))

    def tapes(self):
        long = bytes(range(256)) * 2
        program = Channel(0x180).command(0x01, ebcdic("ABC")).command(0x1F)
        program.command(0x01, long).command(0x1F).command(0x1F)
        lines = ["save tape0 @tape", "save tape1 @blank", "show image 180"]
        answers = self.saved(program.lines(), lines)
        items = [ebcdic("ABC"), None, long, None, None]
        self.expect("the tape", items, items_of_tape(self.file("tape")))
        size = 5 * HEADER + 3 + 512
        self.expect("its size", size, len(self.file("tape")))
        told = [f"saved {size} bytes\n", "saved 0 bytes\n"]
        self.expect("the answers of tapes", told, answers[:2])
        self.expect("the blank tape", b"", self.file("blank"))
        words = ["--tape0", self.folder / "tape", "--tape1", self.folder / "blank"]
        lines = ["show image 180", "show d 181", "show m 180 3", "save tape0 @again"]
        shown = self.answers(lines, *words)
        self.expect("the tape that is read again", answers[2], shown[0])
        blank = "181 sense 000000000000 position 0 of 0 loaded\n"
        self.expect("the blank tape that is read again", blank, shown[1])
        self.expect("its third item", f"block 512 {long[:32].hex().upper()}\n", shown[2])
        self.expect("the tape that is saved again", self.file("tape"), self.file("again"))
        # A block in two parts is saved whole.
        parts = bytes([2, 0, 0, 0, 0x80, 0, 0xC1, 0xC2, 1, 0, 2, 0, 0x20, 0, 0xC3])
        (self.folder / "parts").write_bytes(parts)
        self.answers(["save tape1 @whole"], "--tape1", self.folder / "parts")
        whole = bytes([3, 0, 0, 0, 0xA0, 0, 0xC1, 0xC2, 0xC3])
        self.expect("a block of parts", whole, self.file("whole"))
        self.tapes_by_hercules(long)

    def tapes_by_hercules(self, long):
        tape, whole = self.folder / "tape", self.folder / "whole"
        self.expect("the map of the tape", [(1, 3, 3), (1, 512, 512), (0, 0, 0)], map_of_tape(tape))
        self.expect("its first file", ebcdic("ABC"), bytes_on_tape(tape, 1, 3))
        self.expect("its second file", long, bytes_on_tape(tape, 2, 512))
        self.expect("a block of parts by hetget", ebcdic("ABC"), bytes_on_tape(whole, 1, 3))

    def traces(self):
        lines = [line.strip() for line in SMALL_PROGRAM]
        asked = ["save trace @all", "save trace @some of it  6 7 ", "save trace @one 9 9", "save trace @beyond 13 99", "standing"]
        asked += ["save trace @back 9 3", "save trace @zero 0 9", "save trace @one word 7", "save! trace /dev/full", "save trace 3 9", "save trace"]
        answers = self.saved(lines, asked)
        told = [len(lines) for lines in SMALL_PROGRAM.values()]
        head = ",".join(FIELDS)
        files = {"all": [*SMALL_PROGRAM.values()], "some of it": [*SMALL_PROGRAM.values()][5:7], "one": [["9,channel 00C,,,,,,,"]]}
        files |= {"beyond": [], "back 9 3": files["all"], "zero 0 9": files["all"], "one word 7": files["all"]}
        for name, wanted in files.items():
            text = "".join(f"{line}\n" for line in [head, *(line for change in wanted for line in change)])
            self.expect(f"the trace in '{name}'", text.encode(), self.file(name))
        whole = f"saved {sum(told) + 1} lines\n"
        wanted = [whole, f"saved {sum(told[5:7]) + 1} lines\n", "saved 2 lines\n", "saved 1 line\n", f"standing {len(told)}\n"]
        wanted += [whole] * 3 + ["not saved: write failed\n", "? argument 2\n", "? argument 2\n"]
        self.expect("the answers of traces", wanted, answers)
        with open(self.folder / "all", newline="") as file:
            read = list(csv.DictReader(file))
        self.expect("the fields that Python reads", FIELDS, [*read[0]])
        self.expect("the values that Python reads", {9}, {len(row) for row in read if None not in row})
        self.saved(TRANSFERS, ["save trace @transfers", "goto 2", "save trace @two"])
        words = self.file("transfers").decode().splitlines()
        words = [",".join(line.split(",")[2:4]) for line in words if ",channel " in line]
        self.expect("words of a channel", TRANSFERRED, [*dict.fromkeys(words)])
        self.expect("changes that stand", b"2,", self.file("two").splitlines()[-1][:2])

    def traces_made_twice(self):
        for example, option in TRACED.items():
            file = TOP / "examples" / f"{example}.{'deck' if option == 'reader' else option}"
            lines = [line.decode() for line in lines_of((TOP / f"examples/{example}.s360").read_bytes())]
            words = [f"--{option}", file] if option else []
            self.saved(lines, [f"save trace @{example}.csv"], *words)
            held = file.read_bytes() if option else b""
            media = {"deck": held} if option == "reader" else {"images": (held, b"")} if option else {}
            wanted = trace_of_script("".join(f"{line}\n" for line in lines).encode(), **media)
            self.expect(f"the trace of {example}", wanted.encode(), self.file(f"{example}.csv"))
        for seed in SEEDS:
            script = Script(seed)
            for _ in range(CASES):
                script.case()
            words = [*command_line(script, self.folder)]
            # A line that is entered may have the sign that stands for the folder.
            answers_of(self.program, words, [*script.lines, f"save trace {self.folder}/{seed}.csv"])
            recording = Recording(script.deck, script.tapes, protects_fetches=script.protects_fetches)
            wanted = trace_of(carried_out(recording, "\n".join(script.lines).encode()))
            self.expect(f"the trace of seed {seed}", wanted.encode(), self.file(f"{seed}.csv"))

    def faults(self):
        kept = b"as it was, and longer than what is saved"
        (self.folder / "kept").write_bytes(kept)
        (self.folder / "folder").mkdir()
        program = Channel(0x00E).command(0x09, ebcdic("LINE")).lines()
        told = {
            "save printer @kept": "not saved: file exists",
            "save printer @nowhere/file": "not saved: cannot open",
            "save! printer @folder": "not saved: cannot open",
            "save printer @folder": "not saved: file exists",
            "save! printer /dev/full": "not saved: write failed",
            "save printer @\udcff": "not saved: cannot open",
            "save printer @a\0b": "not saved: cannot open",
            "save": "? argument 1",
            "save cards @x": "? argument 1",
            "save Printer @x": "? argument 1",
            "save printer": "? argument 2",
            "save! tape0   ": "? argument 2",
            "saves printer @x": "? unknown",
            f"save printer @{'x' * 1100}": "? line too long",
            "standing": "standing 7",
        }
        answers = self.saved(program, list(told))
        for (line, wanted), got in zip(told.items(), answers):
            self.expect(line[:40], f"{wanted}\n", got)
        self.expect("a file that is there", kept, self.file("kept"))
        over = self.saved(program, ["save! printer @kept"])
        self.expect("written over", ["saved 1 page\n"], over)
        self.expect("a file that was written over", b"LINE\n", self.file("kept"))
        others = [name for name in os.listdir(self.folder) if name.startswith(("x", "nowhere"))]
        self.expect("other files", [], others)


def main():
    parser = argparse.ArgumentParser(description=__doc__.partition("\n")[0])
    parser.add_argument("--program", type=pathlib.Path, default=PROGRAM)
    options = parser.parse_args()
    with tempfile.TemporaryDirectory() as folder:
        cases = Cases(options.program.resolve(), pathlib.Path(folder))
        parts = (cases.printer, cases.punch, cases.console, cases.tapes, cases.traces, cases.traces_made_twice, cases.faults)
        for part in parts:
            try:
                part()
            except (OSError, ValueError, subprocess.TimeoutExpired) as fault:
                cases.wrong.append(f"{part.__name__}: {fault}")
    return tally.end(cases.passed, cases.wrong)


if __name__ == "__main__":
    sys.exit(main())
