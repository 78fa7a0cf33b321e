#!/usr/bin/env python3
"""Runs each worked row, each unit test and each row of packets with one growth of memory refused.

    tests/refuse_each_growth.py [WORD ..]    with words, those that have one of them in their name

Each growth of what TO_THE_END names is refused in turn, until a run meets none. Of all else each of the
first EACH is, and beyond them every STRIDE-th. A test that MOST_GROWTHS names takes at most so many.

With nothing refused a row has its answers, and a test passes. With a growth refused the program has
to end with status 1, say that memory is out, and have written the answers of whole first lines. A
test has to name want of memory as what it met in place of the right answer. A run that passes all
the same did without the growth.

A test may tell how many events of a line stood after want of memory within it. Then EVENTS_OF_LINES says
of each such line which numbers have to be met. None may be above them.

No call may grow anything that stands between two marks of a test, which tells them by lines `begin CALLS`
and `end`. WITHOUT_GROWTH says which calls each test has to mark so. One that takes memory and goes on
without it, if it is refused, would else be right whatever is refused.

What may come of a row of packets, `packets/NAME`, is said in `refused_packets.py`.

It needs what `rt ci` has built, and a C compiler. It prints what is wrong, and how many rows and
tests were right with each refused growth.
"""
import os
import pathlib
import re
import subprocess
import sys
import tempfile
from collections import defaultdict
from concurrent.futures import ThreadPoolExecutor
from typing import NamedTuple

import packet_rows
import rows
from refused_packets import Conversation, NoPacket

TOP = rows.TOP
WANT_OF_MEMORY = ("Memory", "AllocError", "AllocFailed", "OutOfMemory", "out of memory")
# Past so many growths a row or a test is tried at every 101st alone.
EACH = 3000
STRIDE = 101
# What is swept to the end, and of what it refuses each growth.
TO_THE_END = {
    "logical/worked-rows": "a move that spreads a byte",
    "tapes/discarded-blocks": "a tape that is read from a file and shown as one, and a block in place of others",
    "tapes/longest-block-read": "the longest tape block",
    "decks/data-chain": "a deck, and a card that is read into two places",
    "console/read": "a line that is entered and read",
    "withdrawals/tape-write": "a tape block whose writing is withdrawn",
    "withdrawals/card": "a patch that is withdrawn from before a card is read",
    "s360_rows_tests refused::memory_within_a_line": "`answer`",
    "s360_rows_tests refused::moves": "of a move",
    "s360_rows_tests refused::written_blocks": "of a tape block that is written, and of its withdrawal",
    "s360_rows_tests refused::appended_blocks": "of a tape block that is written behind the last one",
    "s360_rows_tests refused::read_blocks": "of the longest tape block",
    "s360_rows_tests refused::chained_data": "of a card that is read into two places",
    "s360_rows_tests refused::entered_lines": "of a line that is entered, and its read",
    "s360_rows_tests refused::parted_bytes": "of patches that part bytes of one history",
    "s360_rows_tests channel_programs::programs_over_the_device_of_the_tests": "`channel_plan`",
    "s360_rows_tests packed::packed_changes": "`Packed::append`",
}
# How many events stand after want of memory within a line, which a test tells. Each number has to be met: the last
# by the growths of the answer, and those before it by the growths of an event, if it alters anything.
OUT_OF_MEMORY_AFTER = re.compile(r"out of memory after (\d+) events of ([\w ]+)")
EVENTS_OF_LINES = {
    "s360_rows_tests refused::memory_within_a_line": {
        "tick": {0, 1},
        "patch r 1 5": {1},
        "patch s 300 0102030405060708090A": {0, 1},
        "enter AB": {0, 1},
        "load 180": {0, 1},
        "run 4": {0, 1, 2, 3, 4},
        "run 9": {1},
        "back": {0},
        "until": {0},
        "withdraw 1": {0},
        "break 200": {0},
        "last s 50": {0},
        "show s 50 4": {0},
    },
    "s360_rows_tests refused::moves": {"step": {0, 1}, "patch p 0000000000000200": {1}},
    "s360_rows_tests refused::written_blocks": {"channel 180": {0, 1}, "tick": {0, 1}, "withdraw 13": {0}},
    "s360_rows_tests refused::appended_blocks": {"channel 180": {0, 1}},
    "s360_rows_tests refused::read_blocks": {"channel 180": {0, 1}},
    "s360_rows_tests refused::chained_data": {"channel C": {0, 1}},
    "s360_rows_tests refused::entered_lines": {"channel 1F": {0, 1}, "enter ABC": {0, 1}},
    "s360_rows_tests refused::parted_bytes": {
        "patch s 402 0202": {0, 1},
        "patch s 3FE 0303030303030303": {0, 1},
        "patch s 400 0403040304030401": {0, 1},
    },
}
# The calls that a test makes between marks.
MARKS = re.compile(r"(\d+) begin (.*)\n(\d+) end")
WITHOUT_GROWTH = {
    "s360_rows_tests without_memory::calls_without_memory": {
        "Session::new",
        "Session::back",
        "Session::back_to",
        "Session::back_until",
        "Session::standing",
        "Session::last_change",
        "Session::changes_of",
        "Machine",
        "Storage",
        "Storage::swap",
        "Media",
        "Tape",
        "Device",
        "Units",
        "Words",
        "Plan",
        "new",
    },
    "s360_rows_tests packed::packed_changes": {
        "Machine::swap_all",
        "Changes",
        "Packed::swap",
        "Packed::keep",
        "Packed::bytes",
    },
}
# How many growths a test may take, where that is bounded.
MOST_GROWTHS = {
    "s360_rows_tests plans::rising_puts": 60,
    "s360_rows_tests plans::rising_puts_but_for_the_last": 60,
    "s360_rows_tests plans::falling_puts": 60,
    "s360_rows_tests plans::mixed_puts": 60,
}


class Answered:
    """What may come of a row of lines."""

    def __init__(self, answers):
        self.answers = answers

    def fault_of(self, done):
        """What is wrong with a run in which a growth was refused, or none was."""
        if done.returncode == 0:
            return None if done.stdout == self.answers else "other answers"
        if done.returncode != 1 or done.stderr != b"s360dbg: memory: out of memory\n":
            return f"status {done.returncode}: {done.stderr!r}"
        whole = done.stdout == b"" or done.stdout.endswith(b"\n")
        return None if whole and self.answers.startswith(done.stdout) else "other answers"

    def faults_at_the_end(self):
        return ()


class Tested:
    """What may come of a unit test."""

    def __init__(self, wanted):
        self.wanted = wanted  # how many events of lines are to be met
        self.met = defaultdict(set)

    def fault_of(self, done):
        said = (done.stdout + done.stderr).decode(errors="replace")
        for count, line in OUT_OF_MEMORY_AFTER.findall(said):
            self.met[line].add(int(count))
        if done.returncode == 0 or any(word in said for word in WANT_OF_MEMORY):
            return None
        return f"status {done.returncode}: {said.strip()[:200]}"

    def faults_at_the_end(self):
        for line in sorted({*self.wanted, *self.met}):
            met, numbers = self.met[line], self.wanted.get(line, set())
            if not numbers <= met <= {*range(max(numbers, default=-1) + 1)}:
                yield f"{line}: {sorted(met)} events stood after want of memory"


class Subject(NamedTuple):
    """What is run: a command line and its input, and what may come of it."""

    name: str
    program: pathlib.Path
    args: list[str]
    script: bytes
    may_come: Answered | Tested | Conversation | NoPacket

    def run(self, shim, **variables):
        environment = dict(os.environ, LD_PRELOAD=str(shim), **variables)
        return rows.run(self.program, self.args, self.script, env=environment, cwd=TOP)

    def faults(self, shim, folder):
        with tempfile.NamedTemporaryFile(dir=folder) as file:
            whole = self.run(shim, COUNT_FILE=file.name)
            if whole.returncode != 0 or self.may_come.fault_of(whole):
                return [f"{self.name}: status {whole.returncode} with nothing refused"], 0
            count = int(pathlib.Path(file.name).read_text())
        each = count if self.name in TO_THE_END else min(count, EACH)
        refused = [*range(1, each + 1), *range(each + 1, count + 1, STRIDE)]
        found = []
        most = MOST_GROWTHS.get(self.name, count)
        if count > most:
            found.append(f"{self.name}: {count} growths, and at most {most} are allowed")
        for nth in refused:
            fault = self.may_come.fault_of(self.run(shim, REFUSE_NTH=str(nth)))
            if fault:
                found.append(f"{self.name}: growth {nth} of {count} refused: {fault}")
        found += (f"{self.name}: {fault}" for fault in self.may_come.faults_at_the_end())
        found += (f"{self.name}: {fault}" for fault in self.faults_between_marks(shim))
        return found, len(refused)

    def faults_between_marks(self, shim):
        """What is wrong with the calls that are to grow nothing."""
        if self.name not in WITHOUT_GROWTH:
            return
        told = self.run(shim, TELL_GROWTHS="yes").stdout.decode()
        grown = defaultdict(int)
        for before, calls, after in MARKS.findall(told):
            grown[calls] += int(after) - int(before)
        yield from (f"{calls}: {growths} growths" for calls, growths in grown.items() if growths)
        for calls in sorted(grown.keys() ^ WITHOUT_GROWTH[self.name]):
            yield f"{calls}: in the test or in the table, and not in both"


def subjects(folder):
    for row in rows.rows():
        row = row.placed(folder)
        yield Subject(row.name, rows.PROGRAM, row.args, row.script, Answered(row.answers))
    for program in sorted(TOP.glob("crates/*/out/*_tests")):
        listed = subprocess.run([program, "--list"], capture_output=True, text=True)
        for line in (listed.stdout + listed.stderr).splitlines():
            if line.endswith(": test"):
                test = line.removesuffix(": test")
                name = f"{program.name} {test}"
                yield Subject(name, program, [test], b"", Tested(EVENTS_OF_LINES.get(name, {})))
    conversations = {file.name: Conversation(file) for file in sorted(packet_rows.ROWS.iterdir())}
    deck = conversations["cards"].words
    conversations |= {"(none)": NoPacket([]), "(none, with a deck)": NoPacket(deck)}
    for name, row in conversations.items():
        yield Subject(f"packets/{name}", packet_rows.PROGRAM, row.words, row.sent, row)


def main():
    words = sys.argv[1:]
    with tempfile.TemporaryDirectory() as folder:
        wanted = [s for s in subjects(folder) if not words or any(w in s.name for w in words)]
        shim = pathlib.Path(folder) / "refuse_nth.so"
        source = TOP / "tests/refuse_nth.c"
        subprocess.run(["cc", "-O1", "-shared", "-fPIC", "-o", shim, source], check=True)
        with ThreadPoolExecutor(os.cpu_count()) as pool:
            results = list(pool.map(lambda subject: subject.faults(shim, folder), wanted))
    tables = (TO_THE_END, EVENTS_OF_LINES, MOST_GROWTHS, WITHOUT_GROWTH)
    named = set() if words else set().union(*tables)
    missing = named - {subject.name for subject in wanted}
    results += [([f"{name}: there is no such row or test"], 0) for name in sorted(missing)]
    for faults, _ in results:
        for fault in faults:
            print(fault)
    failed = sum(bool(faults) for faults, _ in results)
    print(f"{sum(refused for _, refused in results)} growths refused, one a run")
    print(f"{len(results) - failed} passed, {failed} failed")
    return 1 if failed or not wanted else 0


if __name__ == "__main__":
    sys.exit(main())
