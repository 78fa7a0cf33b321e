#!/usr/bin/env python3
"""Passes the tests, and ends with one line that says how many passed.

    ./test            looks at the scripts that a user starts, and at listings; then proves every crate from nothing
                      with `rt ci`, which also tries the wrong bodies and runs the unit tests; then
                      runs the worked rows, which have to carry out each instruction, command, line
                      and request, and the program where no row can say what has to hold; then
                      rows, unit tests and packets with growths of memory refused one by one; and
                      compares the program with a second machine over random scripts and over
                      sessions that nobody wrote; and sends packets to s360gdb, lets it save files,
                      lets a real gdb drive it, also on a screen and for an editor, and compares it with
                      a second target, and tries the sources and deciders that it tells; and loads what
                      the tools for decks and tapes make; and opens pages of runs in a browser; and makes
                      Debian's package, and does what the pages say with what it installs; and looks that
                      the documents are true
    ./test --quick    looks at the scripts and at listings, runs the worked rows over the program with
                      no proof, in some three minutes, and looks at these tools and at the documents

tools/setup sees to what it needs.
"""
import argparse
import os
import pathlib
import re
import subprocess
import sys

TOP = pathlib.Path(__file__).resolve().parent.parent
PROGRAM = TOP / "crates/s360dbg"
SEEDS = ("1", "20")
FUZZED = "2000"
PACKETS = "60000"
COMMANDS = "300"
SESSIONS = "20"
# A check of one job takes no more memory than this. `rt ci` counts with twice as much and more, and lets processors idle.
BYTES_OF_A_CHECK = 5 * 2**30
WHOLE = [
    ("scripts", ["tests/scripts.py"]),
    ("listings", ["tests/listings.py"]),
    ("where wrong bodies apply", ["tests/wrong_bodies", "--apply"]),
    ("rt ci", ["rt", "ci"]),
    ("worked rows", ["tests/rows.py"]),
    ("what rows carry out", ["tests/coverage.py"]),
    ("the program", ["tests/program/cases.py"]),
    ("refused growths", ["tests/refuse_each_growth.py"]),
    ("second opinion", ["tests/second_opinion.py", *SEEDS]),
    ("fuzzed sessions", ["tests/fuzz", "--cases", FUZZED]),
    ("packet rows", ["tests/packet_rows.py"]),
    ("saved files", ["tests/saved_files.py"]),
    ("gdb sessions", ["tests/gdb_sessions.py"]),
    ("front ends of gdb", ["tests/gdb_front_ends.py"]),
    ("fuzzed packets", ["tests/packet_fuzz.py", "--requests", PACKETS]),
    ("fuzzed commands of gdb", ["tests/gdb_fuzz.py", "--commands", COMMANDS]),
    ("chains by experiment", ["tests/why_by_experiment.py", "--sessions", SESSIONS]),
    ("media", ["tests/media.py"]),
    ("pages of runs", ["tests/page.py", "--program", "crates/s360gdb/out/s360gdb"]),
    ("package", ["tests/package.py"]),
    ("costs", ["tests/costs.py"]),
    ("documents", ["tests/documents.py"]),
]
QUICK = [
    ("scripts", ["tests/scripts.py"]),
    ("listings", ["tests/listings.py"]),
    ("worked rows", ["tests/rows.py", "--unproved"]),
    ("media", ["tests/media.py", "--unproved"]),
    ("documents", ["tests/documents.py", "--unproved"]),
]


def counts(line):
    """The numbers of passed and failed, of the line that each part ends with."""
    found = re.fullmatch(r"(\d+) passed, (\d+) failed", line.strip())
    return (int(found[1]), int(found[2])) if found else (0, 1)


def checks_at_once():
    """How many checks of one job the processors and the free memory can take."""
    fields = dict(line.split(":") for line in open("/proc/meminfo"))
    free = int(fields["MemAvailable"].split()[0]) * 1024
    return max(1, min(len(os.sched_getaffinity(0)), free // BYTES_OF_A_CHECK))


def carry_out(command):
    """Runs a part, shows what it says, and answers its last line and its status."""
    last = ""
    with subprocess.Popen(command, cwd=TOP, stdout=subprocess.PIPE, text=True) as part:
        for line in part.stdout:
            print(line, end="", flush=True)
            last = line
    return last, part.returncode


def passes(parts):
    said = []
    passed = failed = 0
    for name, command in parts:
        print(f"== {name}", flush=True)
        last, status = carry_out(command)
        good, bad = counts(last)
        if status != 0 and bad == 0:
            bad = 1
        said.append(f"{name}: {good} passed, {bad} failed")
        passed, failed = passed + good, failed + bad
    print("\n".join(["==", *said]))
    print(f"{passed} passed, {failed} failed")
    return 1 if failed else 0


def main():
    parser = argparse.ArgumentParser(prog="./test", description=__doc__, formatter_class=argparse.RawTextHelpFormatter)
    parser.add_argument("--quick", action="store_true", help="the worked rows and the documents, with nothing proved")
    quick = parser.parse_args().quick
    # `rt ci` runs the program on the script beside its sources, which is an example.
    for name, file in (("add.s360", "stdin"), ("add.answers", "stdout")):
        if (TOP / "examples" / name).read_bytes() != (PROGRAM / file).read_bytes():
            print(f"crates/s360dbg/{file} is not examples/{name}", file=sys.stderr)
            return 1
    if quick:
        print("nothing is proved here: this is for work in progress", file=sys.stderr)
    os.environ.setdefault("RT_JOBS", str(checks_at_once()))
    return passes(QUICK if quick else WHOLE)


if __name__ == "__main__":
    sys.exit(main())
