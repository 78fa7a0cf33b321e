#!/usr/bin/env python3
"""Sends packets to s360gdb as gdb would, and compares the answers with what they have to be.

    tests/packet_rows.py [--program FILE] [NAME ..]

A row is a file of tests/packets. Its lines are in the order of what is sent and has to come back:

    > DATA     a packet with this data is sent. It has to be acknowledged by `+`, if packets are
    < DATA     a packet with this data has to come
    = BYTES    bytes are sent as they are
    ~ BYTES    bytes have to come that are in no packet, as those that acknowledge what `=` sends
    ! TEXT     a line that has to come on standard error

A byte that is no sign stands as `\\xHH`, as in Python; `{TEXT*N}` stands for N times TEXT, and
`{"TEXT"}` for the hexadecimal digits of its bytes. `#` begins a comment, and `# s360gdb WORD ..` in
the first line gives the words of the command line. The status is 0 if each row holds: what comes is
that and nothing else, and the program ends with status 0.
"""
import argparse
import itertools
import pathlib
import re
import shlex
import subprocess
import sys
from concurrent.futures import ThreadPoolExecutor
from typing import NamedTuple

TOP = pathlib.Path(__file__).resolve().parent.parent
ROWS = TOP / "tests/packets"
PROGRAM = TOP / "crates/s360gdb/out/s360gdb"
SECONDS = 60
PACKET = re.compile(rb"\$((?:[^#}]|}.)*)#([0-9a-f]{2})", re.DOTALL)
STOP_ACKNOWLEDGING = b"QStartNoAckMode"
SHOWN = 300


class Row(NamedTuple):
    words: list[str]
    sent: bytes
    wanted: list[tuple[str, bytes]]  # as `items_of` has them
    told: list[str]


def unescaped(text):
    return text.encode("latin-1").decode("unicode_escape").encode("latin-1")


def bytes_of(text):
    """The bytes that a line stands for."""
    text = re.sub(r'\{"(.*?)"\}', lambda m: unescaped(m[1]).hex(), text)
    return unescaped(re.sub(r"\{([^{}]*)\*(\d+)\}", lambda m: m[1] * int(m[2]), text))


def escaped(data, special=b"#$*}"):
    """Data as it stands in a packet (gdb manual, "Remote Serial Protocol", "Overview")."""
    sent = (bytes([0x7D, byte ^ 0x20]) if byte in special else bytes([byte]) for byte in data)
    return b"".join(sent)


def plain(text):
    """The data that stands in a packet as this text."""
    return re.sub(rb"}(.)", lambda m: bytes([m[1][0] ^ 0x20]), text, flags=re.DOTALL)


def framed(data):
    """The packet of some data."""
    text = escaped(data)
    return b"$%s#%02x" % (text, sum(text) % 256)


def items_of(said):
    """The data of each packet, whose sum has to be right, and each byte between them, in order."""
    items, at = [], 0
    while at < len(said):
        packet = PACKET.match(said, at)
        if packet is None:
            items.append(("byte", said[at : at + 1]))
            at += 1
            continue
        if sum(packet[1]) % 256 != int(packet[2], 16):
            raise ValueError(f"the sum of {packet[1]} is not {packet[2]}")
        items.append(("packet", plain(packet[1])))
        at = packet.end()
    return items


def row_of(file):
    """What a row sends and wants."""
    row, acknowledges = Row([], b"", [], []), True
    for number, line in enumerate(file.read_text().splitlines()):
        kind, data = line[:2].rstrip(), bytes_of(line[2:])
        if number == 0 and line.startswith("# s360gdb"):
            row = row._replace(words=shlex.split(line[len("# s360gdb") :]))
        elif kind == ">":
            row = row._replace(sent=row.sent + framed(data))
            row.wanted.extend([("byte", b"+")] if acknowledges else [])
            acknowledges = acknowledges and data != STOP_ACKNOWLEDGING
        elif kind == "=":
            row = row._replace(sent=row.sent + data)
        elif kind == "<":
            row.wanted.append(("packet", data))
        elif kind == "~":
            row.wanted.extend(("byte", bytes([byte])) for byte in data)
        elif kind == "!":
            row.told.append(line[2:])
        elif line and not line.startswith("#"):
            raise ValueError(f"{file}: line {number + 1}")
    return row


def faults_of(file, program):
    """What is wrong with what a row is answered."""
    row = row_of(file)
    command = [program, *row.words]
    done = subprocess.run(command, cwd=TOP, input=row.sent, capture_output=True, timeout=SECONDS)
    faults = [] if done.returncode == 0 else [f"status {done.returncode}"]
    told = done.stderr.decode(errors="replace").splitlines()
    if told != row.told:
        faults.append(f"it has to say {row.told}, and says {told}")
    fault = first_difference(row.wanted, items_of(done.stdout))
    return faults if fault is None else [*faults, fault]


def first_difference(wanted, got):
    """The first item that is not as it has to be."""
    for number, (want, came) in enumerate(itertools.zip_longest(wanted, got)):
        if want != came:
            answers = sum(kind == "packet" for kind, _ in wanted[:number])
            shown = [f"{item[0]} {item[1][:SHOWN]}" if item else "nothing" for item in (want, came)]
            return f"after {answers} answers {shown[0]} has to come, and {shown[1]} comes"
    return None


def main():
    parser = argparse.ArgumentParser(description=__doc__.partition("\n")[0])
    parser.add_argument("--program", type=pathlib.Path, default=PROGRAM)
    parser.add_argument("names", nargs="*", metavar="NAME")
    options = parser.parse_args()
    rows = [ROWS / name for name in options.names] or sorted(ROWS.iterdir())
    program = options.program.resolve()
    with ThreadPoolExecutor(2) as pool:
        found = list(pool.map(lambda row: faults_of(row, program), rows))
    for row, faults in zip(rows, found):
        for fault in faults:
            print(f"{row.name}: {fault}")
    failed = sum(bool(faults) for faults in found)
    print(f"{len(found) - failed} passed, {failed} failed")
    return 1 if failed else 0


if __name__ == "__main__":
    sys.exit(main())
