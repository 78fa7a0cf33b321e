"""The trace of a recording: what each change did, as comma-separated values. Source: docs/reference/gdb.md.

    python3 -m second.traces [--reader FILE] [--tape0 FILE] [--tape1 FILE] [--storage N] [--fetch] SCRIPT

run in `tests` prints the trace of what a script does to the second machine; `trace_of_script` answers it.
"""
import argparse
import pathlib

from .causes import named, order_of, runs_of
from .channels import LOAD, UNITS, Program
from .core import ADDRESSES, SIZE
from .devices import CARD
from .inquiries import MNEMONICS, Inquiries
from .lines import fault_of, lines_of
from .machine import OPERATING
from .recording import Recording
from .sources import sources
from .tapes import Tape, items_of

HEADER = "number,event,address,instruction,mnemonic,place,before,after,sources"


class Trace:
    """That of what stands in a recording, over its inquiries, which stand where they stood once a trace is made."""

    def __init__(self, inquiries):
        self.inquiries = inquiries
        self.recording, self.machine = inquiries.recording, inquiries.machine

    def text(self, first=1, last=None):
        """The trace from one change to another, as far as they stand."""
        stands = self.inquiries.standing
        last = stands if last is None else min(last, stands)
        lines = [HEADER, *(line for number in range(first, last + 1) for line in self.lines(number))]
        self.inquiries.go_to(stands)
        return "".join(f"{line}\n" for line in lines)

    def lines(self, number):
        """Those of a change: one of each place into which its event stored."""
        self.inquiries.go_to(number)
        change = self.recording.changes[-1]
        places = sorted(change.noted, key=order_of)
        after = self.values(places)
        self.inquiries.go_to(number - 1)
        name, fields = change.event
        event = ",".join([str(number), name, *self.executed(name)])
        made = sources(self.machine, name, fields)
        stored = zip(places, self.values(places), after, (extents(made.get(place, [place])) for place in places))
        return [",".join([event, *fields]) for fields in stored] or [f"{event},,,,"]

    def values(self, places):
        return list(map(self.inquiries.value, places))

    def executed(self, name):
        """The address of what an event executes, its digits and its mnemonic."""
        kind, *unit = name.split()
        if kind == "cpu":
            return self.instruction()
        return self.command_word(int(unit[0], 16)) if kind == "channel" else ["", "", ""]

    def instruction(self):
        machine = self.machine
        is_interrupted = machine.value("ext") and machine.psw_field(56, 1) or machine.waiting() is not None
        if machine.value("run") != OPERATING or is_interrupted or machine.psw_field(49, 1):
            return ["", "", ""]
        at = machine.psw_field(0, 24)
        if at >= machine.size:
            return [f"{at:06X}", "", ""]
        code = machine.byte(at)
        length = min((2, 4, 4, 6)[code >> 6], machine.size - at)
        return [f"{at:06X}", machine.run_of_bytes(at, length).hex().upper(), *MNEMONICS.get(code, [""])]

    def command_word(self, unit):
        """That which a unit's program executes: behind a transfer in channel the one that it leads to, if one stands there."""
        machine = self.machine
        program = machine.unit(unit) if unit in UNITS else None
        if not isinstance(program, Program) or program.after == LOAD:
            return ["", "", ""]
        at, _ = machine.next_ccw(program)
        word = machine.run_of_bytes(at, 8).hex().upper() if machine.ccw_at(at) else ""
        return [f"{at % ADDRESSES:06X}", word, ""]


def extents(places):
    """Places in their order, each once, and of successive bytes the first and the last."""
    names = (f"{named(run[0])}{f'-{named(run[-1])[1:]}' if run[1:] else ''}" for run in runs_of(places))
    return " ".join(names)


def recording_of(script, deck=b"", images=(b"", b""), size=SIZE, protects_fetches=False):
    """A recording of what a script does over the bytes of a deck and of tape files."""
    cards = [deck[at : at + CARD] for at in range(0, len(deck), CARD)]
    tapes = [Tape(recorded=items_of(image)) for image in images]
    return carried_out(Recording(cards, tapes, size=size, protects_fetches=protects_fetches), script)


def carried_out(recording, script):
    """A recording once the lines of a script are carried out that are right."""
    for line in lines_of(script):
        if fault_of(line) is None:
            recording.answer(line.decode())
    return recording


def trace_of(recording):
    """The trace of all that stands in a recording."""
    return Trace(Inquiries(recording)).text()


def trace_of_script(script, **media):
    """The trace of what a script does, in bytes, over media that `recording_of` names."""
    return trace_of(recording_of(script, **media))


def main():
    parser = argparse.ArgumentParser(prog="second.traces", description=__doc__.partition("\n")[0])
    for medium in ("reader", "tape0", "tape1"):
        parser.add_argument(f"--{medium}", type=pathlib.Path)
    parser.add_argument("--storage", type=int, default=SIZE)
    parser.add_argument("--fetch", action="store_true")
    parser.add_argument("script", type=pathlib.Path)
    options = parser.parse_args()
    deck, *images = (file.read_bytes() if file else b"" for file in (options.reader, options.tape0, options.tape1))
    how = {"size": options.storage, "protects_fetches": options.fetch}
    print(trace_of_script(options.script.read_bytes(), deck=deck, images=images, **how), end="")


if __name__ == "__main__":
    main()
