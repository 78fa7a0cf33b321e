"""gdb's commands for the machine, which take places as gdb names values, and tell labels and source lines.

gdb loads it (`-x tools/gdb/s360.py`), and it s360.gdb. Each command is a line of monitor or several.
"""
import pathlib
import re
import sys

import gdb

FOLDER = pathlib.Path(__file__).resolve().parent
sys.path.insert(0, str(FOLDER))
gdb.execute(f"source {FOLDER / 's360.gdb'}")

from s360_command import Command, refuse  # noqa: E402
from s360_machine import machine, show, standing, told  # noqa: E402
from s360_over import Out, Over, ReverseOut, ReverseOver  # noqa: E402
from s360_places import MONITOR_ITEM, MOST_TOLD, Change, bytes_of, changes_of, count_of, extent_of  # noqa: E402
from s360_places import places_of, places_of_value, show_change, with_count  # noqa: E402
from s360_printed import print_of  # noqa: E402

DUMPED, FOLLOWED, TOLD = 64, 5, 10
UNITS = ("00C", "00D", "00E", "01F", "180", "181")
# What is asked of the printer.
PRINTED = re.compile(r"line (?P<line>\d+) column (?P<column>\d+)(?: page (?P<page>\d+))?")
SUPERVISOR_CALL = re.compile(r"svc\s+\w.*")
# Of a store the place, or the first byte.
STORED = re.compile(r"^s([0-9A-F]{6})", re.MULTILINE)
MARK = re.compile(r"[A-Za-z_]\w*")
COUNT = re.compile(r"\$_change\b")


def go_before(change: Change) -> None:
    """Tells a change, and goes to just before it, so that gdb looks at the machine anew."""
    show_change(change)
    told(f"goto {change.number - 1 or 'start'}")
    gdb.execute("s360-renew")


class Who(Command):
    """Go to just before the last change of a place, and tell it.
Usage: who EXPRESSION
       who line LINE column COLUMN [page PAGE]
       who m UNIT ITEM

The place is any expression of gdb that names one: a label is its field, a number
one byte at this address, and $r5 a register. Without symbols: who *(char[4]*)0x388.
`s 388`, `r 5`, `u 00C`, `d 00C`, `k 800`, `run` and `ext` are places as monitor
names them.
A line and a column are those of the printer, and of its last page if none is named.
An item is a card, a line, a block or a mark of the unit, counted from 1.
Said again it goes one change further back. `goto last` goes back to where it stood."""

    def carry_out(self, words: str) -> None:
        if printed := PRINTED.fullmatch(words):
            self.tell_print(*print_of(*(part and int(part) for part in printed.groups())))
        elif MONITOR_ITEM.fullmatch(words):
            show(told(f"who {words}"))
            gdb.execute("s360-renew")
        elif changes := changes_of(places_of(words), 1):
            go_before(changes[-1])
        else:
            gdb.write("who none\n")

    @staticmethod
    def tell_print(change: Change, address: int, before: list[Change]) -> None:
        show(f"{change.event}\n")
        if before:
            go_before(before[-1])
        else:
            show(f"s{address:06X} from the start\n")


class Why(Command):
    """Tell what made the value of a place, and what that was made of, the nearest first.
Usage: why[!] EXPRESSION [DEPTH]

Five events deep, or as many as told. Of a field the first byte is meant that was stored
last. `why!` tells each in full, and what decided it."""

    def carry_out(self, words: str) -> None:
        expression, depth = with_count(words.removeprefix("!").lstrip())
        first, *_, last = (places := places_of(expression)) * 2
        stored = STORED.search(told(f"stores {first}-{last.partition(' ')[2]} 1")) if len(places) > 1 else None
        place = f"s {stored[1]}" if stored else first
        show(told(f"why{'!' * words.startswith('!')} {place} {FOLLOWED if depth is None else depth}"))


class Changes(Command):
    """Tell the last changes of a place, the oldest first.
Usage: changes EXPRESSION [COUNT]

Ten, or as many as told; of more than a thousand the last ones."""

    def carry_out(self, words: str) -> None:
        expression, count = with_count(words)
        places = places_of(expression)
        found = changes_of(places, TOLD if count is None else count)
        for change in found:
            show_change(change)
        if not found:
            gdb.write("changes none\n")
        elif len(found) == MOST_TOLD != count and count_of(places) > MOST_TOLD:
            gdb.write("and more\n")


class Stores(Command):
    """Tell the last stores into a place, the oldest first, also those of an equal value.
Usage: stores EXPRESSION [COUNT]

Ten, or as many as told. Between the values stands = where they are the same."""

    def carry_out(self, words: str) -> None:
        expression, count = with_count(words)
        line = type(self).__name__.lower()
        show(told(f"{line} {extent_of(places_of(expression))} {TOLD if count is None else count}"))


class Readers(Stores):
    """Tell the last events that read a place since the last store there, the oldest first.
Usage: readers EXPRESSION [COUNT]

Ten, or as many as told: each with what it made of the place, or that the place decided
what it does."""


class Uses(Readers):
    """Tell the last events that read a place since the last store there, as `readers` does.
Usage: uses EXPRESSION [COUNT]"""


class History(Command):
    """Tell the last changes of any place, the oldest first.
Usage: history [COUNT]

Ten, or as many as told."""

    completion = gdb.COMPLETE_NONE

    def carry_out(self, words: str) -> None:
        show(told(f"history {words}".strip()))


class Visits(Command):
    """Tell the last times that what stands at an address was executed, the oldest first.
Usage: visits EXPRESSION [COUNT]
       visits svc CODE [COUNT]

Ten, or as many as told: of an instruction by the CPU, of a command word by a channel;
or of SVC with a code of two digits.
Behind each stand the registers that were altered since the one before."""

    def carry_out(self, words: str) -> None:
        if SUPERVISOR_CALL.fullmatch(words):
            show(told(f"visits {words}"))
            return
        expression, count = with_count(words)
        if not expression:
            raise gdb.GdbError("Argument required (an address).")
        address, _ = bytes_of(expression)
        text = told(f"visits {address:X} {TOLD if count is None else count}")
        # In gdb a number is decimal: which address was asked for is said where nothing is told of it.
        show(text.replace("none", f"none at {address:06X}"))


class Jumps(Command):
    """Tell the last branches and interruptions, the oldest first.
Usage: jumps [COUNT]

Ten, or as many as told: where each led to, and what decided it."""

    completion = gdb.COMPLETE_NONE

    def carry_out(self, words: str) -> None:
        show(told(f"jumps {words}".strip()))


class Calls(Command):
    """Tell the calls that have not returned, the innermost first.
Usage: calls

Each BAL, BALR and SVC, with where it goes on and its link."""

    completion = gdb.COMPLETE_NONE

    def carry_out(self, words: str) -> None:
        refuse(words)
        show(told("calls"))


class Where(Command):
    """Tell where the machine stands: how many changes stand, and what the CPU does next.
Usage: where

Also the last interruption, the PSW, and what is pending. A machine has no callers for a
backtrace, which is bt; see calls."""

    completion = gdb.COMPLETE_NONE

    def carry_out(self, words: str) -> None:
        refuse(words)
        show(told("where"))


class Dump(Command):
    """Show storage, or an item of a unit's media, in digits and in EBCDIC signs.
Usage: dump EXPRESSION [COUNT]
       dump m UNIT ITEM

Shows the bytes of a field, 64 bytes of an address, or as many as told."""

    def carry_out(self, words: str) -> None:
        if MONITOR_ITEM.fullmatch(words):
            gdb.write(told(f"dump {words}"))
            return
        expression, count = with_count(words)
        if not expression:
            raise gdb.GdbError("Argument required (a place).")
        address, length = bytes_of(expression)
        if count is None:
            count = length if length > 1 else DUMPED
        gdb.write(told(f"dump {address:X} {count}"))


class Units(Command):
    """Show all units with what their channels do, their sense bytes and their media.
Usage: units"""

    completion = gdb.COMPLETE_NONE

    def carry_out(self, words: str) -> None:
        gdb.write(told(f"units {words}".strip()))


class EventCommand(Command):
    """A command that moves the machine."""

    completion = gdb.COMPLETE_NONE
    choices: tuple[str, ...] = ()

    def carry_out(self, words: str) -> None:
        show(told(f"{type(self).__name__.lower()} {words}".rstrip()))
        gdb.execute("s360-renew")


class ChoiceCommand(EventCommand):
    """Such a command, whose word is one of a few."""

    # gdb asks `complete` then.
    completion = None

    def complete(self, _text: str, word: str) -> list[str]:
        return [choice for choice in self.choices if choice.startswith(word)]


class Key(ChoiceCommand):
    """Press a key of the operator.
Usage: key start|stop|reset|interrupt|eof|request"""

    choices = ("start", "stop", "reset", "interrupt", "eof", "request")


class Load(ChoiceCommand):
    """Press the load key: the machine is reset, and loads its program from a unit.
Usage: load UNIT

gdb's own command of this name is not there: `restore FILE` puts a file into storage."""

    choices = UNITS


class Enter(EventCommand):
    """Enter a line at the console.
Usage: enter TEXT"""


class Tick(EventCommand):
    """Let the timer count down once.
Usage: tick"""


class Withdraw(EventCommand):
    """Take a change out of those that stand, and run the later events again without it.
Usage: withdraw NUMBER"""


class Save(gdb.Command):
    """Save what a unit has at this moment, or what each change did, in a file.
Usage: save WHAT [-overwrite] FILE"""

    KINDS = {
        "printer": "the pages that were printed",
        "punch": "the cards that were punched",
        "P1": "the cards in this stacker of the punch",
        "P2": "the cards in this stacker of the punch",
        "RP3": "the cards in this stacker of the punch",
        "console": "what the console typed, and the lines that were entered",
        "tape0": "the tape of unit 180",
        "tape1": "the tape of unit 181",
        "trace": "what each change did, as comma-separated values",
    }

    def __init__(self, kind: str) -> None:
        # gdb shows it as the command's help.
        self.__doc__ = f"Save {self.KINDS[kind]} in a file.\nUsage: save {kind} [-overwrite] FILE"
        self.kind = kind
        super().__init__(f"save {kind}", gdb.COMMAND_USER, gdb.COMPLETE_FILENAME)

    def invoke(self, words: str, _from_terminal: bool) -> None:
        rest = words.removeprefix("-overwrite ")
        if not rest.strip():
            raise gdb.GdbError("Argument required (a file).")
        gdb.write(told(f"save{'!' if rest != words else ''} {self.kind} {rest.strip()}"))


class Marks(Command):
    """List the moments that `mark` has named.
Usage: marks"""

    completion = gdb.COMPLETE_NONE
    known: dict[str, int] = {}

    def carry_out(self, words: str) -> None:
        refuse(words)
        for name, number in sorted(self.known.items(), key=lambda mark: mark[1]):
            gdb.write(f"{name} {number}\n")
        if not self.known:
            gdb.write("No marks.\n")


class Mark(Command):
    """Name this moment, so that `goto NAME` goes to it.
Usage: mark NAME

A name is kept for the number of changes that stand."""

    completion = gdb.COMPLETE_NONE

    def carry_out(self, words: str) -> None:
        if not MARK.fullmatch(words) or words in Goto.ends:
            raise gdb.GdbError("A mark's name is letters, digits and _, and none of start, end and last.")
        Marks.known[words] = standing()
        gdb.write(f"{words} {Marks.known[words]}\n")


class Goto(ChoiceCommand):
    """Go to another moment of the record.
Usage: goto NUMBER|start|end|last|NAME

To just after the change of this number, to where nothing stands, to where all that
was recorded stands, to where it stood before the last `who` or `goto`, or to a mark."""

    ends = ("start", "end", "last")

    @property
    def choices(self) -> tuple[str, ...]:
        return (*self.ends, *Marks.known)

    def carry_out(self, words: str) -> None:
        if words not in self.ends and not words.isdigit():
            if words not in Marks.known:
                raise gdb.GdbError(f'No mark "{words}".' if words else "Argument required (a moment).")
            words = Marks.known[words]
        super().carry_out(words if words in self.ends or int(words) else "start")


class ChangesOf(gdb.Function):
    """How many changes stand: all, or those of a place, as in $_changes("COUNT") and $_changes(*(int*)0x300)."""

    def __init__(self) -> None:
        super().__init__("_changes")

    def invoke(self, value: gdb.Value | None = None) -> int:
        if value is None:
            return standing()
        if value.type.strip_typedefs().code == gdb.TYPE_CODE_ARRAY and value.address is None:
            places = places_of(value.string())
        elif value.address is not None:
            places = places_of_value(value)
        else:
            raise gdb.GdbError('A register is named in quotes: $_changes("$r5").')
        return count_of(places)


def keep_count(_event: gdb.Event | None = None) -> None:
    """Keeps $_change."""
    if machine():
        gdb.set_convenience_variable("_change", standing())


def count_in_condition(point: gdb.Breakpoint) -> None:
    """gdb evaluates a condition before it tells of a stop: there the number is asked for."""
    if point.condition and COUNT.search(point.condition):
        point.condition = COUNT.sub("$_changes()", point.condition)


for command in (Who, Why, Changes, Stores, Readers, Uses, History, Visits, Jumps, Calls, Where, Dump, Units):
    command()
for command in (Key, Load, Enter, Tick, Withdraw, Marks, Mark, Goto, Over, ReverseOver, Out, ReverseOut):
    command()
for kind in Save.KINDS:
    Save(kind)
ChangesOf()
for event in (gdb.events.memory_changed, gdb.events.register_changed):
    event.connect(keep_count)
# A hook comes before what is displayed at a stop, and an event of Python behind it.
gdb.execute("define hook-stop\npython keep_count()\nend")
for event in (gdb.events.breakpoint_created, gdb.events.breakpoint_modified):
    event.connect(count_in_condition)
