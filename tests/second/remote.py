"""The target of gdb over the second machine: what is answered to the data of a packet.

Sources: gdb manual, "Remote Serial Protocol" and "Reverse Execution"; docs/reference/gdb.md.
"""
import re

from .channels import UNITS, Program
from .conditions import conditions_in, holds
from .core import WORD
from .debugger import MOST_PATCHED
from .deciders import deciders
from .inquiries import Inquiries
from .lines import fault_of
from .machine import OPERATING
from .recording import Recording
from .savings import Savings
from .sources import sources

MEMORY, ADDRESS, MALFORMED, FULL = b"E0c", b"E0e", b"E16", b"E1c"
OK, TRAP, QUIET, INTERRUPT = b"OK", b"T05", b"T00", b"T02"
BREAKPOINT = b"T05swbreak:;"
RECORD_START, RECORD_END = b"T05replaylog:begin;", b"T05replaylog:end;"
MOST_POINTS = 64
# What a stop at a watched byte is told as: it was altered, read, or one of both.
WATCH, READ_WATCH, ACCESS_WATCH = b"watch", b"rwatch", b"awatch"
WORDS, LACKING = 18, 17 * 8 + 16 * 16
NUMBER = rb"([0-9a-fA-F]{1,8})"
TWO = NUMBER + rb"," + NUMBER
PAIRS = rb"((?:[0-9a-fA-F]{2})*)"
CONDITIONS = rb"(?:;(.*))?"
THREAD = rb"(-1|[0-9a-fA-F]{1,8})"
# A pause is looked for within so many events.
MOST_EVENTS = 3000
AT_START = "start of what was recorded\n"
AT_END = "end of what was recorded\n"
# The lines of a script, as help tells of them, and then those of gdb's user too.
LINES = [
    "step: a CPU event",
    "channel U: a channel event of a unit",
    "tick: a tick of the timer",
    "key K: the operator presses start, stop, reset, interrupt, eof or request",
    "enter TEXT: the operator enters a line at the console",
    "load U: the operator presses the load key",
    "patch s A BYTES: puts bytes into storage",
    "patch r R W: puts a word into a register",
    "patch k A K: gives the block of A a storage key",
    "patch f A D: gives the block of A a fetch bit, 0 or 1",
    "patch p Q: puts a doubleword into the PSW",
    "run N: runs at most N events",
    "back: takes back the last change",
    "until: takes changes back to a breakpoint of `break`",
    "withdraw N: withdraws the change of this number",
    "break A: sets a breakpoint of `run` and `until`",
    "clear A: takes one away",
    "standing: counts the changes that stand",
    "last s A, last r R, last k A, last p, last run, last ext, last u U, last d U: the last change"
    " of a place",
    "show regs: the general registers",
    "show psw: the PSW and the run state",
    "show s A N: bytes of storage",
    "show k A: a storage key",
    "show ext: the pending external conditions",
    "show u U: what the channel does for a unit",
    "show d U: the sense bytes and the media of a unit",
    "show m U N: an item of a unit's media",
    "show image U: the file of a tape",
]
HELP = [
    *LINES,
    "who P: goes to just before the last change of a place, as `last` names places, and tells it",
    "who m U N: goes to just before the last change of an item of a unit's media, and tells it",
    "why P, why P N: which event stored its value, and what that was made of, 5 or N events deep",
    "why! P, why! P N: the same in full, and what decided each event",
    "goto N, goto start, goto end, goto last: goes to just after change N, to either end, to where"
    " one stood before",
    "changes P, changes P N: the last 10 or N changes of a place",
    "stores P, stores P N, stores s A-B, stores s A-B N: the last 10 or N stores into a place or bytes, also of an equal value",
    "readers P, readers P N, readers s A-B, readers s A-B N: the last 10 or N events that read it since the last store there",
    "uses P, uses P N, uses s A-B, uses s A-B N: the same",
    "count P, count s A-B: how many changes altered it",
    "history, history N: the last 10 or N changes",
    "visits A, visits A N, visits svc I, visits svc I N: the last 10 or N events that executed what is at an address, or this SVC",
    "jumps, jumps N: the last 10 or N branches and interruptions",
    "calls: the calls that have not returned, the innermost first",
    "dump A N: bytes of storage with their signs",
    "dump m U N: an item of a unit's media with its signs",
    "units: all units with their media",
    "where: how far the recording stands, and what the CPU does next",
    "save printer FILE: saves the pages that were printed in a file that is not there yet",
    "save punch FILE, save P1 FILE, save P2 FILE, save RP3 FILE: saves the cards that were punched,"
    " all or those of a stacker",
    "save console FILE: saves what the console typed, and the lines that were entered",
    "save tape0 FILE, save tape1 FILE: saves the file of a tape",
    "save trace FILE: saves what each change did; FROM and TO behind FILE say from which to which",
    "save! WHAT FILE: writes over a file that is there",
]


def feature(name, registers):
    return f"<feature name='org.gnu.gdb.s390.{name}'>{''.join(registers)}</feature>"


def register(name, kind, group, bits=32):
    return f"<reg name='{name}' bitsize='{bits}' type='{kind}' group='{group}'/>"


def sixteen(name, *described):
    return [register(f"{name}{number}", *described) for number in range(16)]


def description():
    psw = [register(name, "uint32", "psw") for name in ("pswm", "pswa")]
    fpc = register("fpc", "uint32", "float")
    features = [
        feature("core", psw + sixteen("r", "uint32", "general")),
        feature("acr", sixteen("acr", "uint32", "access")),
        feature("fpr", [fpc, *sixteen("f", "ieee_double", "float", 64)]),
    ]
    head = "<?xml version='1.0'?><!DOCTYPE target SYSTEM 'gdb-target.dtd'><target>"
    return f"{head}<architecture>s390:31-bit</architecture>{''.join(features)}</target>".encode()


class Endless(Exception):
    """The machine does not pause within so many events."""


class Target:
    """Answers the data of packets, each by those of some packets; `ended` once gdb has left."""

    recording_type = Recording

    def __init__(self, *media, **options):
        self.recording = self.recording_type(*media, **options)
        self.inquiries = Inquiries(self.recording)
        self.savings = Savings()
        self.breaks, self.watches = {}, []  # of each address the conditions of which one has to hold
        self.untold = []  # bytes that were altered with the one that was told last
        self.is_interrupted = False
        self.is_moved = False  # by the last line of gdb's user
        self.is_stop_due = False
        self.is_extended = False
        self.ended = False
        self.told = []  # what is said on standard error
        self.description = description()

    @property
    def machine(self):
        return self.recording.machine

    def answer(self, data):
        if data in PLAIN:
            return [PLAIN[data]]
        if data in NAMED:
            return NAMED[data](self)
        for name, fields, answer in FORMS:
            if data.startswith(name):
                found = re.fullmatch(fields, data[len(name) :], re.DOTALL)
                return answer(self, *found.groups()) if found else [MALFORMED]
        return [b""]

    # Registers.

    def words(self):
        psw = self.machine.value("p")
        mask = psw >> 48 << 16 | (psw >> 24 & 0x3F) << 8
        return [mask, psw & 0xFFFFFF, *(self.machine.register(number) for number in range(16))]

    def all_registers(self):
        return [b"".join(b"%08x" % word for word in self.words()) + b"x" * LACKING]

    def register(self, number):
        number = int(number, 16)
        if number < WORDS:
            return [b"%08x" % self.words()[number]]
        return [b"x" * 8 if number < 35 else b"x" * 16] if number < 51 else [MALFORMED]

    def write_psw(self, mask, address):
        """Both words are a doubleword without the bits that the PSW does not have."""
        value = mask >> 16 << 48 | (mask >> 8 & 0x3F) << 24 | address & 0xFFFFFF
        self.recording.answer_patch("p", f"{value:016X}")

    def write_word(self, number, word):
        if number == 0:
            self.write_psw(word, self.words()[1])
        elif number == 1:
            self.write_psw(self.words()[0], word)
        else:
            self.recording.answer_patch("r", f"{number - 2:X}", f"{word:08X}")

    def write_register(self, number, word):
        number = int(number, 16)
        if number >= WORDS:
            return [MALFORMED]
        return self.written(lambda: self.write_word(number, int(word, 16)))

    def write_registers(self, digits):
        if len(digits) != 8 * WORDS + LACKING:
            return [MALFORMED]
        words = [int(digits[at : at + 8], 16) for at in range(0, 8 * WORDS, 8)]
        return self.written(lambda: self.write_words(words))

    def write_words(self, words):
        before = self.words()
        if before[:2] != words[:2]:
            self.write_psw(*words[:2])
        for number in range(2, WORDS):
            if before[number] != words[number]:
                self.write_word(number, words[number])

    def written(self, write):
        """What is dropped by a write is told on standard error."""
        self.recording.dropped = 0
        write()
        if self.recording.dropped:
            self.told.append(f"s360gdb: dropped {self.recording.dropped} recorded changes")
        return [OK]

    # Storage.

    def storage(self, at, count):
        at, count = int(at, 16), int(count, 16)
        if count == 0:
            return [MALFORMED]
        if at + count > self.machine.size:
            return [ADDRESS]
        return [self.machine.run_of_bytes(at, count).hex().encode()]

    def write_digits(self, at, count, digits):
        return self.write_storage(at, count, bytes.fromhex(digits.decode()))

    def write_storage(self, at, count, run):
        at = int(at, 16)
        if len(run) != int(count, 16):
            return [MALFORMED]
        if at + len(run) > self.machine.size:
            return [ADDRESS]
        return self.written(lambda: self.write_run(at, run))

    def write_run(self, at, run):
        for first in range(0, len(run), MOST_PATCHED):
            part = run[first : first + MOST_PATCHED]
            self.recording.answer_patch("s", f"{at + first:X}", part.hex())

    # Points.

    def insert_break(self, at, _kind, conditions):
        """A further one at an address takes the place of the conditions that it had."""
        at, conditions = int(at, 16), conditions_in(conditions or b"")
        if conditions is None:
            return [MALFORMED]
        if at not in self.breaks and len(self.breaks) == MOST_POINTS:
            return [FULL]
        self.breaks[at] = conditions
        return [OK]

    def remove_break(self, at, _kind):
        self.breaks.pop(int(at, 16), None)
        return [OK]

    def insert_watch(self, name, at, count):
        watch = name, int(at, 16), int(count, 16)
        if watch[1] + watch[2] > self.machine.size:
            return [ADDRESS]
        if watch not in self.watches:
            if len(self.watches) == MOST_POINTS:
                return [FULL]
            self.watches.append(watch)
        return [OK]

    def remove_watch(self, name, at, count):
        out = name, int(at, 16), int(count, 16)
        self.watches = [watch for watch in self.watches if watch != out]
        return [OK]

    def is_at_breakpoint(self):
        own, self.recording.breakpoints = self.recording.breakpoints, self.breaks
        answer = self.recording.is_at_breakpoint()
        self.recording.breakpoints = own
        return answer and self.is_to_stop(self.breaks[self.words()[1]])

    def is_to_stop(self, conditions):
        return not conditions or any(holds(one, self.words(), self.machine) for one in conditions)

    def met(self, change, reads):
        """The watched bytes that a change altered, and then those that its event read or stored: the first of each
        watch that has none before."""
        altered, told = set(change.places), []
        made_of, others, fetched = reads
        read = set(others).union(*(made_of.get(place, [place]) for place in change.noted)) - fetched
        met_by = [{WATCH: altered}, {READ_WATCH: read, ACCESS_WATCH: read.union(change.noted)}]
        for places in met_by:
            for name, at, count in self.watches:
                run = range(at, at + count)
                if not any(byte in run for _, byte in told):
                    told += [(name, byte) for byte in run if f"s{byte:06X}" in places.get(name, ())][:1]
        return told

    def reads(self, event):
        """What values are made of that an event puts, what decides it, and the instruction that it fetches, which is no reading."""
        name, fields = event if isinstance(event, tuple) else (event, ())
        if all(watch[0] == WATCH for watch in self.watches):
            return {}, [], set()
        fetched = self.instruction() if name == "cpu" else ()
        return sources(self.machine, name, fields), deciders(self.machine, name), set(fetched)

    def instruction(self):
        """The bytes at the instruction address, as many as the instruction there has."""
        at = self.words()[1]
        if at >= self.machine.size:
            return []
        length = [2, 4, 4, 6][self.machine.run_of_bytes(at, 1)[0] >> 6]
        return [f"s{byte:06X}" for byte in range(at, at + length)]

    def tell_met(self, change, reads):
        """The stop at watched bytes, if the change met one. The others are told next."""
        self.untold = self.met(change, reads)
        return self.tell_untold()

    def tell_untold(self):
        """The stop at a byte that was met and that gdb was not told of, if it watches one of them."""
        self.untold = [(name, at) for name, at in self.untold if self.is_watched(at)]
        return [b"T05%s:%x;" % self.untold.pop(0)] if self.untold else None

    def is_watched(self, at):
        return any(first <= at < first + count for _, first, count in self.watches)

    # Going on and back.

    def resumed(self, move):
        """What is still to be told comes before the machine moves."""
        if self.is_interrupted:
            self.is_interrupted = False
            return [INTERRUPT]
        if self.is_stop_due:
            self.is_stop_due = False
            return [TRAP]
        return self.tell_untold() or move()

    def step(self):
        end = [said(AT_END), QUIET]
        return self.resumed(lambda: self.go_on(lambda change: TRAP if is_cpu(change) else None, end))

    def resume(self):
        reached = lambda _change: BREAKPOINT if self.is_at_breakpoint() else None
        return self.resumed(lambda: self.go_on(reached, [RECORD_END]))

    def go_on(self, reached, end):
        """Runs events to a pause. If there is none within so many, all is as it was."""
        recording = self.recording
        standing, later = len(recording.changes), list(recording.later)
        for _ in range(MOST_EVENTS):
            if (answer := self.turn(reached, end)) is not None:
                return answer
        while len(recording.changes) > standing:
            recording.take_back()
        recording.later = later
        return self.endless()

    def endless(self):
        raise Endless

    def turn(self, reached, end):
        """Runs the event whose turn it is, and answers why the machine pauses then, if it does."""
        recording = self.recording
        is_recorded = bool(recording.later)
        if not is_recorded and self.is_at_rest():
            return [said(self.why_idle(recording.changes[-1])), QUIET]
        event, act = recording.later[-1][:2] if is_recorded else recording.offered()
        reads = self.reads(event)
        recording.happen(event, act)
        change = recording.changes[-1]
        if not is_recorded and not change.places:
            return [said(self.why_idle(change)), QUIET]
        if (answer := self.tell_met(change, reads)) is not None:
            return answer
        is_end = is_recorded and not recording.later
        stop = reached(change)
        if is_end and stop != BREAKPOINT:
            return end
        return [stop] if stop is not None else None

    def is_at_rest(self):
        """Whether the event whose turn it is was run last, and altered nothing."""
        recording = self.recording
        last = recording.changes[-1] if recording.changes else None
        return last is not None and not last.places and last.event[0] == recording.offered()[0]

    def why_idle(self, change):
        machine, name = self.machine, change.event[0]
        if machine.value("run") != OPERATING:
            return "idle: the CPU is stopped\n"
        if name.startswith("channel"):
            return "idle: the console waits for a line\n"
        waits = machine.psw_field(49, 1)
        return f"idle: the {'CPU waits' if waits else 'instruction altered nothing'}\n"

    def step_back(self):
        start = [said(AT_START), QUIET]
        return self.resumed(lambda: self.go_back(lambda change: TRAP if is_cpu(change) else None, start))

    def resume_back(self):
        reached = lambda _change: BREAKPOINT if self.is_at_breakpoint() else None
        return self.resumed(lambda: self.go_back(reached, [RECORD_START]))

    def go_back(self, reached, start):
        while self.recording.changes:
            change = self.recording.changes[-1]
            self.recording.take_back()
            if (answer := self.tell_met(change, self.reads(change.event))) is not None:
                return answer
            if (stop := reached(change)) is not None:
                return [stop]
        return start

    def interrupt(self):
        """The byte 03 came between packets."""
        self.is_interrupted = True

    # The rest.

    def part_of_description(self, offset, count):
        return part(self.description, offset, count)

    def line(self, digits):
        """A line that saves, an inquiry, or a line of the script language."""
        line = bytes.fromhex(digits.decode())
        standing = len(self.recording.changes)
        self.recording.dropped = 0
        asked = self.savings.answers(line, self.inquiries) or self.inquiries.answers(line)
        answers = HELP if line == b"help" else asked or self.answers_to(line)
        self.is_moved = len(self.recording.changes) != standing
        if self.recording.dropped:
            answers = [*answers, f"dropped {self.recording.dropped} recorded changes"]
        if not answers:
            return [OK]
        return ["".join(f"{answer}\n" for answer in answers).encode().hex().encode()]

    def has_moved(self):
        """Whether the last line moved the machine. If so the next step is a stop where it is."""
        if self.is_moved:
            self.is_stop_due, self.untold = True, []
        return [b"%d" % self.is_moved]

    def answers_to(self, line):
        # What a script skips has no answer.
        if line.startswith(b"*") or not line.strip(b" "):
            return []
        fault = fault_of(line)
        return [fault] if fault else self.recording.answer(line.decode())

    def part_of_map(self, offset, count):
        """All of storage can be written, and nothing else is there."""
        size = b"<memory type='ram' start='0x0' length='0x%x'/>" % self.machine.size
        return part(b"<memory-map>%s</memory-map>" % size, offset, count)

    def thread(self, number):
        """There is one thread, whose number is 1; 0 is any, and -1 all of them."""
        return [OK if number == b"-1" or int(number, 16) <= 1 else b"E03"]

    def leave(self, *_process):
        self.ended = not self.is_extended
        return [OK]

    def kill(self):
        self.ended = not self.is_extended
        return []

    def extend(self):
        """gdb starts the machine anew instead of leaving."""
        self.is_extended = True
        return [OK]

    def start_anew(self, *_words):
        self.restart()
        return [TRAP]

    def restart(self, *_words):
        """All changes are taken back, and stay recorded."""
        while self.recording.changes:
            self.recording.take_back()
        self.is_stop_due, self.untold = False, []
        return []


def is_cpu(change):
    return change.event[0] == "cpu"


def part(text, offset, count):
    """A part of a text, and whether it's the last."""
    rest, count = text[int(offset, 16) :], int(count, 16)
    return [b"l" + rest if len(rest) <= count else b"m" + rest[:count]]


def said(text):
    """A text for gdb's user, which comes before a stop."""
    return b"O" + text.encode().hex().encode()


SUPPORTED = b"PacketSize=4000;qXfer:features:read+;ReverseStep+;ReverseContinue+;swbreak+"
SUPPORTED += b";QStartNoAckMode+;qXfer:memory-map:read+;ConditionalBreakpoints+"
PLAIN = {b"?": TRAP, b"qSupported": SUPPORTED, b"qC": b"QC1", b"qAttached": b"1"}
PLAIN |= {b"qfThreadInfo": b"m1", b"qsThreadInfo": b"l", b"QStartNoAckMode": OK}
NAMED = {b"g": Target.all_registers, b"s": Target.step, b"c": Target.resume, b"k": Target.kill}
NAMED |= {b"!": Target.extend, b"qs360.moved": Target.has_moved}
NAMED |= {b"bs": Target.step_back, b"bc": Target.resume_back, b"D": Target.leave}
# The name of a request, what follows it, and what answers it.
FORMS = [
    (b"m", TWO, Target.storage),
    (b"M", TWO + b":" + PAIRS, Target.write_digits),
    (b"X", TWO + b":(.*)", Target.write_storage),
    (b"p", NUMBER, Target.register),
    (b"P", NUMBER + rb"=([0-9a-fA-F]{8})", Target.write_register),
    (b"G", PAIRS, Target.write_registers),
    (b"qRcmd,", PAIRS, Target.line),
    # The address that they may have in the manual isn't taken.
    (b"s", b"(?!)", None),
    (b"c", b"(?!)", None),
    (b"Hg", THREAD, Target.thread),
    (b"Hc", THREAD, Target.thread),
    (b"T", THREAD, Target.thread),
    (b"qSupported:", b".*", lambda target: [SUPPORTED]),
    (b"qXfer:features:read:", rb"target\.xml:" + TWO, Target.part_of_description),
    (b"qXfer:memory-map:read:", rb":" + TWO, Target.part_of_map),
    (b"vKill;", NUMBER, Target.leave),
    (b"vRun;", b".*", Target.start_anew),
    (b"R", b".*", Target.restart),
    (b"Z0,", TWO + CONDITIONS, Target.insert_break),
    (b"Z1,", TWO + CONDITIONS, Target.insert_break),
    (b"Z2,", TWO, lambda target, *words: target.insert_watch(WATCH, *words)),
    (b"Z3,", TWO, lambda target, *words: target.insert_watch(READ_WATCH, *words)),
    (b"Z4,", TWO, lambda target, *words: target.insert_watch(ACCESS_WATCH, *words)),
    (b"z0,", TWO, Target.remove_break),
    (b"z1,", TWO, Target.remove_break),
    (b"z2,", TWO, lambda target, *words: target.remove_watch(WATCH, *words)),
    (b"z3,", TWO, lambda target, *words: target.remove_watch(READ_WATCH, *words)),
    (b"z4,", TWO, lambda target, *words: target.remove_watch(ACCESS_WATCH, *words)),
]
