"""Random lines of scripts, and parts of cases that are made of them."""
from second.channels import CAW, READER, START, TAPES, UNITS, Program
from second.core import ADDRESSES, BLOCK
from second.machine import STOPPED, TIMER
from second.scripts import BREAKPOINTS, EDGES, OTHER_UNITS

from . import media
from .media import CHAIN, OPERANDS
from .sessions import CHUNK, Sitting

KEYS = ("start", "stop", "reset", "interrupt", "request", "eof")
INSTRUCTION = 0x200
WAIT = 1 << 49  # of a PSW
# Commands of a tape that read it or move it, and one that writes a mark.
MOTIONS = (0x02, 0x0C, 0x37, 0x27, 0x3F, 0x3F, 0x2F, 0x2F, 0x07, 0x1F)


class Lines(Sitting):
    """A sitting whose lines are random."""

    def address(self):
        some, size = self.random, self.media.storage
        near = [*BREAKPOINTS[:6], 0, CAW, TIMER, CHAIN, OPERANDS, OPERANDS + some.randrange(CHUNK)]
        edges = [size - 1, size - 8, size, size - BLOCK, some.randrange(size), ADDRESSES - 1]
        return some.choices([some.choice(near), some.choice(edges)], [70, 30])[0]

    def unit(self):
        return self.random.choice([*UNITS * 4, *self.units_with(Program) * 8, *OTHER_UNITS[:2]])

    def digits(self, number, most):
        """A number with any zeros before it, in digits of either case."""
        some = self.random
        text = f"{number:X}"
        text = text.zfill(some.choice([len(text), len(text), most, some.randint(len(text), most)]))
        return text.lower() if some.random() < 0.3 else text

    def place(self):
        some = self.random
        register = f"r {some.randrange(16):X}"
        addresses = [f"{kind} {self.digits(self.address(), 6)}" for kind in "ssk"]
        units = [f"{kind} {self.digits(self.unit(), 3)}" for kind in "ud"]
        return some.choice([register, *addresses, *units, "p", "run", "ext"])

    def patch(self):
        some = self.random
        at = self.digits(self.address(), 6)
        count = some.choices([some.choice([1, 2, 4, 6, 8, 16]), 256, 257], [96, 3, 1])[0]
        run = some.choice([some.randbytes(count), bytes(count)]).hex()
        word = some.choice([*EDGES, some.getrandbits(32)])
        masks = some.choice([0, 0, 0xFF, 0x80, 0x01, 0x40])
        psw = masks << 56 | some.choice([0, 0, 1, 2, 5 << 4]) << 48 | some.getrandbits(24) << 24
        kinds = [
            f"s {at} {run}",
            f"s {at} {run}",
            f"r {some.randrange(16):X} {self.digits(word, 8)}",
            f"k {at} {some.choice('0055Fa')}",
            f"f {at} {some.choice('011')}",
            f"p {psw | some.choice([INSTRUCTION, 0, self.address()]):016X}",
        ]
        return f"patch {some.choice(kinds)}"

    def shown(self):
        some = self.random
        unit = self.digits(self.unit(), 3)
        count = some.choice([1, 2, 15, 16, 17, some.randint(1, CHUNK), CHUNK])
        item = some.choice([1, 1, 2, 3, 10_000_000])
        forms = ["regs", "psw", "ext", f"s {self.digits(self.address(), 6)} {count}"]
        forms += [f"k {self.digits(self.address(), 6)}", f"u {unit}", f"d {unit}"]
        forms += [f"m {unit} {item}", f"image {some.choice(TAPES):X}"]
        return f"show {some.choice(forms)}"

    def enter_line(self):
        text = self.line()
        return f"enter{' ' * bool(text)}{text}"

    def count_of_run(self):
        """Few events, or as many as can be where the machine is stopped."""
        is_idle = self.machine.value("run") == STOPPED and not self.units_with(Program)
        return 10_000_000 if is_idle else self.random.choice([1, 2, 3, 5, 20, 60])

    def withdrawal(self):
        """Of one of the last changes, or of one that is not there."""
        stand = len(self.debugger.changes)
        number = stand + 1 - self.random.choice([0, 1, 1, 2, 3, self.random.randrange(40)])
        return f"withdraw {max(number, 1)}"

    def any_line(self):
        """A line that is right."""
        some = self.random
        makers = {
            lambda: "step": 20,
            self.patch: 22,
            lambda: f"channel {self.digits(self.unit(), 3)}": 10,
            lambda: "tick": 5,
            lambda: f"key {some.choice(KEYS)}": 5,
            self.enter_line: 3,
            lambda: f"load {self.digits(self.unit(), 3)}": 3,
            lambda: f"run {self.count_of_run()}": 8,
            lambda: "back": 8,
            lambda: "until": 3,
            self.withdrawal: 4,
            lambda: f"break {self.digits(self.address(), 6)}": 4,
            lambda: f"clear {self.digits(self.address(), 6)}": 2,
            lambda: "standing": 2,
            lambda: f"last {self.place()}": 8,
            self.shown: 14,
        }
        return some.choices(list(makers), list(makers.values()))[0]()

    # Parts of cases.

    def set_breakpoints(self):
        """As many as can be kept, and some more."""
        for address in self.random.sample(range(0, 2 * CHUNK, 2), 67):
            self.say(f"break {address:X}")

    def put_instruction(self, instruction):
        self.patch_bytes(INSTRUCTION, instruction)
        masks = self.random.choices([0, 0xFE << 56], [9, 1])[0]
        self.say(f"patch p {masks | INSTRUCTION:016X}")

    def visit_breakpoint(self):
        """A breakpoint that the CPU comes to, at times waiting or stopped, and the way back."""
        some = self.random
        address = some.choice([0, INSTRUCTION, INSTRUCTION, self.address()])
        self.say(f"break {address:X}")
        for _ in range(some.randint(1, 3)):
            self.say(f"patch p {some.choice([0, 0, WAIT]) | address:016X}")
            self.say(some.choice(["step", "tick", "key stop", "key start", "run 3"]))
        self.say(some.choice(["until", "until", "run 5"]))

    def try_instruction(self):
        """An instruction with registers and operands, and what it leaves."""
        some = self.random
        for number in some.sample(range(16), 4):
            self.say(f"patch r {number:X} {self.word():X}")
        instruction = self.instruction()
        self.patch_operands(instruction)
        self.patch_inside(INSTRUCTION, instruction)
        self.say(f"patch p {self.psw(INSTRUCTION):016X}")
        self.say("step")
        self.say("show psw")
        self.say("show regs")
        places = self.debugger.changes[-1].places
        stored = [int(place[1:], 16) for place in places if place[0] == "s"]
        if stored:
            self.say(f"show s {stored[0]:X} {min(stored[-1] - stored[0] + 1, CHUNK)}")
        for place in places:
            if place[0] == "k":
                self.say(f"show k {place[1:]}")

    def show_unit(self, unit):
        """What its channel does, its sense and media, and its last item."""
        self.say(f"show u {unit:X}")
        self.say(f"show d {unit:X}")
        self.say(f"show m {unit:X} {max(len(self.machine.device(unit).items()), 1)}")

    def start_program(self, unit, key=0, at=CHAIN, code=START):
        """SIO of a unit, or another of its instructions."""
        if code == START:
            self.patch_bytes(CAW, (key << 28 | at).to_bytes(4, "big"))
        self.put_instruction(bytes([code, 0]) + unit.to_bytes(2, "big"))
        self.say("step")

    def use_unit(self, unit):
        """A short program of a unit, with its events."""
        some = self.random
        words = [media.command_word(some, unit, self.media.storage) for _ in range(3)]
        self.patch_bytes(CHAIN, b"".join(words))
        self.start_program(unit)
        for _ in range(some.randint(1, 4)):
            self.say(f"channel {unit:X}")
        self.show_unit(unit)

    def move_tape(self, unit):
        """Commands that read, space and mark a tape, each chained to the next."""
        commands = self.random.choices(MOTIONS, k=5)
        words = [media.word_of(command, OPERANDS, 0x60, 1) for command in commands]
        self.patch_bytes(CHAIN, b"".join(words))
        self.start_program(unit)
        self.say("run 6")
        self.show_unit(unit)

    def use_medium(self, unit):
        """What is on a medium, loading from it and reading it."""
        some = self.random
        items = len(self.machine.device(unit).items())
        for number in (1, items, items + 1, some.randint(1, items + 1)):
            self.say(f"show m {unit:X} {max(number, 1)}")
        for _ in range(some.randint(1, 4)):
            kind = some.randrange(5)
            if kind == 0:
                self.say(f"load {unit:X}")
                for _ in range(some.randint(1, 4)):
                    self.say(f"channel {unit:X}")
            elif kind == 1 and unit == READER:
                self.say("key eof")
            elif kind == 1:
                self.move_tape(unit)
            elif kind == 2:
                self.say(f"run {some.randint(1, 20)}")
            else:
                self.use_unit(unit)
            if some.random() < 0.2:
                self.say("back")
        if unit in TAPES:
            self.say(f"show image {unit:X}")
        self.say(f"show d {unit:X}")
