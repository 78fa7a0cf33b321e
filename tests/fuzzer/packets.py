"""Random packets of gdb: requests that are right or nearly so, and packets that are damaged."""
import random

from packet_rows import escaped

STORAGE = 65536
HEX = b"0123456789abcdefABCDEF"
# Where programs are written, and what they address.
CODE, DATA = 0x200, 0x300
ADD_LOAD_SUBTRACT, BRANCHES, SINGLE_WORDS = (0x18, 0x1A, 0x1B, 0x1E), (0x06, 0x07), (0x50, 0x58)
BYTES_AND_SUMS, START_AND_TEST = (0x42, 0x43, 0x46, 0x5A), (0x9C, 0x9D)
READER, PRINTER, CONSOLE = 0x0C, 0x0E, 0x1F
# LA 1,3(1) and ST 1,304; and BCT 3,200
COUNTS, AGAIN = bytes.fromhex("4110100350100304"), bytes.fromhex("46300200")
KNOWN = b"? g qSupported qSupported:a+ qC qAttached qfThreadInfo qsThreadInfo Hg0 Hc-1 T1".split()
KNOWN += b"qs360.moved qs360.moved qs360.moved vRun; vRun;61 R00 qXfer:memory-map:read::0,40".split()
WRONG = [b"vCont?", b"qTStatus", b"H", b"Hgx", b"T", b"s200", b"c200", b""]
LINES = ["step", "tick", "back", "back", "until", "standing", "help", "x y", "", "* no comment"]
LINES += [f"key {key}" for key in ("start", "stop", "reset", "interrupt", "eof", "request")]
LINES += [f"channel {unit}" for unit in ("00C", "00E", "01F", "999")]
LINES += ["load 00C", "run 5", "enter", "enter AB", f"enter {'A' * 257}", "enter ~"]
LINES += ["last p", "last u 00C", "show psw", "show regs", "show u 00C", "show d 00C"]
LINES += ["show m 00E 1", "show ext", "show k 200", "show image 180"]
LINES += ["goto start", "goto end", "goto end", "goto last", "goto last", "units", "where", "where"]
LINES += ["history", "who", "goto", "dump 0", "where x", "changes x"]
LINES += ["jumps", "jumps", "calls", "calls", "calls", "visits", "visits 200"]
LINES += ["patch k 200 3", "patch f 200 1", "patch f 1000 1"]
LINES = [line.encode() for line in LINES]
SAVED = [b"printer", b"printer", b"printer", b"console", b"console", b"punch", b"P1", b"P2", b"RP3"]
SAVED += [b"tape0", b"tape1", b"x", b"", b"trace", b"trace", b"trace"]
FILES = [b"a", b"a", b"b c", b" b  c", b"no/a", b"..", b"/dev/null", b"/dev/full", b""]
# What may stand behind the name of a trace's file, and what of that is no part of the name.
RANGES = [b"", b"", b"", b" 3 9", b"  1   5 ", b" 40 60", b" 2 10000000"]
MORE_OF_A_NAME = [b" 9 3", b" 0 5", b" 7", b" 1 10000001", b"3 9"]
NAMED = ["p", "run", "ext"]
PLACES = ["p", "run", "ext", "u 00C", "u 00E", "d 00C", "d 01F", "k 200", "u 999"]
# How often a kind of request is made.
KINDS = {"forward": 20, "backward": 12, "write": 8, "loop": 2, "point": 8, "register": 10}
KINDS |= {"all_registers": 2, "line": 12, "storage": 8, "read_register": 4, "description": 2}
KINDS |= {"plain": 12, "why": 6, "condition": 6}
# What expressions are made of: each with the bytes that may follow it.
OPERATIONS = [bytes([code]) for code in (*range(0x02, 0x0C), *range(0x0E, 0x16), 0x28, 0x29, 0x2B, 0x33)]
REFERENCES = [bytes([code]) for code in range(0x17, 0x1B)]


class Requests(random.Random):
    """Random requests, and packets that carry them. What a place comes from is asked of those that
    changes altered, where there are some."""

    changes = ()

    def digits(self, count):
        return bytes(self.choice(HEX) for _ in range(count))

    def code(self):
        """The address of an instruction, or of the middle of one."""
        return CODE + 2 * self.randrange(24)

    def address(self):
        near = [self.code(), DATA + self.randrange(64), 8 * self.randrange(16)]
        far = [STORAGE - self.randrange(8), STORAGE, self.randrange(STORAGE), 2**32 - 1]
        return self.choice(near * 4 + far)

    def count(self):
        return self.choice([0, 1, 2, 4, 4, 8, 16, 64, self.randrange(600), 2**32 - 1])

    def instruction(self):
        """One that can be executed, over a few registers and addresses; at times any two bytes."""
        register, pair = self.randrange(4) << 4, self.randrange(4) << 4 | self.randrange(4)
        at = self.choice([DATA + 4 * self.randrange(8), self.code()]).to_bytes(2, "big")
        return self.choice(
            [
                bytes([self.choice(ADD_LOAD_SUBTRACT), pair]),
                bytes([self.choice(BRANCHES), self.randrange(16) << 4 | self.randrange(4)]),
                bytes([self.choice([0x41, *SINGLE_WORDS, *BYTES_AND_SUMS]), register, *at]),
                bytes([0x47, self.randrange(16) << 4, *at]),
                bytes([0x92, self.randrange(256), *at]),
                bytes([0xD2, self.randrange(8), *at, DATA >> 8, self.randrange(64)]),
                bytes([0x0A, self.choice([self.randrange(4), self.randrange(256)])]),
                bytes([self.choice(START_AND_TEST), 0, 0, self.choice([READER, PRINTER, CONSOLE])]),
                self.randbytes(2),
            ]
        )

    def run_of_bytes(self):
        if self.random() < 0.5:
            return b"".join(self.instruction() for _ in range(self.randrange(1, 8)))
        count = self.choices([self.randrange(12), self.randrange(200, 600)], [9, 1])[0]
        return self.choice([self.randbytes(count), bytes(count), b"#$*}"[: count % 5]])

    # Requests of each kind.

    def forward(self):
        return self.choice([b"s", b"c"])

    def backward(self):
        return self.choice([b"bs", b"bc"])

    def write(self):
        at, run = self.address(), self.run_of_bytes()
        digits = b"M%x,%x:%s" % (at, len(run), run.hex().encode())
        return self.choice([digits, b"X%x,%x:%s" % (at, len(run), run)])

    def loop(self):
        """Some instructions, then a store, and back to the first while register 3 counts."""
        body = b"".join(self.instruction() for _ in range(self.randrange(3)))
        run = body + COUNTS + AGAIN
        return b"X%x,%x:%s" % (CODE, len(run), run)

    def point(self):
        """A breakpoint, or bytes that are watched, mostly where the machine gets to."""
        near = self.choice([self.code(), DATA + self.randrange(8)])
        at = near if self.random() < 0.8 else self.address()
        name, kind = self.choice([b"Z", b"Z", b"z"]), self.choice([0, 0, 1, 2, 2, 3, 4, 5])
        return b"%s%d,%x,%x" % (name, kind, at, self.choice([1, 2, 4, 4, self.count()]))

    def register(self):
        number = self.choice([1, 1, 3, 4, 5, self.randrange(20)])
        words = [CODE, CODE, self.code(), DATA, self.randrange(8), self.getrandbits(32)]
        return b"P%x=%08x" % (number, self.choice(words))

    def all_registers(self):
        words = self.choice([bytes(72), self.randbytes(4) + CODE.to_bytes(4, "big") + bytes(64)])
        return b"G" + words.hex().encode() + self.digits(self.choice([392, 392, 392, 390]))

    def number_of_expression(self):
        """Code that puts a number on the stack: a constant, a register, or what storage has."""
        at = self.choice([DATA + self.randrange(64), self.randrange(STORAGE), STORAGE - 2])
        fetched = b"\x23" + at.to_bytes(2, "big") + self.choice(REFERENCES)
        register = b"\x26\0" + bytes([self.choice([1, 3, 4, 5, self.randrange(20)])])
        small = b"\x22" + bytes([self.choice([0, 1, 3, 64, self.randrange(256)])])
        wide = self.choice([b"\x24" + self.randbytes(4), b"\x25" + self.randbytes(8)])
        return self.choice([fetched, register, register, small, small, wide])

    def expression(self):
        """One that gdb could send, or nearly so: at times with a jump over a part of it."""
        code = self.number_of_expression()
        for _ in range(self.randrange(5)):
            extended = self.choice([b"\x16", b"\x2a"]) + bytes([self.choice([8, 32, 64, self.randrange(70)])])
            binary = self.number_of_expression() + self.choice(OPERATIONS)
            picked = b"\x32" + bytes([self.randrange(3)])
            code += self.choice([extended, binary, binary, binary, self.choice(OPERATIONS), picked])
        if self.random() < 0.4:
            over, jump = self.number_of_expression(), self.choice([b"\x20", b"\x21"])
            target = len(code) + 3 + self.choice([len(over), len(over), self.randrange(12)])
            code += jump + target.to_bytes(2, "big") + over
        return code + self.choice([b"\x27", b"\x27", b"\x27", b"", self.randbytes(2)])

    def condition(self):
        """A breakpoint with conditions."""
        conditions = [self.expression() for _ in range(self.choice([1, 1, 2, 3]))]
        listed = b"".join(b"X%x,%s" % (len(one), one.hex().encode()) for one in conditions)
        return b"Z%d,%x,4;%s" % (self.choice([0, 0, 1]), self.code(), listed)

    def line(self):
        at, number = self.address() % (1 << 24), self.randrange(1, 30)
        others = [
            *[b"run %d" % number, b"withdraw %d" % number, b"break %X" % at, b"clear %X" % at],
            *[b"patch s %X %s" % (at, self.randbytes(number).hex().encode()), b"patch k %X 5" % at],
            *[b"patch f %X %d" % (at, number % 2), b"show k %X" % at],
            *[b"patch r 1 %X" % number, b"patch p 00%d2000000000%06X" % (number % 2, CODE)],
            *[b"last s %X" % at, b"last r %d" % (number % 4), b"show s %X 20" % at],
        ]
        lines = [*LINES, *others, *self.inquiries(), *self.savings()]
        return b"qRcmd," + self.choice(lines).hex().encode()

    def savings(self):
        return [self.saving() for _ in range(24)]

    def saving(self):
        word, what, file = map(self.choice, ([b"save", b"save!"], SAVED, FILES))
        ends = RANGES if what == b"trace" else [b""]
        # No other file of /dev is named.
        ends = ends if b"/dev" in file else [*ends, *MORE_OF_A_NAME]
        return b" ".join([word, what, file]) + self.choice(ends)

    def inquiries(self):
        at, number = self.address() % (1 << 24), self.randrange(1, 30)
        place = self.choice([*PLACES, f"s {at:X}", f"k {at:X}", f"r {number % 4}"]).encode()
        places = [b"who %s" % place, b"changes %s" % place, b"changes %s %d" % (place, number), b"stores %s %d" % (place, number)]
        places += [b"readers %s" % place, b"uses %s %d" % (place, number), b"count %s" % place, b"readers %s" % self.stored()]
        places += [b"%s s %X-%X" % (self.choice([b"stores", b"readers", b"count"]), at, at + self.randrange(-1, 64))]
        numbers = [b"goto %d" % number, b"history %d" % number, b"dump %X %d" % (at, number)]
        visits = [b"visits %X" % self.code(), b"visits %X %d" % (at, number), b"jumps %d" % number, b"visits svc %X" % (number % 4)]
        item = b"%s %d" % (self.choice([b"00C", b"00E", b"00E", b"01F", b"180", b"999"]), number % 4)
        items = [b"who m %s" % item, b"dump m %s" % item]
        return places * 3 + numbers * 2 + visits * 2 + items

    def why(self):
        depth = self.choice(["", *range(7), self.choice([7, 30, 100, 101, "x"])])
        line = b"%s %s %s" % (self.choice([b"why", b"why", b"why!"]), self.stored(), str(depth).encode())
        return b"qRcmd," + line.hex().encode()

    def stored(self):
        """A place that an event stored, most of them by the CPU, or any that has a name."""
        storing = [change for change in self.changes if change.noted]
        by_cpu = [change for change in storing if change.event[0] == "cpu"]
        some = by_cpu if by_cpu and self.random() < 0.7 else storing
        place = self.choice(sorted(self.choice(some).noted) if some else NAMED)
        return (place if place in NAMED else f"{place[0]} {place[1:]}").encode()

    def storage(self):
        return b"m%x,%x" % (self.address(), self.count())

    def read_register(self):
        return b"p%x" % self.choice([self.randrange(60), 2**32 - 1])

    def description(self):
        name = b"qXfer:features:read:target.xml:"
        return b"%s%x,%x" % (name, self.randrange(4000), self.count())

    def plain(self):
        """A request of no consequence, one that is malformed, or one that isn't known."""
        return self.choice([*KNOWN, *WRONG, self.randbytes(5)])

    def request(self):
        """A request that is right, or nearly so. No name of a file is spoilt, since it could be
        that of any file then."""
        kind = self.choices(list(KINDS), KINDS.values())[0]
        data = getattr(self, kind)()
        names_file = b"save".hex().encode() in data
        return self.spoilt(data) if self.random() < 0.08 and not names_file else data

    def spoilt(self, data):
        spoilt = bytearray(data)
        for _ in range(self.randrange(1, 3) if spoilt else 0):
            byte = self.choice([self.randrange(256), self.choice(HEX)])
            spoilt[self.randrange(len(spoilt))] = byte
        return bytes(spoilt)

    def packet(self, data):
        """A packet of the data, or one that is cut, or spoilt, or stands behind other bytes."""
        special = self.choice([b"#$}", b"#$*}", bytes([*b"#$}", *self.randbytes(9)])])
        text = escaped(data, special)
        packet = b"$%s#%s" % (text, self.choice([b"%02x", b"%02X"]) % (sum(text) % 256))
        kind = self.random()
        if kind < 0.05:
            return packet[: self.randrange(len(packet))]
        if kind < 0.1:
            return self.randbytes(self.randrange(20)) + packet
        if kind < 0.13:
            return packet[:-1] + bytes([self.choice(HEX + b"g#$}")])
        if kind < 0.16:
            return self.choice([b"\x03", b"+", b"-"]) + packet
        return packet
