"""Conditions of breakpoints, as gdb sends them: expressions over the machine.

Source: gdb manual, "The GDB Agent Expression Mechanism", "Bytecode Descriptions". Values have 64 bits.
"""
import re

VALUES = 1 << 64
MOST_BYTES, MOST_ON_STACK = 4096, 64
LIST = re.compile(rb"X([0-9a-fA-F]{1,8}),")


class Wrong(Exception):
    """An expression that cannot be evaluated."""


def signed(value, bits=64):
    value %= 1 << bits
    return value - (1 << bits) if value >> bits - 1 else value


def quotient(first, second):
    """Toward zero. The least number divided by -1 has none."""
    whole = abs(first) // abs(second)
    whole = whole if (first < 0) == (second < 0) else -whole
    if signed(whole) != whole:
        raise Wrong
    return whole


def remainder(first, second):
    return first - second * quotient(first, second)


def less_than_all(bits):
    """By so many bits a value can be shifted."""
    if bits >= 64:
        raise Wrong
    return bits


# Of two values of the stack, the first below the second.
BINARY = {
    0x02: lambda a, b: a + b,
    0x03: lambda a, b: a - b,
    0x04: lambda a, b: a * b,
    0x05: lambda a, b: quotient(signed(a), signed(b)),
    0x06: lambda a, b: a // b,
    0x07: lambda a, b: remainder(signed(a), signed(b)),
    0x08: lambda a, b: a % b,
    0x09: lambda a, b: a << less_than_all(b),
    0x0A: lambda a, b: signed(a) >> less_than_all(b),
    0x0B: lambda a, b: a >> less_than_all(b),
    0x0F: lambda a, b: a & b,
    0x10: lambda a, b: a | b,
    0x11: lambda a, b: a ^ b,
    0x13: lambda a, b: a == b,
    0x14: lambda a, b: signed(a) < signed(b),
    0x15: lambda a, b: a < b,
}
LOG_NOT, BIT_NOT, EXT, ZERO_EXT = 0x0E, 0x12, 0x16, 0x2A
REF = {0x17: 1, 0x18: 2, 0x19: 4, 0x1A: 8}
IF_GOTO, GOTO, REG, END = 0x20, 0x21, 0x26, 0x27
CONST = {0x22: 1, 0x23: 2, 0x24: 4, 0x25: 8}
DUP, POP, SWAP, PICK, ROT = 0x28, 0x29, 0x2B, 0x32, 0x33
# How many bytes follow an opcode.
OPERANDS = dict.fromkeys([*BINARY, *REF, LOG_NOT, BIT_NOT, END, DUP, POP, SWAP, ROT], 0)
OPERANDS |= CONST | {EXT: 1, ZERO_EXT: 1, PICK: 1, IF_GOTO: 2, GOTO: 2, REG: 2}


def is_expression(code):
    """Whether it has known instructions alone, and each jump goes to one that comes later."""
    if len(code) > MOST_BYTES:
        return False
    at, begins, jumps = 0, set(), []
    while at < len(code):
        begins.add(at)
        if code[at] not in OPERANDS or at + OPERANDS[code[at]] >= len(code):
            return False
        if code[at] in (IF_GOTO, GOTO):
            jumps.append((at, int.from_bytes(code[at + 1 : at + 3], "big")))
        at += 1 + OPERANDS[code[at]]
    return all(target in begins and target > at for at, target in jumps)


def conditions_in(text):
    """The expressions of a list `X length,bytes X ..`, or none if it's no such list."""
    found, at = [], 0
    while at < len(text):
        head = LIST.match(text, at)
        if head is None:
            return None
        count = 2 * int(head[1], 16)
        digits = text[head.end() : head.end() + count]
        if len(digits) < count or not re.fullmatch(rb"[0-9a-fA-F]*", digits):
            return None
        found.append(bytes.fromhex(digits.decode()))
        at = head.end() + count
    return found if all(map(is_expression, found)) else None


class Evaluation:
    def __init__(self, code, words, machine):
        self.code, self.words, self.machine = code, words, machine
        self.stack = []

    def pop(self):
        if not self.stack:
            raise Wrong
        return self.stack.pop()

    def push(self, value):
        if len(self.stack) == MOST_ON_STACK:
            raise Wrong
        self.stack.append(int(value) % VALUES)

    def value(self):
        at = 0
        while at < len(self.code):
            opcode = self.code[at]
            following = at + 1 + OPERANDS[opcode]
            operand = int.from_bytes(self.code[at + 1 : following], "big")
            if opcode == END:
                return self.pop()
            at = self.carry_out(opcode, operand, following)
        raise Wrong

    def carry_out(self, opcode, operand, following):
        if opcode in BINARY:
            second, first = self.pop(), self.pop()
            try:
                self.push(BINARY[opcode](first, second))
            except ZeroDivisionError:
                raise Wrong from None
        elif opcode == LOG_NOT:
            self.push(self.pop() == 0)
        elif opcode == BIT_NOT:
            self.push(~self.pop())
        elif opcode == ZERO_EXT:
            self.push(self.pop() % (1 << operand))
        elif opcode == EXT:
            self.extend(operand)
        elif opcode in REF:
            self.push(self.fetched(self.pop(), REF[opcode]))
        elif opcode == GOTO or opcode == IF_GOTO and self.pop():
            return operand
        elif opcode in CONST:
            self.push(operand)
        elif opcode == REG:
            self.push(self.register(operand))
        else:
            self.arrange(opcode, operand)
        return following

    def extend(self, bits):
        """A sign is one of the bits that there are."""
        if bits == 0:
            raise Wrong
        self.push(signed(self.pop(), bits) if bits < 64 else self.pop())

    def fetched(self, at, count):
        if at + count > self.machine.size:
            raise Wrong
        return int.from_bytes(self.machine.run_of_bytes(at, count), "big")

    def register(self, number):
        if number >= len(self.words):
            raise Wrong
        return self.words[number]

    def arrange(self, opcode, operand):
        depth = {DUP: 1, POP: 1, SWAP: 2, ROT: 3, PICK: operand + 1}.get(opcode, 0)
        if len(self.stack) < depth:
            raise Wrong
        if opcode == DUP:
            self.push(self.stack[-1])
        elif opcode == PICK:
            self.push(self.stack[-depth])
        elif opcode == SWAP:
            self.stack[-2:] = self.stack[-1], self.stack[-2]
        elif opcode == ROT:
            self.stack[-3:] = self.stack[-1], self.stack[-3], self.stack[-2]
        elif opcode == POP:
            self.stack.pop()


def holds(code, words, machine):
    """Whether a condition holds; also where it can't be evaluated, so that gdb does."""
    try:
        return Evaluation(code, words, machine).value() != 0
    except Wrong:
        return True
