"""The instructions of the second machine whose operands are bytes in storage.

Source: GA22-6821, "Logical Operations" and "Decimal Arithmetic".
"""
import operator

from .core import ADDRESSES, Core, Interruption

# And, or, exclusive or, by the low half of their codes.
LOGIC = {4: operator.and_, 6: operator.or_, 7: operator.xor}


def digits_of(run):
    """The digits of bytes that come from the right."""
    for byte in run:
        yield byte & 15
        yield byte >> 4


def exchanged(byte):
    return (byte & 15) << 4 | byte >> 4


class Logical(Core):
    def immediate_instruction(self, code, second, address):
        self.check(address, 1, 1, is_store=code not in (0x91, 0x95))
        byte = self.byte(address)
        if code == 0x91:
            selected = byte & second
            self.set_condition_code(0 if selected == 0 else 3 if selected == second else 1)
        elif code == 0x92:
            self.put_byte(address, second)
        elif code == 0x93:
            self.set_condition_code(byte >> 7)
            self.put_byte(address, 255)
        elif code == 0x95:
            self.compare(byte, second)
        else:
            self.put_byte(address, LOGIC[code & 15](byte, second))
            self.bits(self.byte(address))

    # Instructions of two operands in storage. The length fields are one less than the lengths.

    def two_operands(self, code, lengths, first, second):
        if code == 0xD5:
            self.check_both(first, lengths + 1, second, lengths + 1, is_store=False)
            self.compare(self.number(first, lengths + 1), self.number(second, lengths + 1))
        elif 0xD1 <= code <= 0xD7:
            self.combine(code, lengths + 1, first, second)
        elif code == 0xDC:
            self.translate(lengths + 1, first, second)
        elif code == 0xDD:
            self.translate_and_test(lengths + 1, first, second)
        elif 0xF1 <= code <= 0xF3:
            self.move_digits(code, first, (lengths >> 4) + 1, second, (lengths & 15) + 1)
        else:
            raise Interruption(1)

    def check_both(self, first, count, second, second_count, is_store=True):
        """An operand outside storage comes before a protected one."""
        self.check_inside(first, count)
        self.check(second, second_count, 1, is_store=False)
        self.check(first, count, 1, is_store)

    def combine(self, code, count, first, second):
        self.check_both(first, count, second, count)
        kind, results = code & 15, 0
        for i in range(count):
            old, new = self.byte(first + i), self.byte(second + i)
            if kind == 1:
                new = old & 0xF0 | new & 0x0F
            elif kind == 3:
                new = old & 0x0F | new & 0xF0
            elif kind in LOGIC:
                new = LOGIC[kind](old, new)
            results |= new
            self.put_byte(first + i, new)
        if kind in LOGIC:
            self.bits(results)

    def function_bytes(self, count, first, table, is_store):
        """The addresses of an operand's bytes, each with the function byte that it selects once it
        is asked for. A function byte outside storage comes before a protected one, and before a
        protected operand."""
        self.check_inside(first, count)
        selected = []
        for at in range(first, first + count):
            selected.append((table + self.byte(at)) % ADDRESSES)
            self.check_inside(selected[-1], 1)
            yield at, self.byte(selected[-1])
            if not is_store and self.byte(selected[-1]):
                break
        for at in selected:
            self.check(at, 1, 1, is_store=False)
        self.check(first, count, 1, is_store)

    def translate(self, count, first, table):
        for at, function in self.function_bytes(count, first, table, is_store=True):
            self.put_byte(at, function)

    def translate_and_test(self, count, first, table):
        self.set_condition_code(0)
        for at, function in self.function_bytes(count, first, table, is_store=False):
            if function:
                self.load(1, self.register(1) & 0xFF000000 | at)
                self.load(2, self.register(2) & 0xFFFFFF00 | function)
                self.set_condition_code(2 if at == first + count - 1 else 1)

    def move_digits(self, code, first, count, second, second_count):
        """MVO, PACK and UNPK, which go from right to left."""
        self.check_both(first, count, second, second_count)
        source = self.from_the_right(second, second_count)
        digits = digits_of(source)
        last = first + count - 1
        low = self.byte(last) & 15
        zone = 0x50 if self.psw_field(51, 1) else 0xF0
        for at in range(last, first - 1, -1):
            if code == 0xF1:
                self.put_byte(at, next(digits) << 4 | low)
                low = next(digits)
            elif at == last:
                self.put_byte(at, exchanged(next(source)))
            elif code == 0xF2:
                self.put_byte(at, next(source) & 15 | (next(source) & 15) << 4)
            else:
                self.put_byte(at, zone | next(digits))
