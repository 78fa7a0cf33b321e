"""Steps past subroutines and out of them: gdb's own go by frames, which a System/360 does not have."""
import re

import gdb
from s360_command import Command, refuse
from s360_machine import MET, told
from s360_places import ADDRESS_BITS

BALR, BCR, BAL, BC = 0x05, 0x07, 0x45, 0x47
# The innermost call that has not returned: its change, and where it goes on.
CALL = re.compile(r"(\d+) .* returns to ([0-9A-F]{6})")


def call_at(address: int) -> tuple[int, int] | None:
    """The length and the first register of the BAL or BALR at an address, if one is there that branches."""
    try:
        code, registers = gdb.selected_inferior().read_memory(address & ADDRESS_BITS, 2).tobytes()
    except gdb.MemoryError:
        return None
    if code == BAL:
        return 4, registers >> 4
    return (2, registers >> 4) if code == BALR and registers & 0xF else None


def registers_of_branch(code: bytes) -> set[int]:
    """The registers by which a BC or BCR finds its target."""
    if code[:1] == bytes([BCR]):
        return {code[1] & 0xF}
    return {code[1] & 0xF, code[2] >> 4} if code[:1] == bytes([BC]) else set()


def last_instruction() -> bytes:
    """The instruction of the last event of the CPU. An interruption has none."""
    for count in (10**power for power in range(1, 8)):
        events = [MET.search(line) for line in told(f"history {count}").splitlines()]
        digits = [event["digits"] or "" for event in events if event and event["who"] == "cpu"]
        if digits or len(events) < count:
            return bytes.fromhex(digits[-1] if digits else "")
    return b""


class Over(Command):
    """Step one instruction, past a BAL or BALR to where it comes back.
Usage: over

Without a call it is `stepi`. Breakpoints and watches between stop it. A subroutine that
comes back elsewhere runs on to one of them."""

    completion = gdb.COMPLETE_NONE

    def carry_out(self, words: str) -> None:
        refuse(words)
        at = gdb.selected_frame().pc() & ADDRESS_BITS
        call = call_at(at)
        gdb.execute(f"advance *{at + call[0]:#x}" if call else "stepi")


class ReverseOver(Command):
    """Step one instruction back, past a subroutine to the BAL or BALR that called it.
Usage: reverse-over

A subroutine has come back if the last instruction was a branch by the register that a
BAL or BALR has set. Else it is `reverse-stepi`. Breakpoints and watches between stop it."""

    name = "reverse-over"
    completion = gdb.COMPLETE_NONE

    def carry_out(self, words: str) -> None:
        refuse(words)
        call = self.call_that_came_back()
        if call is None:
            gdb.execute("reverse-stepi")
            return
        direction = gdb.parameter("exec-direction")
        gdb.execute("set exec-direction reverse")
        try:
            gdb.execute(f"advance *{call:#x}")
        finally:
            gdb.execute(f"set exec-direction {direction}")

    @staticmethod
    def call_that_came_back() -> int | None:
        """Where the BAL or BALR is of the subroutine whose last instruction was the last of all."""
        for register in registers_of_branch(last_instruction()):
            back = int(gdb.selected_frame().read_register(f"r{register}")) & ADDRESS_BITS
            for length in (4, 2):
                if call_at(back - length) == (length, register):
                    return back - length
        return None


def innermost_call() -> tuple[int, int]:
    """The number of the change that called last and has not returned, and where that goes on."""
    found = CALL.match(told("calls"))
    if not found:
        raise gdb.GdbError("No call is open.")
    return int(found[1]), int(found[2], 16)


class Out(Command):
    """Run to where the innermost of `calls` goes on.
Usage: out

Breakpoints and watches before it stop it. A subroutine that comes back elsewhere runs
on to one of them."""

    completion = gdb.COMPLETE_NONE

    def carry_out(self, words: str) -> None:
        refuse(words)
        _, back = innermost_call()
        gdb.execute(f"advance *{back:#x}")


class ReverseOut(Command):
    """Go back to just before the innermost of `calls`.
Usage: reverse-out"""

    name = "reverse-out"
    completion = gdb.COMPLETE_NONE

    def carry_out(self, words: str) -> None:
        refuse(words)
        number, _ = innermost_call()
        told(f"goto {number - 1 or 'start'}")
        gdb.execute("s360-renew")
