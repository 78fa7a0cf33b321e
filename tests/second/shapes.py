"""The shape of an event: what it does, and where, but no value that it moves.

Of an instruction it is its address, its bytes and those of the subject that it executes, where its
operands are, and the code of the program interruption that it ends with; of an input/output
instruction besides the condition code and what the channels store and make of units; of an
interruption its cause; of a channel event the program, the words that are fetched, how the device
begins, where bytes are stored, and the state afterwards, each without the bytes of a record; of a
tick whether the machine operates.

Source: docs/DECISIONS.md, "Sources".
"""
from typing import NamedTuple

from .channels import DATA_CHAIN, HALT, LOAD, SIO, START, TEST, TEST_CHANNEL, Ccw, Program
from .core import ADDRESSES, BLOCK, Interruption
from .devices import INPUT, begun
from .machine import OPERATING
from .sources import performed_at, trial

INPUT_OUTPUT = (START, TEST, HALT, TEST_CHANNEL)
STORAGE_KEYS = (b"\x08", b"\x09")
# The codes of an operation that there is not, and of an execute that is executed.
NOTHING_PERFORMED = (1, 3)


class Instruction(NamedTuple):
    """One that is performed, or the interruption in its place."""

    at: int
    fetched: bytes
    performed: bytes
    operands: list[int]
    code: int | None
    by_channels: dict

    @property
    def name(self):
        return f"interruption {self.code}" if self.code else self.performed[:1].hex().upper()


class Word(NamedTuple):
    """One of a channel program, with the address of the program and what comes of it."""

    program: Program
    ccw: Ccw | None
    target: Ccw | None
    begins: tuple
    puts: list[str]
    state: object
    run: object

    name = "channel"


class Other(NamedTuple):
    name: str
    what: object = None


def shape(machine, event):
    """That of an event that this machine meets, by the name of the event."""
    kind, *words = event.split()
    if kind == "cpu":
        return of_cpu(machine)
    if kind == "channel" and isinstance(machine.unit(int(words[0], 16)), Program):
        return of_channel(machine, int(words[0], 16))
    return Other(kind, machine.value("run") == OPERATING if kind == "tick" else None)


def of_cpu(machine):
    if machine.value("run") != OPERATING:
        return Other("idle")
    if machine.value("ext") and machine.psw_field(56, 1):
        return Other("interruption external", machine.value("ext"))
    if (unit := machine.waiting()) is not None:
        return Other("interruption io", (unit, machine.control(unit)))
    return Other("idle") if machine.psw_field(49, 1) else of_instruction(machine)


def of_instruction(machine):
    at = machine.psw_field(0, 24)
    fetched = performed = b""
    code, by_channels = None, {}
    with trial(machine) as put:
        try:
            fetched = machine.instruction_at(at)
            performed = performed_at(machine, at)
            machine.execute(fetched, 0, 0)
        except Interruption as raised:
            code = raised.code
            performed = b"" if code in NOTHING_PERFORMED else performed
        else:
            if performed[0] in INPUT_OUTPUT:
                by_channels = {place: machine.value(place) for place in put if place != "p"}
                by_channels["code"] = machine.psw_field(28, 2)
    return Instruction(at, fetched, performed, operands(machine, performed), code, by_channels)


def operands(machine, instruction):
    """The addresses of operands, or of the block whose key is set or inserted."""
    if instruction[:1] in STORAGE_KEYS:
        return [machine.register(instruction[1] & 15) % ADDRESSES // BLOCK * BLOCK]
    fields = [instruction[at : at + 2] for at in range(2, len(instruction), 2)]
    index = instruction[1] & 15 if fields and instruction[0] < 0x80 else 0
    return [machine.address(field, index) for field in fields]


def of_channel(machine, unit):
    program = machine.unit(unit)
    ccw = machine.ccw_at(program.at) if program.after != LOAD else None
    # A transfer in channel that comes first leads nowhere.
    leads_on = ccw and ccw.transfers and program.after != SIO
    target = machine.ccw_at(ccw.data) if leads_on else None
    with trial(machine) as put:
        machine.channel(unit)
        state, run = machine.unit(unit), machine.value("run")
    begins = begun_by(machine, unit, program)
    program, state = map(without_bytes, (program, state))
    return Word(program, ccw, target, begins, list(put), state, run)


def begun_by(machine, unit, program):
    """How the device begins the command, with the number of an input's bytes."""
    _, ccw = machine.next_ccw(program)
    if ccw is None:
        return ()
    command = program.command if program.after == DATA_CHAIN else ccw.command
    kind, record = begun(machine.device(unit), command)
    return kind, len(record) if kind == INPUT else record


def without_bytes(state):
    """A unit's state with the number of the bytes that its program gathered."""
    is_program = isinstance(state, Program)
    return state._replace(gathered=len(state.gathered)) if is_program else state
