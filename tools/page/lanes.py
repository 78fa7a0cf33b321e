"""The lanes of a run: the routines of the CPU, and the units and the operator, whose events they are.

A routine begins at a label. Of a program with many labels, and of one without, it begins where a call led, or behind a gap in
what was executed.
"""
import bisect
from array import array

from trace_file import CPU

# Who causes events. Units have their lane each.
ACTORS = ["CPU", "reader 00C", "punch 00D", "printer 00E", "console 01F", "tape 180", "tape 181", "operator"]
OPERATOR = len(ACTORS) - 1
FIRST_ROUTINE, LAST = len(ACTORS), 1 << 31
CALLS = ("BAL", "BALR", "SVC", "LPSW")
MOST_ROUTINES = 40
# Two instructions with so many bytes between them are of two blocks.
GAP = 16
NO_INSTRUCTION = "no instruction"


def actor_of(kind):
    """The number of the one who causes an event, by its name."""
    word, _, unit = kind.partition(" ")
    if word == CPU:
        return 0
    units = [number for number, name in enumerate(ACTORS) if word == "channel" and name.endswith(unit)]
    return units[0] if units else OPERATOR


def executed(trace):
    """Of each address that the CPU executed the length of its instruction, and the addresses to which calls led."""
    cpu, codes = trace.kinds.get(CPU), list(trace.codes)
    lengths, called, is_call = {}, set(), False
    for kind, address, code in zip(trace.kind, trace.address, trace.code):
        if kind != cpu or not address:
            continue
        digits, _, mnemonic = codes[code].partition(",")
        lengths[address - 1] = len(digits) // 2
        if is_call and trace.step == 1:
            called.add(address - 1)
        is_call = mnemonic in CALLS
    return lengths, called


def routines(trace, symbols):
    """Where routines begin, each with its name."""
    lengths, called = executed(trace)
    owners = {label[0]: label[1] for label in map(symbols.label, lengths) if label}
    if owners and len(owners) <= MOST_ROUTINES:
        return owners
    starts, end = called, -GAP
    for address in sorted(lengths):
        if address >= end + GAP:
            starts.add(address)
        end = address + lengths[address]
    return {start: symbols.named(start) or f"{start:06X}" for start in starts}


def of(trace, symbols):
    """The lanes, each with its name and the number of its actor, and of each moment the number of its lane: first units and the
    operator, then the routines, and last what is no instruction."""
    named = routines(trace, symbols)
    starts = sorted(named)
    actors = [actor_of(kind) for kind in trace.kinds]
    keys = array("I")
    for kind, address in zip(trace.kind, trace.address):
        actor = actors[kind]
        at = bisect.bisect_right(starts, address - 1) - 1 if actor == 0 and address else -1
        # Below the routines stand the numbers of the others.
        keys.append(FIRST_ROUTINE + at if at >= 0 else actor or LAST)
    order = sorted(set(keys))
    numbers = {key: number for number, key in enumerate(order)}
    names = {LAST: NO_INSTRUCTION, **dict(enumerate(ACTORS[1:], 1))}
    names |= {FIRST_ROUTINE + at: named[start] for at, start in enumerate(starts)}
    lanes = [{"name": names[key], "actor": key if key < FIRST_ROUTINE else 0} for key in order]
    return lanes, array("I", map(numbers.__getitem__, keys))
