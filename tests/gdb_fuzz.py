#!/usr/bin/env python3
"""Lets a real gdb carry out random commands over s360gdb, and compares each stop with the second machine.

    tests/gdb_fuzz.py [--program FILE] [--commands N] [--seed N]

What a command has to do is said here in a user's words, apart from packets: where the machine has to
stop over the changes of the second machine, what gdb has to say of it, and what it has to show of
registers and storage. Each command has a time limit. The status is 0 if all are as they have to be.
"""
import argparse
import hashlib
import json
import os
import pathlib
import random
import select
import subprocess
import sys
import tempfile
from concurrent.futures import ThreadPoolExecutor

from fuzzer.packets import AGAIN, CODE, COUNTS, DATA, Requests
from packet_fuzz import deck_of
from packet_rows import PROGRAM, TOP
from second.remote import Endless, Target
from second.tapes import Tape, items_of

IN_A_SESSION = 60
SECONDS = 30
MOST_EVENTS = 3000
STORAGE = 65536
QUIET = ["set confirm off", "set pagination off", "set width 0"]
START, END = "start of what was recorded\n", "end of what was recorded\n"
# gdb says of an end of history what a command that keeps its text does not keep.
NO_HISTORY = ""
# How often a kind of command is given.
KINDS = {"step": 14, "go": 16, "back_step": 8, "back": 10, "break": 10, "watch": 8, "delete": 5}
KINDS |= {"until": 3, "set": 8, "monitor": 8}
LINES = ["step", "tick", "key stop", "key start", "key interrupt", "back", "until", "standing"]
LINES += ["goto start", "goto end", "goto last", "where", "help", "patch r 3 5", "channel 00C"]
# Whose first line is their command line.
EXAMPLES = sorted((TOP / "examples").glob("*.s360"))


class Stop(Exception):
    """The machine stops: at breakpoints and watches of these numbers, or for what is said."""

    def __init__(self, points=(), said=""):
        super().__init__(points, said)
        self.points, self.said = sorted(points), said


class Point:
    def __init__(self, number, at, condition=None, is_temporary=False):
        self.number, self.at = number, at
        self.condition, self.is_temporary = condition, is_temporary


class Watch:
    def __init__(self, number, at, count):
        self.number, self.at, self.count, self.value = number, at, count, None

    def has(self, byte):
        return self.at <= byte < self.at + self.count


def tapes_of(words):
    """The tapes that a command line names."""
    if "--tape0" not in words:
        return Tape(), Tape()
    image = (TOP / words[words.index("--tape0") + 1]).read_bytes()
    return Tape(recorded=tuple(items_of(image))), Tape()


class User:
    """What commands of gdb have to do over the second machine."""

    def __init__(self, words=()):
        self.target = Target(deck_of(words), tapes_of(words))
        self.recording = self.target.recording
        if words and words[-1].endswith(".s360"):
            for _answer in self.recording.answers((TOP / words[-1]).read_bytes()):
                pass
        self.points, self.watches, self.number = [], [], 0
        self.untold = []

    @property
    def machine(self):
        return self.recording.machine

    @property
    def standing(self):
        return len(self.recording.changes)

    def shown(self):
        storage = bytes(self.machine.run_of_bytes(0, STORAGE))
        recorded = self.standing + len(self.recording.later)
        where = f"standing {self.standing} of {recorded}"
        return [self.target.words(), hashlib.sha256(storage).hexdigest(), where]

    def here(self):
        return self.target.words()[1]

    # Why the machine stops.

    def points_here(self):
        """The breakpoints at which the CPU operates."""
        if self.machine.value("run") != 0 or self.machine.psw_field(49, 1):
            return []
        at = [point for point in self.points if point.at == self.here()]
        return [point for point in at if point.condition is None or point.condition(self)]

    def value(self, watch):
        return bytes(self.machine.run_of_bytes(watch.at, watch.count))

    def look_anew(self):
        for watch in self.watches:
            watch.value = self.value(watch)

    def meet(self, change):
        """Stops at a change of watched bytes, of which each watch has at most one that is told."""
        places, self.untold = set(change.places), []
        for watch in sorted(self.watches, key=lambda watch: (watch.at, watch.number)):
            if not any(watch.has(byte) for byte in self.untold):
                run = range(watch.at, watch.at + watch.count)
                self.untold += [byte for byte in run if f"s{byte:06X}" in places][:1]
        self.tell_untold()

    def tell_untold(self):
        while self.untold:
            byte = self.untold.pop(0)
            has = [watch for watch in self.watches if watch.has(byte)]
            told = [watch for watch in has if watch.value != self.value(watch)]
            for watch in told:
                watch.value = self.value(watch)
            if told:
                self.stop_at([watch.number for watch in told])

    def stop_at(self, numbers=(), here=True):
        """Stops at watches, and at the breakpoints where the machine is."""
        here = self.points_here() if here else []
        self.points = [point for point in self.points if point not in here or not point.is_temporary]
        if numbers or here:
            raise Stop([*numbers, *(point.number for point in here if point.number)])

    # Forward.

    def run_event(self, is_step):
        recording = self.recording
        is_recorded = bool(recording.later)
        if is_recorded:
            recording.happen(recording.later[-1].event, recording.later[-1].act)
        else:
            recording.happen(*recording.offered())
        change = recording.changes[-1]
        self.meet(change)
        if not is_recorded and not change.places:
            raise Stop(said=self.target.why_idle(change))
        is_end = is_recorded and not recording.later
        if is_end and (is_step or not self.points_here()):
            raise Stop(said=END if is_step else NO_HISTORY)
        return change

    def look_for_rest(self):
        if not self.recording.later and self.target.is_at_rest():
            raise Stop(said=self.target.why_idle(self.recording.changes[-1]))

    def step(self):
        """One event of the CPU, with what comes before it."""
        self.tell_untold()
        self.look_for_rest()
        for _ in range(MOST_EVENTS):
            if self.run_event(True).event[0] == "cpu":
                return
        raise Endless

    def steps(self, count):
        for _ in range(count):
            self.step()
            self.stop_at()
        raise Stop()

    def go(self):
        """From a breakpoint it begins with a step."""
        if any(point.at == self.here() for point in self.points):
            self.step()
            self.stop_at()
        self.tell_untold()
        self.look_for_rest()
        for _ in range(MOST_EVENTS):
            self.run_event(False)
            self.stop_at()
        raise Endless

    # Backward.

    def take_back(self, said):
        if not self.recording.changes:
            raise Stop(said=said)
        change = self.recording.changes[-1]
        self.recording.take_back()
        self.meet(change)
        return change

    def steps_back(self, count):
        for _ in range(count):
            self.tell_untold()
            while self.take_back(START).event[0] != "cpu":
                pass
            self.stop_at()
        raise Stop()

    def go_back(self):
        self.tell_untold()
        while True:
            self.take_back(NO_HISTORY)
            self.stop_at()

    # Points, writes and lines.

    def add(self, point_type, *words, **named):
        self.number += 1
        added = point_type(self.number, *words, **named)
        (self.points if point_type is Point else self.watches).append(added)
        return added

    def delete(self, number):
        self.points = [point for point in self.points if point.number != number]
        self.watches = [watch for watch in self.watches if watch.number != number]

    def until(self, at):
        marked = Point(0, at, is_temporary=True)
        self.points.append(marked)
        try:
            self.go()
        finally:
            self.points = [point for point in self.points if point is not marked]

    def write(self, packet):
        """A write of gdb's user."""
        if self.target.answer(packet) != [b"OK"]:
            raise ValueError(packet)

    def write_byte(self, at, byte):
        """A watch of the byte takes its value anew."""
        self.write(b"X%x,1:%c" % (at, byte))
        for watch in self.watches:
            if watch.has(at):
                watch.value = self.value(watch)

    def write_register(self, number, word):
        """What a register has already gdb does not write."""
        if self.target.words()[number] != word:
            self.write(b"P%x=%08x" % (number, word))

    def write_condition_code(self, code):
        """It has bits 18 and 19 of the mask word."""
        self.write_register(0, self.target.words()[0] & ~0x3000 | code << 12)

    def line(self, line):
        """A line of `monitor`: if it moves the machine, gdb looks at all anew, and stops there."""
        standing = self.standing
        self.target.answer(b"qRcmd," + line.encode().hex().encode())
        if self.standing != standing:
            self.look_anew()
            self.untold = []
            self.stop_at()
            raise Stop()


class Commands(Requests):
    """Random commands, each carried out by a model as it is made."""

    def __init__(self, seed):
        super().__init__(seed)
        self.words = self.choice([[], self.example()])
        self.user = User(self.words)

    def example(self):
        """The words of an example's command line: its media, and at times its script."""
        words = self.choice(EXAMPLES).read_text().partition("\n")[0].split()[2:]
        return words if self.random() < 0.5 or len(words) == 1 else words[:-1]

    def place(self):
        """An address where the machine was, or one near the beginning of a program."""
        psws = [change.noted.get("p") for change in self.user.recording.changes]
        met = [psw & 0xFFFFFF for psw in psws if psw is not None]
        return self.choice(met[-60:]) if met and self.random() < 0.7 else self.code()

    def first(self):
        """A program, if none is there, and where it begins."""
        lines = {"--reader": ["key eof", "load 00C"], "--tape0": ["load 180"]}
        if self.words:
            for line in lines.get(self.words[0], []) if len(self.words) == 2 else []:
                yield f"monitor {line}", lambda user, line=line: user.line(line)
            return
        run = b"".join(self.instruction() for _ in range(self.randrange(1, 6))) + COUNTS + AGAIN
        lines = [f"patch s {CODE:X} {run.hex()}", f"patch r 3 {self.randrange(2, 30):X}"]
        lines += [f"patch r {number} {DATA + 8 * number:X}" for number in (1, 2)]
        for line in [*lines, f"patch p {CODE:016X}"]:
            yield f"monitor {line}", lambda user, line=line: user.line(line)

    def command(self):
        kind = self.choices(list(KINDS), KINDS.values())[0]
        return getattr(self, f"make_{kind}")()

    def make_step(self):
        count = self.choice([1, 1, 1, 2, 3, 10])
        return f"stepi {count}", lambda user: user.steps(count)

    def make_go(self):
        return "continue", lambda user: user.go()

    def make_back_step(self):
        count = self.choice([1, 1, 2, 5])
        return f"reverse-stepi {count}", lambda user: user.steps_back(count)

    def make_back(self):
        return "reverse-continue", lambda user: user.go_back()

    def make_break(self):
        at, number, value = self.place(), self.randrange(4), self.randrange(20)
        byte = DATA + self.randrange(64)
        words, condition = self.choice(
            [
                ("", None),
                (f" if $r3 == {value}", lambda user: user.machine.register(3) == value),
                (f" if ($r{number} & 1) == 0", lambda user: user.machine.register(number) % 2 == 0),
                (
                    f" if *(unsigned char*){byte:#x} > {value} || $r3 < 4",
                    lambda user: user.value(Watch(0, byte, 1))[0] > value or user.machine.register(3) < 4,
                ),
            ]
        )
        name, is_temporary = self.choice([("break", False), ("break", False), ("tbreak", True)])
        return f"{name} *{at:#x}{words}", lambda user: user.add(Point, at, condition, is_temporary) and None

    def make_watch(self):
        at, count = DATA + self.randrange(64), self.choice([1, 1, 2, 4, 4, 16, 256])

        def watch(user):
            added = user.add(Watch, at, count)
            added.value = user.value(added)

        return f"watch *(char(*)[{count}]){at:#x}", watch

    def make_delete(self):
        points = [point.number for point in [*self.user.points, *self.user.watches]]
        if not points:
            return self.make_go()
        number = self.choice(points)
        return f"delete {number}", lambda user: user.delete(number)

    def make_until(self):
        at = self.place()
        return f"{self.choice(['until', 'advance'])} *{at:#x}", lambda user: user.until(at)

    def make_set(self):
        word, number = self.choice([0, 1, 5, self.getrandbits(32)]), self.randrange(4)
        at = self.choice([DATA + self.randrange(64), self.code()])
        return self.choice(
            [
                (f"set var $r{number}={word:#x}", lambda user: user.write_register(number + 2, word)),
                (f"set var $pc={CODE:#x}", lambda user: user.write_register(1, CODE)),
                (f"set var $cc={number}", lambda user: user.write_condition_code(number)),
                (
                    f"set var *(unsigned char*){at:#x}={word % 256}",
                    lambda user: user.write_byte(at, word % 256),
                ),
            ]
        )

    def make_monitor(self):
        at, number = DATA + self.randrange(64), self.randrange(1, 40)
        others = [f"goto {number}", f"who s {at:X}", f"who r {number % 4}", f"withdraw {number}"]
        others += [f"patch s {at:X} {number:02X}", f"run {number}", f"changes s {at:X}", f"why s {at:X}"]
        line = self.choice([*LINES, *others, *others])
        return f"monitor {line}", lambda user: user.line(line)

    def all(self, count):
        """So many commands, and how each has to end. What makes the machine run on and on is left
        out."""
        yield from map(self.carried_out, self.first())
        for _ in range(count):
            while (ended := self.carried_out(self.command())) is None:
                pass
            yield ended

    def carried_out(self, made):
        command, act = made
        kept = self.saved()
        try:
            act(self.user)
        except Stop as stop:
            return command, {"points": stop.points, "said": stop.said, "shown": self.user.shown()}
        except Endless:
            self.restore(kept)
            return None
        return command, {"points": None, "said": "", "shown": self.user.shown()}

    def saved(self):
        user = self.user
        values = [(watch, watch.value) for watch in user.watches]
        return user.standing, list(user.recording.later), list(user.untold), list(user.points), values

    def restore(self, kept):
        user = self.user
        standing, later, user.untold, user.points, values = kept
        while user.standing > standing:
            user.recording.take_back()
        user.recording.later = later
        for watch, value in values:
            watch.value = value


def fault_in(wanted, got):
    """What is wrong with how a command ended, if anything is."""
    points, stops = wanted["points"], got["stops"]
    if points is None:
        return None if stops == [] and wanted["shown"] == got["shown"] else "it stops, or shows another machine"
    if len(stops) != 1:
        return f"it stops {len(stops)} times"
    if points and stops[0] != points:
        return f"it stops at {stops[0]}, and not at {points}"
    if not points and isinstance(stops[0], list) and stops[0]:
        return f"it stops at {stops[0]}"
    if wanted["said"] not in got["printed"]:
        return f"it does not say {wanted['said']!r}"
    if wanted["shown"] != got["shown"]:
        return "it shows another machine"
    return None


def lines_within(file, seconds):
    """The lines of a file, each of which has to come within so many seconds."""
    rest = b""
    while True:
        ready, _, _ = select.select([file], [], [], seconds)
        if not ready:
            raise TimeoutError
        part = os.read(file, 1 << 16)
        if not part:
            return
        *lines, rest = (rest + part).split(b"\n")
        yield from lines


def fault_of(seed, count, program):
    """The first command of a session that ends otherwise than it has to, if there is one."""
    some = Commands(seed)
    ended = list(some.all(count))
    target = " ".join([str(program), *some.words])
    with tempfile.TemporaryDirectory() as folder:
        elf, commands = (pathlib.Path(folder, name) for name in ("s360.elf", "commands"))
        subprocess.run([TOP / "tools/gdb/make_elf.py", elf], check=True)
        commands.write_text(json.dumps([command for command, _ in ended]))
        told, out = os.pipe()
        gdb = ["gdb-multiarch", "-q", "-nx", "-batch", "-x", TOP / "tools/gdb/s360.py"]
        setup = [*QUIET, f"file {elf}", f"target remote | {target}"]
        gdb += [word for line in setup for word in ("-ex", line)]
        gdb += ["-x", TOP / "tests/fuzzer/gdb_driver.py"]
        environment = {**os.environ, "COMMANDS": str(commands), "TOLD": str(out), "TERM": "dumb"}
        how = {"stdin": subprocess.DEVNULL, "stdout": subprocess.PIPE, "stderr": subprocess.STDOUT}
        with subprocess.Popen(gdb, cwd=TOP, pass_fds=[out], env=environment, **how) as running:
            os.close(out)
            try:
                got = [json.loads(line) for line in zip_within(ended, told)]
            finally:
                running.kill()
                os.close(told)
            printed = running.stdout.read().decode(errors="replace")
    for at, (command, wanted) in enumerate(ended):
        fault = fault_in(wanted, got[at]) if at < len(got) else f"no answer within {SECONDS} s: {printed}"
        if fault:
            before = [command for command, _ in ended[:at]]
            return "\n".join([f"{fault}: {command}", *before, f"wanted {wanted}", f"got {got[at:at+1]}"])
    return None


def zip_within(ended, told):
    try:
        for _, line in zip(ended, lines_within(told, SECONDS)):
            yield line
    except TimeoutError:
        return


def main():
    parser = argparse.ArgumentParser(description=__doc__.partition("\n")[0])
    parser.add_argument("--program", type=pathlib.Path, default=PROGRAM)
    parser.add_argument("--commands", type=int, default=300)
    parser.add_argument("--seed", type=int, default=1)
    options = parser.parse_args()
    seeds = range(options.seed, options.seed + -(-options.commands // IN_A_SESSION))
    program = options.program.resolve()
    with ThreadPoolExecutor(2) as pool:
        faults = list(pool.map(lambda seed: fault_of(seed, IN_A_SESSION, program), seeds))
    for seed, fault in zip(seeds, faults):
        if fault is not None:
            print(f"seed {seed}: {fault}")
    failed = sum(fault is not None for fault in faults)
    print(f"{len(faults) - failed} passed, {failed} failed")
    return 1 if failed else 0


if __name__ == "__main__":
    sys.exit(main())
