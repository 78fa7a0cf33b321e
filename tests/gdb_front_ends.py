#!/usr/bin/env python3
"""Looks that ./gdb serves a screen and editors, over a terminal.

    tests/gdb_front_ends.py [--program FILE]

gdb's own screen has to show the source with its breakpoint and where the program is. By gdb's machine interface, which Emacs
and Visual Studio Code speak, ./gdb is started as the guide and .vscode/launch.json say. The last line says how many looks passed.
"""
import argparse
import contextlib
import json
import os
import pathlib
import pty
import re
import select
import shlex
import sys
import tempfile
import time

import typed

TOP = pathlib.Path(__file__).resolve().parent.parent
CARDS = ["--symbols", "examples/cards.listing", "--reader", "examples/cards.deck"]
PROMPT = "(gdb) "
SECONDS = 20
# What a terminal is told beside signs.
CONTROLS = re.compile(r"\x1b(?:\[[0-9;?]*[A-Za-z]|[()][A-Z0-9]|[=>])|[\r\x0e\x0f]")
STOPPED_AT_PRINT = r'\*stopped,reason="breakpoint-hit".*func="PRINT".*fullname="[^"]*examples/cards\.listing",line="33"'
# What is typed, and what has to be shown before more is typed. `refresh` draws the screen whole.
SCREEN = [
    ("", r"\(gdb\) $"),
    ("set pagination off", r"\(gdb\) $"),
    ("key eof", "1 changed 1 d00C"),
    ("load 00C", "2 changed 2 run u00C"),
    ("break PRINT", "Breakpoint 1 at 0x276"),
    ("continue", r"B\+>"),
    ("refresh", r"B\+> +33 +000276 41100390 +PRINT +LA +1,WRCCW"),
    ("step", r"00027A 50100048 +ST +1,CAW"),
    ("reverse-step", r"000276 41100390 +PRINT"),
    ("refresh", r"B\+> +33 +000276 41100390 +PRINT +LA +1,WRCCW"),
    ("who COUNT", r"ST 3,COUNT  cards.listing:16"),
    ("refresh", r"> +16 +000230 50300300 +ST +3,COUNT"),
    ("layout asm", r"0x230 <RDWAIT\+32> +st +%r3,768"),
]
# What a program is that is not proved, gdb says: Emacs wants nothing before gdb.
INTERFACE = [
    ("", r"^=thread-group-added.*nothing is proved.*\(gdb\) \n$"),
    ('-interpreter-exec console "key eof"', r"1 changed 1 d00C.*\*stopped"),
    ('-interpreter-exec console "load 00C"', r"2 changed 2 run u00C.*\*stopped"),
    ("-break-insert PRINT", r'\^done,bkpt=\{number="1",type="breakpoint".*line="33"'),
    ("-exec-continue", STOPPED_AT_PRINT),
    ("-stack-list-frames", r'\^done,stack=\[frame=\{level="0",addr="0x00000276",func="PRINT"'),
    ("-data-evaluate-expression COUNT", r'\^done,value="1"'),
    ("-exec-step --reverse", r'\*stopped,reason="end-stepping-range".*func="RDWAIT".*line="20"'),
    ('-interpreter-exec console "who COUNT"', r'<RDWAIT\+32> ST 3,COUNT  cards\.listing:16.*\*stopped.*line="16"'),
]


def launched():
    """What Visual Studio Code starts by .vscode/launch.json, and what it sends."""
    told = json.loads((TOP / ".vscode/launch.json").read_text())["configurations"][0]
    words = [told["miDebuggerPath"].replace("${workspaceFolder}", "."), "--interpreter=mi"]
    sent = [(command["text"], r"\^done") for command in told["customLaunchSetupCommands"]]
    complete = {"exec-continue": ("-exec-continue", STOPPED_AT_PRINT)}[told["launchCompleteCommand"]]
    return [*words, *shlex.split(told["miDebuggerArgs"])], [("", r"\(gdb\) \n$"), *sent, complete]


def shown(terminal, pattern):
    """What is shown up to what matches a pattern, or all if nothing does in time."""
    text, end = "", time.monotonic() + SECONDS
    while not re.search(pattern, text, re.DOTALL) and time.monotonic() < end:
        if select.select([terminal], [], [], 1)[0]:
            try:
                text += CONTROLS.sub("", os.read(terminal, 65536).decode(errors="replace"))
            except OSError:
                break
    return text


def fault_of(words, lines, folder):
    """The first line that shows something else."""
    child, terminal = pty.fork()
    if child == 0:
        try:
            os.chdir(folder)
            os.environ |= {"TERM": "xterm", "LINES": "40", "COLUMNS": "100", "LC_ALL": "C.UTF-8"}
            os.execvp(words[0], words)
        finally:
            os._exit(127)
    try:
        for line, pattern in lines:
            if line:
                os.write(terminal, f"{line}\n".encode())
            text = shown(terminal, pattern)
            if not re.search(pattern, text, re.DOTALL):
                return f"{line!r} has to show {pattern!r}, and shows {text!r}"
        return None
    finally:
        with contextlib.suppress(OSError):
            os.write(terminal, b"kill\n" if "mi" not in words[1] else b"-gdb-exit\n")
        os.close(terminal)
        os.waitpid(child, 0)


def main():
    parser = argparse.ArgumentParser(description=__doc__.partition("\n")[0])
    parser.add_argument("--program", type=pathlib.Path, default=TOP / "crates/s360gdb/out/s360gdb")
    program = parser.parse_args().program.resolve()
    looks = {
        "gdb's screen": (["./gdb", "--tui", *CARDS], SCREEN),
        "Emacs": (["./gdb", "-i=mi", "--unproved", *CARDS], INTERFACE),
        "Visual Studio Code": launched(),
    }
    with tempfile.TemporaryDirectory() as name:
        folder = pathlib.Path(name)
        typed.make_checkout(folder, [program])
        faults = {look: fault_of(words, lines, folder) for look, (words, lines) in looks.items()}
    for look, fault in faults.items():
        if fault:
            print(f"{look}: {fault}")
    failed = sum(bool(fault) for fault in faults.values())
    print(f"{len(faults) - failed} passed, {failed} failed")
    return 1 if failed else 0


if __name__ == "__main__":
    sys.exit(main())
