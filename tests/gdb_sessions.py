#!/usr/bin/env python3
"""Lets a real gdb drive s360gdb, and compares what gdb prints with what it has to print.

    tests/gdb_sessions.py [--program FILE] [--print] [NAME ..]

A session is two files of tests/gdb: NAME.gdb has gdb's commands, and NAME.transcript what a
terminal shows of them: each command behind gdb's prompt, and what gdb prints then. The first line
of the commands is `# s360gdb WORD ..`: the words of the program's command line and those for
symbols, with files named from the top; or `# extended s360gdb WORD ..`, if gdb is to be in extended
mode. What comes before the first prompt is not compared. The screens of gdb in docs/reference/gdb.md
have to be parts of the transcripts of `guide`, `saved` and `places`. gdb is started in a folder of its own,
where files can be saved, and where NAME.elf is the program that GNU as makes of tests/gdb/NAME.s.
`--print` prints sessions and compares nothing. Some session has to carry out each command of
tools/gdb/s360.py. The status is 0 if each session prints what it has to.
"""
import argparse
import difflib
import itertools
import os
import pathlib
import re
import shlex
import subprocess
import sys
import tempfile
from concurrent.futures import ThreadPoolExecutor

TOP = pathlib.Path(__file__).resolve().parent.parent
SESSIONS = TOP / "tests/gdb"
PROMPT = "(gdb) "
# Of each screen of gdb its page, the line above it, and the session of which it is a part: from the
# line that is its first to the one that is its last.
SCREENS = [
    (
        "docs/reference/gdb.md",
        "With the deck of `examples/cards.deck`, after `key eof`, `load 00C` and `continue`:",
        "guide",
    ),
    ("docs/reference/gdb.md", "With the deck of `examples/cards.deck`, once it has run:", "saved"),
    ("docs/reference/gdb.md", "Events are told with labels and lines; instructions as statements, if they are what was assembled:", "places"),
]
# What a session finds in the folder in which gdb is started.
FOLDERS = ["examples", "tests"]
SECONDS = 120
GDB = ["gdb-multiarch", "-q", "-nx", "-x", TOP / "tools/gdb/s360.py"]
ENVIRONMENT = {**os.environ, "TERM": "dumb", "LC_ALL": "C.UTF-8"}
# The words that are not those of the machine.
SYMBOLS = argparse.ArgumentParser()
SYMBOLS.add_argument("--symbols")
SYMBOLS.add_argument("--listing-columns")
# Nothing is asked, no page is waited for, and no line is cut.
QUIET = ["set confirm off", "set pagination off", "set width 0"]


def commands_of(session):
    """How gdb is connected, the words of the command line, and gdb's commands without comments."""
    first, *lines = session.read_text().splitlines()
    head = re.fullmatch(r"# (extended )?s360gdb\b(.*)", first)
    if head is None:
        raise ValueError(f"{session}: its first line is not '# s360gdb WORD ..'")
    target = "extended-remote" if head[1] else "remote"
    return target, shlex.split(head[2]), [line for line in lines if line and not line.startswith("#")]


def linked(source, folder):
    """Makes a program of what GNU as reads."""
    made = folder / source.with_suffix(".o").name
    words = ["-m31", "-g", "-o", made, source.relative_to(TOP)]
    subprocess.run(["s390x-linux-gnu-as", *words], cwd=folder, check=True)
    words = ["-m", "elf_s390", "-Ttext=0", "-e", "0", "-o", made.with_suffix(".elf"), made]
    subprocess.run(["s390x-linux-gnu-ld", *words], check=True)


def shown(session, program):
    """What a terminal shows of a session: if gdb reads no terminal, it prints the prompts alone."""
    target, words, commands = commands_of(session)
    _symbols, machine = SYMBOLS.parse_known_args(words)
    with tempfile.TemporaryDirectory() as folder:
        elf = pathlib.Path(folder, "s360.elf")
        for name in FOLDERS:
            pathlib.Path(folder, name).symlink_to(TOP / name)
        for source in SESSIONS.glob("*.s"):
            linked(source, elf.parent)
        subprocess.run([TOP / "tools/gdb/make_elf.py", elf, *words], cwd=folder, check=True)
        setup = [*QUIET, f"file {elf}", f"target {target} | {shlex.join([str(program), *machine])}"]
        gdb = [*GDB, *(word for line in setup for word in ("-ex", line))]
        how = {"stdout": subprocess.PIPE, "stderr": subprocess.STDOUT, "timeout": SECONDS}
        how |= {"encoding": "utf-8", "errors": "replace", "env": ENVIRONMENT}
        printed = subprocess.run(gdb, input="\n".join([*commands, ""]), cwd=folder, **how).stdout
    return echoed(printed.replace(f"{elf.parent}/", ""), commands)


def echoed(printed, commands):
    """The lines of a terminal, of which gdb has printed the prompts and the answers."""
    answers = printed.split(PROMPT)[1:]
    shown = [f"{PROMPT}{command}\n{answer}" for command, answer in zip(commands, answers)]
    return "".join(shown).splitlines()


def differences(session, program):
    """The lines that differ from what a session has to show."""
    wanted = session.with_suffix(".transcript").read_text().splitlines()
    got = shown(session, program)
    return list(difflib.unified_diff(wanted, got, "wanted", "shown", lineterm=""))


def commands_not_carried_out(sessions):
    """The commands of s360.py that stand in no session."""
    words = [*GDB, "-batch", "-ex", "help user-defined"]
    told = subprocess.run(words, stdout=subprocess.PIPE, text=True, env=ENVIRONMENT, check=True).stdout
    there = {line.partition(" -- ")[0] for line in told.splitlines() if " -- " in line and "hook" not in line}
    lines = [line for session in sessions for line in session.read_text().splitlines()]
    return sorted(name for name in there if not any(line.startswith(name) for line in lines))


def screen(page, above):
    """The screen of gdb in a page: the indented lines below a line, up to a text."""
    lines = (TOP / page).read_text().splitlines()
    below = lines[lines.index(above) + 1 :]
    shown = list(itertools.takewhile(lambda line: line.startswith("    ") or not line, below))
    return "\n".join(line[4:] for line in shown).strip("\n").splitlines()


def differences_of_screen(page, above, session):
    """The lines in which a screen differs from what a session shows."""
    shown = screen(page, above)
    lines = (SESSIONS / f"{session}.transcript").read_text().expandtabs().splitlines()
    wanted = part_between(lines, shown[0], shown[-1])
    return list(difflib.unified_diff(wanted, shown, f"{session}.transcript", page, lineterm=""))


def part_between(lines, first, last):
    """The lines from the first that is one to the last that is another; all, if they lack one."""
    if first not in lines or last not in lines:
        return lines
    return lines[lines.index(first) : len(lines) - lines[::-1].index(last)]


def main():
    parser = argparse.ArgumentParser(description=__doc__.partition("\n")[0])
    parser.add_argument("--program", type=pathlib.Path, default=TOP / "crates/s360gdb/out/s360gdb")
    parser.add_argument("--print", action="store_true")
    parser.add_argument("names", nargs="*", metavar="NAME")
    options = parser.parse_args()
    named = [SESSIONS / f"{name}.gdb" for name in options.names]
    sessions = named or sorted(SESSIONS.glob("*.gdb"))
    program = options.program.resolve()
    if options.print:
        for session in sessions:
            print("\n".join(shown(session, program)))
        return 0
    with ThreadPoolExecutor(2) as pool:
        found = list(pool.map(lambda session: differences(session, program), sessions))
    names = [session.stem for session in sessions]
    if not options.names:
        names = [*names, *(page for page, *_ in SCREENS)]
        found = [*found, *itertools.starmap(differences_of_screen, SCREENS)]
        names.append("commands that no session carries out")
        found.append(commands_not_carried_out(sessions))
    for name, lines in zip(names, found):
        if lines:
            print("\n".join([f"{name}: gdb shows something else", *lines]))
    failed = sum(bool(lines) for lines in found)
    print(f"{len(found) - failed} passed, {failed} failed")
    return 1 if failed else 0


if __name__ == "__main__":
    sys.exit(main())
