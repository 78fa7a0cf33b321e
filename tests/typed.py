"""What a reader types from a page, and what that prints.

In an indented block a line behind `$` is typed to a shell, and prints the lines below it, up to
the next such line or an empty one. If it starts `./gdb`, or `s360-gdb` where that is installed, the
lines behind `(gdb)` are typed to it. Where it is `./run` or `s360dbg` in README.md, the first column
below it is typed, and the second one printed.

All of a page is typed in one folder, as a clean copy of what the repository has for users, in which
the programs have been built already.
"""
import itertools
import os
import pathlib
import re
import shutil
import subprocess
import tempfile

from gdb_sessions import PROMPT, echoed

TOP = pathlib.Path(__file__).resolve().parent.parent
COPIED = ("run", "gdb", "page", "tools", "examples", ".vscode")
# Nothing has to be built there.
BUILD = "#!/bin/sh\n"
GDB, RUN = ("./gdb", "s360-gdb"), ("./run", "s360dbg")
# Where the second and the third column of README.md begin.
COLUMNS = 16, 50
NOTICE = re.compile(r"(run|gdb|page): nothing is proved of this run; .*")
SECONDS = 300


def make_checkout(folder, programs):
    """Makes the clean copy, in which these programs stand as if they were built, proved and not."""
    for name in COPIED:
        copy = shutil.copytree if (TOP / name).is_dir() else shutil.copy2
        copy(TOP / name, folder / name)
    (folder / "build").write_text(BUILD)
    (folder / "build").chmod(0o755)
    for program in programs:
        out = folder / "crates" / program.name / "out"
        for place in (out, out / "unproved"):
            place.mkdir(parents=True, exist_ok=True)
            (place / program.name).symlink_to(program)


def printed(command, folder, typed=(), environment=os.environ):
    """What a command prints, to which these lines are typed."""
    return subprocess.run(
        ["bash", "-c", command],
        cwd=folder,
        input="".join(f"{line}\n" for line in typed),
        capture_output=True,
        text=True,
        errors="replace",
        timeout=SECONDS,
        env={**environment, "TERM": "dumb"},
    )


def blocks_of(page):
    """The commands of a page, each with the lines below it."""
    lines = page.read_text().splitlines()
    lines = [l[4:] if l.startswith("    ") or not l else None for l in lines]
    for at, line in enumerate(lines):
        if line and line.startswith("$ "):
            # An empty line is one of gdb's screen, and else the end.
            is_gdb = line[2:].startswith(GDB)
            below = itertools.takewhile(lambda l: l or is_gdb and l == "", lines[at + 1 :])
            below = itertools.takewhile(lambda l: not l.startswith("$ "), below)
            yield line[2:], "\n".join(below).rstrip().splitlines()


def shown_by_gdb(command, below, folder, environment=os.environ):
    """The screen of a gdb to which the lines behind its prompts are typed."""
    lines = [line.removeprefix(PROMPT) for line in below if line.startswith(PROMPT)]
    done = printed(f"{command} 2>&1", folder, [*lines, "kill"], environment)
    return [line.expandtabs() for line in echoed(done.stdout, lines)]


def shown_by_shell(command, folder, typed=(), environment=os.environ):
    """What a command prints but for what each unproved run says."""
    done = printed(command, folder, typed, environment)
    said = [line for line in done.stderr.splitlines() if not NOTICE.fullmatch(line)]
    return [*done.stdout.splitlines(), *said]


def faults_of_page(page, furnish, environment=os.environ):
    """Each command of a page that prints something else than the lines below it, in a folder that is furnished for it."""
    with tempfile.TemporaryDirectory(prefix="a clean copy ") as name:
        folder = pathlib.Path(name)
        furnish(folder)
        blocks = [*blocks_of(page)]
        if not blocks:
            yield "nothing is typed"
        for command, wanted in blocks:
            if command.startswith(GDB):
                got = shown_by_gdb(command, wanted, folder, environment)
            elif page.name == "README.md" and command.startswith(RUN):
                first, second = COLUMNS
                got = shown_by_shell(command, folder, [row[:first].rstrip() for row in wanted], environment)
                wanted = [row[first:second].rstrip() for row in wanted]
            else:
                got = shown_by_shell(command, folder, environment=environment)
            if got != wanted:
                yield "\n".join([command, *(f"    {line}" for line in got)])
