#!/usr/bin/env python3
"""Looks that README.md and the pages of docs are true.

    tests/documents.py [--programs S360DBG S360GDB]
    tests/documents.py --unproved          carries out no command: for work in progress

- Each link leads to a file, and to a heading in it.
- Each file that is named in backquotes is there. So is each name of the code in README.md,
  docs/proof, docs/develop and docs/DECISIONS.md. Each call and each clause of a table in
  docs/proof/promises.md stands in the file or the crate that its row names.
  docs/proof/definitions.md is what the heads of the files say (definitions.py). In
  docs/develop/layers.md each crate stands on what crates.txt says.
- The helps and the tables of docs/reference tell the lines that their definitions have (lines.py).
- README.md has at most 110 lines, and all pages but the one of definitions, which is made, have no
  more words than they may. Files of code and of definitions are as short and as narrow as
  docs/develop/style.md says.
- What README.md, docs/guide.md and docs/reference/media.md let a reader type prints what they print, as typed.py says.
- The picture of README.md is the one that tools/page makes of the second machine's run.
- Each example says its command line in its first comment, which gives its answers.

The screens of gdb in docs/reference are compared by gdb_sessions.py. The last line says how many
of these passed.
"""
import argparse
import functools
import itertools
import pathlib
import re
import subprocess
import sys
import tempfile

import definitions
import lines
import typed
from page_facts import Example

TOP = pathlib.Path(__file__).resolve().parent.parent
PAGES = [TOP / "README.md", *sorted((TOP / "docs").rglob("*.md"))]
USER_PAGES = ("README.md", "docs/guide.md", "docs/reference/")
CODE_PAGES = ("README.md", "docs/proof/", "docs/develop/", "docs/DECISIONS.md")
CARRIED_OUT = ("README.md", "docs/guide.md", "docs/reference/media.md")
PICTURE = TOP / "docs/time.svg"
PROGRAMS = [TOP / "crates" / name / "out" / name for name in ("s360dbg", "s360gdb")]
EXAMPLES = sorted((TOP / "examples").rglob("*.s360"))
MOST_LINES_OF_README = 100
MOST_WORDS, MOST_USER_WORDS = 26_200, 17_600
MOST_LINES, MOST_COLUMNS = 449, 160
# The folders in which a name of the code may stand.
SOURCES = ("crates/*/src", "crates/*/specs", "crates/*/proofs", "tests", "tools")
NOT_FOUND_IN = {"__pycache__", "documents.py"}
PATH = re.compile(r"(?:crates|docs|examples|tests|tools)/\S*")
# A name of two words, a call of a type, or a name with a capital letter within.
NAME = re.compile(r"[A-Za-z][a-z0-9]*(?:_\w+|::\w+|[A-Z]\w*)+(?:::\w+)*")


def named(page):
    return str(page.relative_to(TOP))


def words_of(page):
    """The words of a page: what has a letter or a digit."""
    return [word for word in page.read_text().split() if re.search(r"\w", word)]


def prose_of(page):
    """A page without its indented blocks."""
    return "\n".join(l for l in page.read_text().splitlines() if not l.startswith("    "))


@functools.cache
def code():
    """All words of the sources."""
    files = (f for pattern in SOURCES for folder in TOP.glob(pattern) for f in folder.rglob("*"))
    read = (f for f in files if f.is_file() and not NOT_FOUND_IN & {*f.parts})
    return {word for f in read for word in re.findall(r"\w+", f.read_text(errors="replace"))}


def anchors_of(page):
    """The anchors of a page's headings."""
    headings = re.findall(r"(?m)^#+ (.*)$", page.read_text())
    plain = (re.sub(r"[^\w\- ]", "", heading) for heading in headings)
    return {heading.strip().lower().replace(" ", "-") for heading in plain}


def faults_of_links(page):
    for target in re.findall(r"\]\(([^)\s]+)\)", prose_of(page)):
        file, _, anchor = target.partition("#")
        path = (page.parent / file).resolve() if file else page
        if file.startswith("http"):
            continue
        if not path.exists():
            yield f"no file {target}"
        elif anchor and anchor not in anchors_of(path):
            yield f"no heading {target}"


def faults_of_names(page):
    quoted = re.findall(r"`([^`]+)`", prose_of(page))
    for path in (path for text in quoted for path in PATH.findall(text)):
        pattern = re.sub(r"\b(CRATE|NAME|CHAPTER|FILE)\b", "*", path.rstrip("/.,"))
        if "{" not in pattern and not any(TOP.glob(pattern)):
            yield f"no file {path}"
    if named(page).startswith(CODE_PAGES):
        names = {name for name in quoted if NAME.fullmatch(name) and not name.isupper()}
        for name in sorted(names):
            if not set(name.split("::")) <= code() and not (TOP / "crates" / name).is_dir():
                yield f"no {name} in the sources"


def rows_of(page):
    """The cells of the rows of a page's tables."""
    for line in page.read_text().splitlines():
        if line.startswith("|") and not line.startswith("|---"):
            yield [cell.strip() for cell in line.strip("|").split("|")]


def contracts_of(call, text):
    """The clauses of each function of a name. One without a name is empty."""
    functions = re.split(r"\bfn (?=\w)", text)
    contracts = (part for part in functions if re.match(rf"{call}\b", part))
    return [{*re.findall(r"\bensures ?(\w*) \{", part)} for part in contracts]


def faults_of_promises(page):
    crate, files = "", []
    for file, calls, clauses in (row for row in rows_of(page) if len(row) == 3):
        crate = next(iter(re.findall(r"`(s360\w+)`", file)), crate)
        files = re.findall(r"\w+\.rt", file) or files
        sources = [TOP / "crates" / crate / "src" / name for name in files]
        if file.startswith("File"):
            continue
        if missing := [source for source in sources if not source.exists()]:
            yield from (f"no file {named(source)}" for source in missing)
            continue
        text = "".join(source.read_text() for source in sources)
        parts = itertools.zip_longest(calls.split(";"), clauses.split(";"), fillvalue="")
        for some, theirs in parts:
            wanted = {*re.findall(r"`(\w+)`", theirs)} or {""}
            for call in re.findall(r"`([a-z]\w*)`", some):
                if not any(wanted <= said for said in contracts_of(call, text)):
                    yield f"no {call} with {wanted} in {crate} {files}"
            if "`" not in some and not wanted <= {"", *re.findall(r"\w+", text)}:
                yield f"no {wanted} in {crate} {files}"


def faults_of_layers(page):
    stands_on = {}
    for crate, _, lows in (row for row in rows_of(page) if "`" in row[0]):
        below = re.findall(r"\w+", lows)
        stands_on[crate.strip("`")] = {*below}.union(*map(stands_on.__getitem__, below))
    lines = [l for l in (TOP / "crates.txt").read_text().splitlines() if not l.startswith("#")]
    listed = {crate: {*lows.split()} for crate, lows in (line.split(":") for line in lines)}
    for crate in sorted({*listed, *stands_on}):
        if stands_on.get(crate) != listed.get(crate, set()) & {*listed}:
            yield f"{crate} stands on something else"


def faults_of_lengths():
    lines = len(PAGES[0].read_text().splitlines())
    if lines > MOST_LINES_OF_README:
        yield f"README.md has {lines} lines"
    counts = {named(page): len(words_of(page)) for page in PAGES if page != definitions.PAGE}
    of_users = sum(count for page, count in counts.items() if page.startswith(USER_PAGES))
    if of_users > MOST_USER_WORDS:
        yield f"{of_users} words for users"
    if sum(counts.values()) > MOST_WORDS:
        yield f"{sum(counts.values())} words"


def faults_of_sources():
    files = itertools.chain(TOP.glob("crates/*/src/**/*.rt"), TOP.glob("crates/*/specs/**/*.antt"))
    for file in sorted(files):
        lines = file.read_text().splitlines()
        if len(lines) > MOST_LINES:
            yield f"{named(file)} has {len(lines)} lines"
        if any(len(line) > MOST_COLUMNS for line in lines):
            yield f"{named(file)} has a line of more than {MOST_COLUMNS} columns"


def faults_of_picture():
    with tempfile.TemporaryDirectory() as name:
        folder = pathlib.Path(name)
        example = Example("inventory", folder)
        made = folder / "time.svg"
        words = ["--svg", "time", made, "--symbols", example.symbols, example.folder / "trace"]
        subprocess.run([TOP / "tools/page/make_page", *words], check=True)
        if made.read_text() != PICTURE.read_text():
            yield f"{named(PICTURE)} is another: tools/page/make_page --svg time"


def faults_of_example(script, programs):
    first = script.read_text().partition("\n")[0]
    found = re.fullmatch(r"\* (\./run .*)", first)
    if not found or found[1].split()[-1] != named(script):
        yield "its first comment is not its command line"
        return
    with tempfile.TemporaryDirectory() as folder:
        typed.make_checkout(pathlib.Path(folder), programs)
        answers = script.with_suffix(".answers").read_text().splitlines()
        if typed.shown_by_shell(found[1], folder) != answers:
            yield "its command line has other answers"


def main():
    parser = argparse.ArgumentParser(description=__doc__.partition("\n")[0])
    parser.add_argument("--programs", type=pathlib.Path, nargs=2, default=PROGRAMS)
    parser.add_argument("--unproved", action="store_true", help="carries out no command")
    options = parser.parse_args()
    looks = [(f"links of {named(page)}", faults_of_links(page)) for page in PAGES]
    looks += [(f"names of {named(page)}", faults_of_names(page)) for page in PAGES]
    looks += [
        ("promises", faults_of_promises(TOP / "docs/proof/promises.md")),
        ("definitions", definitions.faults()),
        ("layers", faults_of_layers(TOP / "docs/develop/layers.md")),
        ("lengths", faults_of_lengths()),
        ("sources", faults_of_sources()),
        ("lines", lines.faults()),
        ("picture", faults_of_picture()),
    ]
    if not options.unproved:
        programs = [program.resolve() for program in options.programs]
        furnish = functools.partial(typed.make_checkout, programs=programs)
        looks += [(f"what {p} runs", typed.faults_of_page(TOP / p, furnish)) for p in CARRIED_OUT]
        looks += [(named(script), faults_of_example(script, programs)) for script in EXAMPLES]
    faults = [(name, list(found)) for name, found in looks]
    for name, found in faults:
        for fault in found:
            print(f"{name}: {fault}")
    failed = sum(bool(found) for _, found in faults)
    print(f"{len(faults) - failed} passed, {failed} failed")
    return 1 if failed else 0


if __name__ == "__main__":
    sys.exit(main())
