#!/usr/bin/env python3
"""Makes docs/proof/definitions.md from the heads of the files of definitions, and from what public clauses cite of them.

    tests/definitions.py            tells whether the page is what these say
    tests/definitions.py --write    writes it

A file of `specs` begins with a comment, which says what it defines and where the standard has that. A public clause is one of a
call or of a trait that other crates can use. The words that it cites of a file are listed with it.
"""
import argparse
import pathlib
import re
import sys
from collections import defaultdict

TOP = pathlib.Path(__file__).resolve().parent.parent
PAGE = TOP / "docs/proof/definitions.md"
BEGIN = """# The definitions

Contracts speak in the words of `crates/CRATE/specs/FILE.antt`. The comments of these files are their text: each word's
value, its unit and base, and at the head of the file the chapter of the standard. A single rule that the standard does
not have is marked (own profile), and a test of ours (ours). What the code keeps, and no rule of the machine needs, is
marked (kept) and stands apart.

No definition of what the machine does knows a plan, a cell, a journal, an index or an allocator, and none is the code's
loop again.

`tests/definitions.py --write` makes this page. It has the head of each file, and the words of it that public clauses cite.

## The standard (GA22-6821)

| Chapter | Files |
|---|---|
"""
KEPT = "(kept)"
STANDARD = re.compile(r'GA22-6821((?:[^")]*"[^"]*")+)')
USE = re.compile(r"ghost use Rattle\.(\w+)\.specs\.(\w+)\.\{([^}]*)\};")
CLAUSE = re.compile(r"^ *(?:ensures|requires) .*\{ (.*) \}", re.M)
TRAIT = re.compile(r"^pub trait .*?^\}", re.S | re.M)
PUBLIC = re.compile(r"^ *pub fn ", re.M)
WORD = re.compile(r"[A-Za-z][\w-]*")


def crates():
    lines = (TOP / "crates.txt").read_text().splitlines()
    return [line.partition(":")[0] for line in lines if line and not line.startswith("#")]


def head_of(file):
    """What the comment at the head of a file says."""
    said = []
    for line in file.read_text().splitlines():
        if not line.startswith("--"):
            break
        said.append(line.lstrip("- "))
    return " ".join(said)


def public_clauses(source):
    """The clauses that other crates see in a source."""
    text = source.read_text()
    for trait in TRAIT.findall(text):
        yield from CLAUSE.findall(trait)
    # No blank line stands within a call's clauses.
    for call in text.split("\n\n"):
        if at := PUBLIC.search(call):
            yield from CLAUSE.findall(call[at.start() :])


def cited():
    """The words that public clauses cite, by crate and file."""
    words = defaultdict(set)
    for crate in crates():
        for source in sorted((TOP / "crates" / crate / "src").rglob("*.rt")):
            where = {}
            for theirs, file, names in USE.findall(source.read_text()):
                for name in names.split(","):
                    first, _, other = name.strip().partition(" as ")
                    where[other or first] = (theirs, file, first)
            for clause in public_clauses(source):
                for word in WORD.findall(clause):
                    if word in where:
                        theirs, file, first = where[word]
                        words[theirs, file].add(first)
    return words


def files_of(crate):
    """The files of definitions of a crate, each with its head."""
    files = sorted((TOP / "crates" / crate / "specs").glob("*.antt"))
    return {file: head_of(file) for file in files if file.stem != "Lib"}


def link(file):
    return f"[{file.stem}](../../{file.relative_to(TOP)})"


def chapters():
    """The files of each chapter of the standard, as their heads name it."""
    found = defaultdict(lambda: defaultdict(dict))
    for crate in crates():
        for file, head in files_of(crate).items():
            for said in STANDARD.findall(head):
                for chapter in re.findall(r'"([^"]*)"', said):
                    found[chapter][crate][link(file)] = None
    return found


def page():
    words = cited()
    parts = [BEGIN]
    for chapter, files in sorted(chapters().items()):
        theirs = "; ".join(f"`{crate}`: {', '.join(links)}" for crate, links in files.items())
        parts.append(f"| {chapter} | {theirs} |\n")
    for crate in crates():
        files = files_of(crate)
        for title, kept in ((f"## `{crate}`", False), ("What the code keeps:", True)):
            rows = [file for file, head in files.items() if (KEPT in head) == kept]
            if not rows:
                continue
            parts.append(f"\n{title}\n\n| File | What it defines | Cited |\n|---|---|---|\n")
            for file in rows:
                names = ", ".join(f"`{name}`" for name in sorted(words[crate, file.stem]))
                head = files[file].replace("|", "\\|").replace(f" {KEPT}", "")
                parts.append(f"| {link(file)} | {head} | {names} |\n")
    return "".join(parts)


def faults():
    """What is wrong with the page, and files without a head."""
    if PAGE.read_text() != page():
        yield "the page is not what the files say: tests/definitions.py --write"
    for file in sorted(TOP.glob("crates/*/specs/*.antt")):
        if file.stem != "Lib" and not head_of(file):
            yield f"{file.relative_to(TOP)} has no head"


def main():
    parser = argparse.ArgumentParser(description=__doc__.partition("\n")[0])
    parser.add_argument("--write", action="store_true")
    if parser.parse_args().write:
        PAGE.write_text(page())
        return 0
    found = list(faults())
    print(*found, sep="\n")
    return 1 if found else 0


if __name__ == "__main__":
    sys.exit(main())
