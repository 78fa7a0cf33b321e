"""What tools and pages say once they are installed: the names that commands have there, and what else is true there."""
import re

SHARED, DOC = "usr/share/s360dbg", "usr/share/doc/s360dbg"
# Each command but the programs, and its file.
COMMANDS = {
    "s360-gdb": "tools/gdb/s360-gdb",
    "s360-make-deck": "tools/media/make_deck.py",
    "s360-make-tape": "tools/media/make_tape.py",
    "s360-what": "tools/media/what",
    "s360-as-text": "tools/media/as_text",
    "s360as": "tools/asm/s360as",
    "s360-page": "tools/page/s360-page",
}
# Of two names of which one begins as the other, the longer stands first.
NAMES = {
    "#!/usr/bin/env python3": "#!/usr/bin/python3 -B",
    "#!/usr/bin/env bash": "#!/bin/bash",
    "./run --unproved": "s360dbg",
    "./run": "s360dbg",
    "./gdb --unproved": "s360-gdb",
    "./gdb": "s360-gdb",
    "./page --unproved": "s360-page",
    "./page": "s360-page",
    "${workspaceFolder}/gdb": "/usr/bin/s360-gdb",
    "crates/s360gdb/out/s360gdb": "s360gdb",
    "tools/setup gdb": "apt install binutils-s390x-linux-gnu",
    "tools/setup asm": "apt install binutils-s390x-linux-gnu",
    **{path: command for command, path in COMMANDS.items()},
    "tools/": f"/{SHARED}/",
}
OF_TOOLS = NAMES | {"docs/": f"/{DOC}/"}
OF_PAGES = NAMES | {"docs/": "", "../examples": "examples"}
# Sentences of pages that are true in the repository alone, and what is true in their place.
SENTENCES = {
    "What stands behind `$` is typed in the repository's folder. `--unproved` proves nothing, which each run says on standard error, "
    "here left out.": f"What stands behind `$` is typed in a folder that has a copy of the examples: `cp -r /{DOC}/examples .`",
    "Editors start it, once it is built, as": "Editors start it as",
    "by `.vscode/launch.json`.": f"by `.vscode/launch.json`, where `.vscode` is a copy of `/{DOC}/vscode`.",
    "The first run takes two minutes. Without `--unproved` the first proves and builds the program. Later ones are there at once.": "",
    "The tools in `tools/asm` and `tools/media` make what the machine reads.": "The tools make what the machine reads.",
    "`tools/setup asm` installs GNU binutils.": "They need GNU binutils, of Debian's package `binutils-s390x-linux-gnu`.",
    "| `./test` |": "| the tests in the repository |",
    "; [definitions](docs/proof/definitions.md), [decisions](docs/DECISIONS.md), [style](docs/develop/style.md), "
    "[layers](docs/develop/layers.md), [gate](docs/develop/gate.md), [performance](docs/develop/performance.md), "
    "[changes](CHANGELOG.md).": ".",
}
# A chapter that is of the repository alone.
CHAPTER = re.compile(r"^## Run and test\n.*?(?=^## )", re.S | re.M)
LINK = re.compile(r"\[([^]]*)\]\((?!http|#)([^)#]*)(?:#[^)]*)?\)")


def renamed(text, names):
    """A text with the names that are those of what is installed."""
    either = "|".join(map(re.escape, names))
    return re.sub(rf"(?<![.$\w])(?:{either})", lambda found: names[found[0]], text)


def said(sentence):
    """A sentence as a page has it, on one line or on several."""
    return re.compile(r"\s+".join(map(re.escape, sentence.split())))


def page(text, is_there):
    """A page as it is installed. What a link leads to and is not there is in the repository."""
    text = CHAPTER.sub("", text)
    for sentence, true in SENTENCES.items():
        text = said(sentence).sub(lambda _: true, text)
    text = LINK.sub(lambda found: found[0] if is_there(found[2]) else f"{found[1]} (in the repository)", text)
    return renamed(text, OF_PAGES)


def sentences_in_none(texts):
    """The sentences that no page has any longer."""
    return [sentence for sentence in SENTENCES if not any(said(sentence).search(text) for text in texts)]
