"""The lines of the three languages, as the tables of their definitions have them, and where else they are told.

A form is a line with a letter or a word for each argument, as `patch r R W`. The tables are those of
`specs/Reading.antt`, which the readers are proved to read. The helps, the pages and the second
target tell the same forms.
"""
import pathlib
import re

from second.remote import HELP

TOP = pathlib.Path(__file__).resolve().parent.parent
LANGUAGES = {"s360_language": "commands", "s360_inquiry": "inquiries", "s360_saving": "savings"}
# What stands in a form for an argument of a kind. A kind that is not here has a word for each value.
KINDS = {"address": "A", "bytes_in": "BYTES", "register": "R", "word_of": "W", "storage_key": "K", "bit_of": "D"}
KINDS |= {"doubleword_of": "Q", "unit": "U", "count_of": "N", "ebcdic_text": "TEXT", "file_in": "FILE"}
ROW = re.compile(r'line \(codes "(\S+)"\) \((.*)\) ∷')
ITEM_OR = re.compile(r"item_or \(.*?\) \((.*)\)")
CALL_OR = re.compile(r"call_or \((.*)\)")
EXTENT = re.compile(r"extent_then \(λ extent\. (.*)\)")
WORD = re.compile(r'\(codes "(\w+)", ')
# Where lines are told: as a help tells them, in rows of a table, and the media that a line saves.
HELPS = {"s360_remote/src/monitor.rt": [*LANGUAGES], "s360_setup/src/program.rt": ["s360_language"]}


def defined():
    """The lines of each definition, by its name."""
    files = [TOP / "crates" / crate / "specs" / "Reading.antt" for crate in LANGUAGES]
    text = "".join(file.read_text() for file in files)
    return dict(re.findall(r"(?m)^(\w+)\b.*? =((?:.*\n(?=    ))*.*\n)", text))


DEFINED = defined()


def values(kind):
    """What an argument of a kind may be."""
    if kind in KINDS:
        return [KINDS[kind]]
    words, others = WORD.findall(DEFINED[kind]), [k for k in KINDS if f"({k} " in DEFINED[kind]]
    return words + [KINDS[other] for other in others]


def ends_of(form):
    """How a line of this form may go on behind its name."""
    if found := ITEM_OR.fullmatch(form):
        return [["m", "U", "N"], *ends_of(found[1])]
    if found := CALL_OR.fullmatch(form):
        return [["svc", "I"], ["svc", "I", "N"], *ends_of(found[1])]
    if found := EXTENT.fullmatch(form):
        return [[*end, *more] for end in [*table("places"), ["s", "A-B"]] for more in ends_of(found[1])]
    sort, *words = re.findall(r"\w+", form)
    if sort in ("kind", "part"):
        rest = form.partition(". ")[2]
        return [[*end, *more] for end in table(words[0]) for more in (ends_of(rest) if rest else [[]])]
    if sort == "takes":
        rest = ends_of(form.partition(". ")[2])
        return [[value, *more] for value in values(words[0]) for more in rest]
    ends = [[]]
    for kind in (w for w in words if w in KINDS or WORD.search(DEFINED.get(w, ""))):
        ends = [[*end, value] for end in ends for value in values(kind)]
    return [[], *ends] if sort == "may_take" else ends


def table(name):
    """The forms of a table."""
    return [[first, *end] for first, form in ROW.findall(DEFINED[name]) for end in ends_of(form)]


def forms_of(crates):
    return {" ".join(form) for crate in crates for form in table(LANGUAGES[crate])}


def names():
    """The words of each line of a script that are no arguments."""
    letters = {*KINDS.values()}
    return sorted({" ".join(w for w in f.split() if w not in letters) for f in forms_of(["s360_language"])})


def told(forms):
    """Forms as a person reads them: P is a place, WHAT is saved, and `key K` has a key's name."""
    several = {"P": table("places"), "WHAT": [[w] for w in values("medium_of")]}
    for form in forms:
        found = [[]]
        for word in form.replace("key K", "key_of").split():
            among = [[w] for w in values(word)] if word == "key_of" else several.get(word, [[word]])
            found = [[*some, *["key"] * (word == "key_of"), *more] for some in found for more in among]
        yield from (" ".join(some) for some in found)


def forms_of_help(lines):
    """The forms of the lines of a help, each of which ends with what the line does."""
    told_lines = (line.strip().partition(": ") for line in lines)
    return {*told(form for forms, colon, _ in told_lines if colon for form in forms.split(", "))}


def help_in(file):
    """The lines of the help in a source, which begins with the line `step`."""
    text = (TOP / "crates" / file).read_text()
    return re.search(r"(?m)^ *step: .*\n(?:.*: .*\n)*", text)[0].splitlines()


def forms_in_table(page, heading):
    """The forms of the first cells of a table's rows."""
    text = (TOP / "docs" / "reference" / page).read_text().partition(heading)[2]
    for row in text.partition("|---")[2].partition("\n\n")[0].splitlines()[1:]:
        cell = row.split("|")[1]
        forms = re.findall(r"`([^`]*)`", cell)
        if " and " in cell:
            forms = [f"{forms[0]} {other}" for other in forms[1:]]
        for form in forms:
            whole, option, _ = form.partition(" [")
            yield from [whole, form.replace("[", "").replace("]", "")] if option else [form]


def faults():
    """Where other lines are told than the tables have."""
    pages = {
        "debugger.md": (["s360_language"], forms_in_table("debugger.md", "| Line | What it does | Answer |")),
        "gdb.md": (["s360_inquiry"], forms_in_table("gdb.md", "| Line | What it does |")),
        "gdb.md, WHAT": (
            ["s360_saving"],
            (f"{s} {w} FILE" for w in forms_in_table("gdb.md", "| WHAT |") for s in ("save", "save!")),
        ),
    }
    tellings = {page: (crates, {*told(forms)}) for page, (crates, forms) in pages.items()}
    tellings |= {file: (crates, forms_of_help(help_in(file))) for file, crates in HELPS.items()}
    tellings["second/remote.py"] = ([*LANGUAGES], forms_of_help(HELP))
    for place, (crates, forms) in tellings.items():
        yield from (f"{place} does not tell {form}" for form in sorted(forms_of(crates) - forms))
        yield from (f"{place} tells {form}, which is no line" for form in sorted(forms - forms_of(crates)))
