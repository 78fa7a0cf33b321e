"""What gdb's user saves of the second machine in files, and is answered.

Source: docs/reference/gdb.md.
"""
import re

from .channels import CONSOLE, PRINTER, PUNCH, TAPES
from .devices import PUNCH_STACKERS, SHOWN
from .lines import COUNT, LONGEST_LINE, argument
from .tapes import image_of
from .traces import Trace

# A word that saves, the word for what, and the name of the file.
LINE = re.compile(rb" *(save!?)(?: +([^ ]+))?(?: +([^ ].*))? *", re.DOTALL)
# The name of a file and two numbers behind it.
RANGE = re.compile(rb"(.*?) *(?:(?<= )|^)([0-9]+) +([0-9]+) *", re.DOTALL)
TRACE = b"trace"
TAKES_ALL, TAKES_NONE = b"/dev/null", b"/dev/full"
FOLDERS = (b".", b"..")
FORM_FEED, CARRIAGE_RETURN, LINE_FEED = "\f", "\r", "\n"


def signs_of(line):
    return "".join(map(SHOWN.__getitem__, line))


def pages_of(machine):
    """By page and line what was printed there, one after another."""
    pages = {}
    for at, line in machine.device(PRINTER).records:
        printed = pages.setdefault(at.page, {}).setdefault(at.line, [])
        printed.append(signs_of(line).rstrip(" "))
    texts = [text_of_page(pages.get(page, {})) for page in range(1, max(pages, default=0) + 1)]
    return FORM_FEED.join(texts).encode(), f"{len(texts)} page"


def text_of_page(lines):
    numbers = range(1, max(lines, default=0) + 1)
    return "".join(CARRIAGE_RETURN.join(lines.get(line, [""])) + LINE_FEED for line in numbers)


def cards_of(machine, wanted=PUNCH_STACKERS):
    cards = machine.device(PUNCH).cards
    cards = [card for command, card in cards if PUNCH_STACKERS[command >> 6] in wanted]
    return b"".join(cards), f"{len(cards)} card"


def console_of(machine):
    console = machine.device(CONSOLE)
    entered = [f"enter {signs_of(line)}" for line in console.entered]
    lines = [line + LINE_FEED for line in (*console.items(), *entered)]
    return "".join(lines).encode(), f"{len(lines)} line"


def tape_of(machine, unit):
    image = image_of(machine.device(unit).recorded)
    return image, f"{len(image)} byte"


def parted(name):
    """The name of a trace's file, and the first and the last number of what it has, if the line says that."""
    found = RANGE.fullmatch(name)
    is_range = found and all(map(COUNT, found.groups()[1:])) and int(found[2]) <= int(found[3])
    return (found[1], int(found[2]), int(found[3])) if is_range else (name,)


def trace_of(inquiries, *span):
    text = Trace(inquiries).text(*span)
    return text.encode(), f"{text.count(LINE_FEED)} line"


SAVED = {b"printer": pages_of, b"punch": cards_of, b"console": console_of}
SAVED |= {
    stacker.encode(): lambda machine, stacker=stacker: cards_of(machine, [stacker])
    for stacker in PUNCH_STACKERS
}
SAVED |= {
    b"tape%d" % number: lambda machine, unit=unit: tape_of(machine, unit)
    for number, unit in enumerate(TAPES)
}


class Savings:
    """Answers lines that save, and keeps the files of a folder.

    No other folder is known but /dev, of which one file takes all, and another no byte. A folder is
    a file that is there, and that cannot be written."""

    def __init__(self):
        self.files = {}

    def answers(self, line, inquiries):
        """The lines that answer a line, or nothing if it saves nothing."""
        found = LINE.fullmatch(line)
        if found is None or len(line) > LONGEST_LINE:
            return None
        word, what, name = found.groups(default=b"")
        if what not in (*SAVED, TRACE):
            return [argument(1)]
        name, *span = parted(name) if what == TRACE else (name,)
        if not name:
            return [argument(2)]
        if word == b"save" and name in (*self.files, TAKES_ALL, TAKES_NONE, *FOLDERS):
            return ["not saved: file exists"]
        contents, amount = trace_of(inquiries, *span) if what == TRACE else SAVED[what](inquiries.machine)
        if name == TAKES_NONE and contents:
            return ["not saved: write failed"]
        if name not in (TAKES_ALL, TAKES_NONE):
            if b"/" in name or name in FOLDERS:
                return ["not saved: cannot open"]
            self.files[name] = contents
        return [f"saved {amount}" if amount.startswith("1 ") else f"saved {amount}s"]
