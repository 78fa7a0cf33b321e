"""How the second machine reads a script: its lines, and the faults of a line of any bytes."""
import itertools
import re

from .devices import SIGNS

LONGEST_SCRIPT = 1_048_576
LONGEST_LINE = 1_024
MOST_EVENTS, MOST_SHOWN = 10_000_000, 256
TOO_LONG, UNKNOWN = "? line too long", "? unknown"
ENTER = b"enter"
SIGNED = SIGNS.encode()


def written_as(pattern):
    return re.compile(pattern).fullmatch


def count_up_to(most):
    """Of 1 to 8 decimal digits, and neither 0 nor above the most."""
    has_digits = written_as(rb"[0-9]{1,8}")
    return lambda word: has_digits(word) and 1 <= int(word) <= most


ADDRESS = written_as(rb"[0-9A-Fa-f]{1,6}")
UNIT = written_as(rb"[0-9A-Fa-f]{1,3}")
WORD = written_as(rb"[0-9A-Fa-f]{1,8}")
DOUBLEWORD = written_as(rb"[0-9A-Fa-f]{16}")
REGISTER = KEY = written_as(rb"[0-9A-Fa-f]")
BIT = written_as(rb"[01]")
BYTES = written_as(rb"([0-9A-Fa-f]{2})+")
COUNT = count_up_to(MOST_EVENTS)
# The arguments behind the first word of a line, or by the kind that its word 1 names.
PATCHES = {b"s": (ADDRESS, BYTES), b"r": (REGISTER, WORD), b"k": (ADDRESS, KEY)}
PATCHES |= {b"f": (ADDRESS, BIT), b"p": (DOUBLEWORD,)}
PLACES = {b"s": (ADDRESS,), b"r": (REGISTER,), b"k": (ADDRESS,), b"u": (UNIT,), b"d": (UNIT,)}
PLACES |= {b"p": (), b"run": (), b"ext": ()}
SHOWN = {b"regs": (), b"psw": (), b"ext": (), b"s": (ADDRESS, count_up_to(MOST_SHOWN))}
SHOWN |= {b"k": (ADDRESS,), b"u": (UNIT,), b"d": (UNIT,), b"m": (UNIT, COUNT), b"image": (UNIT,)}
KEYS = dict.fromkeys((b"start", b"stop", b"reset", b"interrupt", b"request", b"eof"), ())
FORMS = dict.fromkeys((b"step", b"tick", b"back", b"until", b"standing"), ())
FORMS |= {b"channel": (UNIT,), b"load": (UNIT,), b"break": (ADDRESS,), b"clear": (ADDRESS,)}
FORMS |= {b"run": (COUNT,), b"withdraw": (COUNT,)}
FORMS |= {b"patch": PATCHES, b"last": PLACES, b"show": SHOWN, b"key": KEYS}


def lines_of(script):
    """The lines that are answered. Blank ones and comments are not."""
    *ended, last = script.split(b"\n")
    lines = [line.removesuffix(b"\r") for line in ended]
    return [line for line in (*lines, last) if line.strip(b" ") and not line.startswith(b"*")]


def fault_of(line, forms=FORMS):
    """What is said of a line that is wrong, or begins with none of the words that have these forms."""
    if len(line) > LONGEST_LINE:
        return TOO_LONG
    first, *words = filter(None, line.split(b" "))
    if first == ENTER and forms is FORMS:
        text = line.lstrip(b" ").removeprefix(ENTER)
        return None if text.strip(SIGNED) == b"" else argument(1)
    form, number = forms.get(first), 1
    if form is None:
        return UNKNOWN
    if isinstance(form, dict):
        kind, *words = words or [b""]
        if kind not in form:
            return argument(1)
        form, number = form[kind], 2
    for place, (word, is_right) in enumerate(itertools.zip_longest(words, form), number):
        if word is None or is_right is None or not is_right(word):
            return argument(place)
    return None


def argument(place):
    return f"? argument {place}"
