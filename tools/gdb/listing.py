"""The statements of an assembler's listing.

A form is a regular expression over a line, with the groups `location`, `code` and `source`. Known are the forms of
examples/*.listing; of assemblers that print `LOC`, `OBJECT CODE` and `STMT` above (IBM's F and H, ASMA); and of z390,
which prints `(FILE/LINE)STATEMENT`.
"""
import re
from collections.abc import Iterator
from typing import NamedTuple

OWN_COLUMNS = "1-6,8-23,25"
OWN_LINE = re.compile(r"\*.*|(?:[0-9A-F]{6}| {6})(?: (?:[0-9A-F]{2})* *(?<=^.{24})(?: .*|\S.*)?)?")
HEADER = re.compile(r".?\s*LOC\s+OBJECT CODE\s.*?STMT\b", re.IGNORECASE)
# Object code is near its location: farther on are the addresses of operands, and the statement's number.
LOCATION_AND_CODE = r"(?P<location> ?[0-9A-F]{4,8}(?= )|)(?: {1,8}(?P<code>[0-9A-F]{4}[0-9A-F ]*)|)"
Z390 = re.compile(r"(?P<location>[0-9A-F]{6}|) *(?P<code>[0-9A-F]*) .*?\(\d+/\d+\)\d+[ +=](?P<source>.*)")
COLUMNS = re.compile(r"(\d{1,3})-(\d{1,3}),(\d{1,3})-(\d{1,3}),(\d{1,3})")
STATEMENT = re.compile(r"(?P<label>[^\s*][^\s:]*)?:?\s+(?P<operation>\S+)(?:\s+(?P<operands>(?:'[^']*'|\S)*))?")
LOCATION = re.compile(r"[0-9A-F]{4,8}")
CODE = re.compile(r"[0-9A-F]{4}(?: [0-9A-F]{4}){1,2}(?![0-9A-F])|[0-9A-F]+|")
# Near the location of these is a value, or nothing.
NO_CODE = ("DS", "EQU", "ORG", "USING")


class Unreadable(Exception):
    """Why a listing cannot be read."""


class Statement(NamedTuple):
    """A statement, the line on which it stands, from 1, and what the assembler made of it."""

    line: int
    location: int | None
    code: bytes
    label: str
    operation: str
    operands: str


def form_of_columns(columns: str) -> re.Pattern[str]:
    """The form whose columns, counted from 1, are those of the location, of the object code, and the source's first."""
    told = COLUMNS.fullmatch(columns)
    first, last, code, behind, source = map(int, told.groups()) if told else (0, 0, 0, 0, 0)
    if not 1 <= first <= last or not 1 <= code <= behind or not source:
        raise Unreadable(f"the columns {columns!r} are not of the form {OWN_COLUMNS}")
    location = rf"(?=.{{{first - 1}}}(?P<location>.{{{last - first + 1}}}))"
    return re.compile(rf"{location}(?=.{{{code - 1}}}(?P<code>.{{{behind - code + 1}}})).{{{source - 1}}}(?P<source>.*)")


def form_below(header: re.Match[str], lines: list[str]) -> re.Pattern[str]:
    """The form of the lines below a header. Statement numbers end at one column, with a blank or a macro's sign behind."""
    numbered = {end: re.compile(rf".{{{end - 1}}}\d[ +=](?P<source>.*)") for end in range(header.end() - 3, header.end() + 4)}
    sources = {end: [f["source"] for f in map(pattern.match, lines) if f] for end, pattern in numbered.items()}
    end = max(sources, key=lambda end: len(sources[end]))
    indents = [len(source) - len(source.lstrip()) for source in sources[end] if source.strip()]
    return re.compile(rf"(?={LOCATION_AND_CODE}).{{{end - 1}}}\d[ +=].{{{min(indents, default=0)}}}(?P<source>.*)")


def form_of(lines: list[str], columns: str | None) -> re.Pattern[str]:
    """The form of a listing, whose columns have to be told if it is not known."""
    if columns:
        return form_of_columns(columns)
    for header in filter(None, map(HEADER.match, lines)):
        return form_below(header, lines)
    if any(map(Z390.match, lines)):
        return Z390
    filled = [line for line in lines if line]
    if filled and all(OWN_LINE.fullmatch(line) for line in filled):
        return form_of_columns(OWN_COLUMNS)
    raise Unreadable(f"the columns of this listing are not known: tell them as in --listing-columns {OWN_COLUMNS}")


def statements(text: str, columns: str | None = None) -> Iterator[Statement]:
    """The statements of a listing, but for comments."""
    # A form feed ends a page, and no line.
    lines = [line.rstrip("\r") for line in text.split("\n")]
    form = form_of([line.rstrip() for line in lines], columns)
    longest = max(map(len, lines), default=0)
    for number, line in enumerate(lines, 1):
        found = form.match(line.ljust(longest + 1))
        parts = found and STATEMENT.match(found["source"].rstrip())
        location = found and LOCATION.fullmatch(found["location"].strip())
        if not parts or not location and (found["location"] + (found["code"] or "")).strip():
            continue
        code = ""
        if location and parts["operation"] not in NO_CODE:
            code = CODE.match((found["code"] or "").strip())[0].replace(" ", "")
        yield Statement(
            number,
            int(location[0], 16) if location else None,
            bytes.fromhex(code[: len(code) // 2 * 2]),
            *(parts[name] or "" for name in ("label", "operation", "operands")),
        )
