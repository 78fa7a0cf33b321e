"""Joins a page: the HTML, the style, the scripts, and the data of a run, compactly.

A column of numbers stands as base64 of its deflated bytes, low byte first, of the smallest width that holds it. Nothing of the
data can end its element or begin another: each `<` is escaped.
"""
import base64
import json
import pathlib
import sys
import zlib
from array import array

from card_code import HOLES
from common import SIGNS
from lanes import ACTORS, actor_of

FOLDER = pathlib.Path(__file__).parent
SCRIPTS = ("data", "chain", "state", "draw", "time", "storage", "causes", "paper", "cards", "source", "moment", "start")
WIDTHS = {"B": 1 << 8, "H": 1 << 16, "I": 1 << 32}
COLUMNS = ("number", "kind", "address", "code", "begins", "place", "before", "after", "source")


def packed(column):
    """A column as the page has it."""
    most = max(column, default=0)
    kind = next(kind for kind, values in WIDTHS.items() if most < values)
    numbers = array(kind, column)
    if sys.byteorder == "big":
        numbers.byteswap()
    return {"type": kind, "data": base64.b64encode(zlib.compress(numbers.tobytes(), 6)).decode()}


def signs():
    """The signs of the 256 EBCDIC bytes, with a period for one that has none."""
    return "".join(sign if sign in SIGNS else "." for sign in bytes(range(256)).decode("cp037"))


def data_of(run):
    """All that the page is told of a run."""
    trace, symbols = run.trace, run.symbols
    columns = {name: packed(getattr(trace, name)) for name in COLUMNS}
    return {
        "title": run.title,
        "first": trace.first,
        "events": trace.events,
        "step": trace.step,
        "columns": columns | {"lane": packed(run.lane)},
        "words": {name: list(getattr(trace, name)) for name in ("kinds", "codes", "places", "values", "sources")},
        "actors": ACTORS,
        "actorOfKind": [actor_of(kind) for kind in trace.kinds],
        "lanes": run.lanes,
        "runs": sorted(trace.runs.items()),
        "labels": symbols.labels,
        "program": {"file": symbols.file, "lines": symbols.lines, "statements": symbols.statements},
        "paper": run.paper,
        "holes": HOLES,
        "signs": signs(),
    }


def text_of(name):
    return (FOLDER / name).read_text()


def page_of(run):
    """The HTML file of a run."""
    data = json.dumps(data_of(run), separators=(",", ":")).replace("<", "\\u003c")
    title = run.title.replace("&", "&amp;").replace("<", "&lt;")
    scripts = "\n".join(text_of(f"{name}.js") for name in SCRIPTS)
    parts = {
        "TITLE": title,
        "STYLE": text_of("page.css"),
        "DATA": data,
        "SCRIPT": f"const page = (() => {{\n'use strict';\n{scripts}\nreturn start();\n}})();",
    }
    html, *rest = text_of("page.html").split("{{")
    for part in rest:
        name, _, behind = part.partition("}}")
        html += parts[name] + behind
    return html
