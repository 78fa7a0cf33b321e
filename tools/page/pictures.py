"""The views of a page as pictures (SVG): time, storage and causes, with the page's colours in the light."""
import functools
import pathlib
import re
from xml.sax.saxutils import escape

from chains import Chains, columns, layered
from common import Fault
from lanes import ACTORS, actor_of
from trace_file import FORMS

VIEWS = ("time", "storage", "causes")
WIDTH, NAMES, LANE, AXIS = 1200, 118, 16, 18
ROW, MOST_HEIGHT, TINT = 3, 600, 0.35
NODE_WIDTH, NODE_HEIGHT, ACROSS, DOWN, MARGIN = 232, 66, 14, 26, 10
DEPTH, MOST_NODES, MOST_SIGNS = 4, 60, 31
FONT = "ui-monospace, DejaVu Sans Mono, Liberation Mono, Menlo, Consolas, monospace"


@functools.cache
def colours():
    """The colours of the page's style, by name: the first of each is that in the light."""
    style = (pathlib.Path(__file__).parent / "page.css").read_text()
    return {name: value for name, value in reversed(re.findall(r"--(\w+): (#[0-9a-f]{6});", style))}


def svg(width, height, parts):
    head = f'<svg xmlns="http://www.w3.org/2000/svg" width="{width}" height="{height}" viewBox="0 0 {width} {height}"'
    paper = f'<rect width="{width}" height="{height}" fill="{colours()["sheet"]}"/>'
    return "\n".join([f'{head} font-family="{FONT}" font-size="11">', paper, *parts, "</svg>", ""])


def text(x, y, words, kind="ink", more=""):
    return f'<text x="{x:g}" y="{y:g}" fill="{colours()[kind]}"{more}>{escape(words)}</text>'


def boxes(rectangles, colour, opacity=1):
    """Rectangles of one colour: left, top, width and height."""
    path = "".join(f"M{x:g} {y:g}h{wide:g}v{high:g}h{-wide:g}z" for x, y, wide, high in rectangles)
    faint = f' fill-opacity="{opacity}"' if opacity < 1 else ""
    return f'<path d="{path}" fill="{colour}"{faint}/>' if path else ""


def axis(run, top):
    """Numbers of events at round places."""
    trace = run.trace
    scale = (WIDTH - NAMES) / trace.moments
    rough = max(trace.moments * 90 / (WIDTH - NAMES), 1)
    power = 10 ** (len(str(int(rough))) - 1)
    step = next(int(factor * power) for factor in (1, 2, 5, 10) if factor * power >= rough)
    for moment in range(0, trace.moments, step):
        x = round(NAMES + (moment + 0.5) * scale, 1)
        yield boxes([(x, top, 1, 4)], colours()["quiet"])
        yield text(x + 3, top + 13, str(trace.number[moment]), "quiet")


def time(run):
    """A lane for each routine and unit."""
    trace, scale = run.trace, (WIDTH - NAMES) / run.trace.moments
    filled = [set() for _ in run.lanes]
    for moment, lane in enumerate(run.lane):
        filled[lane].update(range(int(moment * scale), max(int(moment * scale), int((moment + 1) * scale) - 1) + 1))
    parts = []
    for number, (lane, pixels) in enumerate(zip(run.lanes, filled)):
        top = number * LANE
        parts.append(text(6, top + 12, lane["name"]))
        parts.append(boxes([(0, top + LANE - 0.5, WIDTH, 0.5)], colours()["rule"]))
        runs = [(NAMES + first, top + 2, last - first, LANE - 4) for first, last in runs_of(sorted(pixels))]
        parts.append(boxes(runs, colours()[f"actor{lane['actor']}"]))
    height = len(run.lanes) * LANE
    return svg(WIDTH, height + AXIS, [*parts, *axis(run, height)])


def runs_of(numbers):
    """Successive numbers as their first and the one behind their last."""
    runs = []
    for number in numbers:
        if runs and runs[-1][1] == number:
            runs[-1][1] = number + 1
        else:
            runs.append([number, number + 1])
    return runs


def storage(run):
    """A row for each byte that was stored into: who stored it, and how long that stood. Bytes that had the same stores are drawn
    together."""
    trace, actors = run.trace, [actor_of(kind) for kind in run.trace.kinds]
    bytes_ = sorted((place, number) for place, number in trace.places.items() if place[0] == "s")
    if not bytes_:
        raise Fault(f"{trace.name}: no event stored into storage: take another view than storage")
    stores = {number: [] for _, number in bytes_}
    for moment in range(trace.moments):
        for store in range(trace.begins[moment], trace.begins[moment + 1]):
            if trace.place[store] in stores:
                stores[trace.place[store]].append((moment, actors[trace.kind[moment]]))
    bands = []
    for place, number in bytes_:
        if bands and bands[-1][2] == stores[number]:
            bands[-1][1] += 1
        else:
            bands.append([place, 1, stores[number]])
    return drawn_bands(run, bands, len(bytes_))


def drawn_bands(run, bands, count):
    high = min(ROW, MOST_HEIGHT / count)
    scale = (WIDTH - NAMES) / run.trace.moments
    strong, pale, names = [[] for _ in ACTORS], [[] for _ in ACTORS], []
    top = free = 0
    for place, rows, stores in bands:
        ends = [*(moment for moment, _ in stores[1:]), run.trace.moments]
        for (moment, actor), end in zip(stores, ends):
            x, wide = round(NAMES + moment * scale, 1), max(round(scale, 1), 1)
            strong[actor].append((x, round(top, 1), wide, round(rows * high, 1)))
            pale[actor].append((x, round(top, 1), round((end - moment) * scale, 1), round(rows * high, 1)))
        label = run.symbols.named(int(place[1:], 16)).partition("+")[0] or place[1:]
        if top >= free and label not in (name for name, _ in names[-1:]):
            names.append((label, top))
            free = top + 12
        top += rows * high
    parts = [text(6, y + 9, name) for name, y in names if y + 9 <= top]
    parts += [boxes(found, colours()[f"actor{actor}"], TINT) for actor, found in enumerate(pale)]
    parts += [boxes(found, colours()[f"actor{actor}"]) for actor, found in enumerate(strong)]
    top = round(max(top, free), 1)
    keys = [actor for actor, found in enumerate(strong) if found]
    legend = [text(NAMES + 110 * at, top + AXIS + 12, ACTORS[actor], f"actor{actor}") for at, actor in enumerate(keys)]
    return svg(WIDTH, top + 2 * AXIS, [*parts, *axis(run, top), *legend])


def causes(run, place, at):
    """The chain of causes of a place before a change."""
    trace = run.trace
    if place is None:
        raise Fault("--svg causes: no place is named: add --of PLACE, as --of r7")
    if not FORMS["place"].fullmatch(place):
        raise Fault(f"--of {place}: no place: name it as r7, s000518 or d00E")
    found, _ = Chains(trace).chain(place, trace.moments - 1 if at is None else trace.moment(at) - 1)
    shown = layered(found, DEPTH)[:MOST_NODES]
    if not shown:
        raise Fault(f"{trace.name}: nothing stored into {place} by then: name another place or a later change")
    layers, at_of = columns(shown), {}
    for layer, causes_of_layer in enumerate(layers):
        for column, cause in enumerate(causes_of_layer):
            at_of[cause.moment] = MARGIN + column * (NODE_WIDTH + ACROSS), MARGIN + layer * (NODE_HEIGHT + DOWN)
    width = 2 * MARGIN + max(map(len, layers)) * (NODE_WIDTH + ACROSS) - ACROSS
    height = 2 * MARGIN + len(layers) * (NODE_HEIGHT + DOWN) - DOWN
    edges = [edge(at_of[c.moment], at_of[below]) for c in shown for below in sorted(c.below) if below in at_of]
    nodes = [part for cause in shown for part in node(run, cause, *at_of[cause.moment])]
    return svg(width, height, [*edges, *nodes])


def edge(above, below):
    half, bend = NODE_WIDTH / 2, DOWN * 0.7
    x1, y1, x2, y2 = above[0] + half, above[1] + NODE_HEIGHT, below[0] + half, below[1]
    curve = f"M{x1:g} {y1:g}C{x1:g} {y1 + bend:g} {x2:g} {y2 - bend:g} {x2:g} {y2:g}"
    return f'<path d="{curve}" fill="none" stroke="{colours()["quiet"]}"/>'


def node(run, cause, x, y):
    """Its box and its lines: event and label, what it did, what it made, and what is not followed."""
    trace, values, places = run.trace, list(run.trace.values), list(run.trace.places)
    kind = list(trace.kinds)[trace.kind[cause.moment]]
    box = f'x="{x}" y="{y}" width="{NODE_WIDTH}" height="{NODE_HEIGHT}" rx="3"'
    yield f'<rect class="cause" {box} fill="{colours()["sheet"]}" stroke="{colours()["rule"]}"/>'
    yield boxes([(x, y, 4, NODE_HEIGHT)], colours()[f"actor{actor_of(kind)}"])
    address = trace.address[cause.moment] - 1
    label = "" if address < 0 else run.symbols.named(address) or f"{address:06X}"
    statement = run.symbols.statement(address) if address >= 0 else None
    digits, _, mnemonic = list(trace.codes)[trace.code[cause.moment]].partition(",")
    doing = statement[2] if statement else f"{mnemonic} {digits}".strip() or kind
    made = {places[trace.place[store]]: values[trace.after[store]] for store in sorted(cause.stores)}
    notes = [f"line {statement[1]}"] if statement else []
    start = "from the start" if trace.first == 1 else f"before {trace.first}"
    notes += [f"{start}: {' '.join(sorted(cause.from_start))}"] if cause.from_start else []
    notes += ["PSW"] if cause.is_of_psw else []
    lines = [f"{trace.number[cause.moment]} {label if kind == 'cpu' else f'{kind} {label}'}", doing, told(made), ", ".join(notes)]
    for number, line in enumerate(lines):
        bold = ' font-weight="700"' if number == 0 else ""
        yield text(x + 11, y + 15 + 15 * number, short(line), "quiet" if number == 3 else "ink", bold)


def told(made):
    """Places with their values: successive bytes together."""
    runs = []
    for place, value in made.items():
        at = int(place[1:], 16) if place[0] == "s" else None
        if runs and at is not None and runs[-1][1] == at - 1:
            runs[-1][1:] = [at, runs[-1][2] + value]
        else:
            runs.append([place, at, value])
    names = (p if at is None or p == f"s{at:06X}" else f"{p}-{at:06X}" for p, at, _ in runs)
    return ", ".join(f"{name} = {value}" for name, (_, _, value) in zip(names, runs))


def short(words):
    return words if len(words) <= MOST_SIGNS else f"{words[: MOST_SIGNS - 1]}…"


def picture(run, view, place, at):
    """The picture of a view."""
    if view == "causes":
        return causes(run, place, at)
    return {"time": time, "storage": storage}[view](run)
