#!/usr/bin/env python3
"""Opens pages of runs in a browser, and compares what they show with facts of the second machine.

    tests/page.py [--program FILE] [--pictures FOLDER]

The traces and files are the second machine's; so a page is looked at apart from s360gdb. With `--program`, a s360gdb, ./page
makes a page by it too. `--pictures` saves what the screen shows of each view. The last line says how many looks passed.
"""
import argparse
import pathlib
import random
import re
import subprocess
import sys
import tempfile
from concurrent.futures import ThreadPoolExecutor

import tally
import typed
from browser import Browser
from page_facts import HOLES, TOP, Example, assembled, lines_by_binutils, long_trace
from page_wrong import HEADER, WRONG_TRACES, WRONG_WORDS
from saved_files import answers_of
from second.traces import Trace

sys.path += [str(TOP / "tools" / name) for name in ("page", "gdb", "media")]
import elf
import symbols

MAKE = TOP / "tools/page/make_page"
NAMES = ["inventory", "cards", "charge", "turns", "listing", "punch", "marked", "overflow", "price", "add", "call", "store", "timer"]
NAMES += ["dialogue", "feeds"]
UNITS = ["reader 00C", "punch 00D", "printer 00E", "console 01F", "tape 180", "tape 181"]
CHAINS, MOST_LISTED = 1000, 40
MOST_MILLISECONDS, LONG, LONGER = 100, 200_000, 250_000
CONTRASTS = [(text, ground) for text in ("ink", "quiet", "accent") for ground in ("sheet", "ground")]
CONTRASTS += [("ink", "chosen"), ("ink", "bar"), ("card-ink", "card"), *((f"actor{number}", "sheet") for number in range(8))]
MARKUP = "<script>document.title='spoilt'</script>"


def places_of(word):
    """The places of a name: of successive bytes each."""
    first, _, last = word.partition("-")
    return [f"s{at:06X}" for at in range(int(first[1:], 16), int(last, 16) + 1)] if last else [first]


def spoken(place):
    """A place as a line of monitor names it."""
    return place if place in ("p", "run", "ext") else f"{place[0]} {place[1:]}"


def why_of(text):
    """The number of the change that `why!` tells, and the places that it was made of."""
    made = text.splitlines()[0]
    name = r"[a-z]+[0-9A-F-]*"
    item = rf"{name}(?: \(\d+\)| by patch \d+| from the start)?"
    items = re.search(rf" of ({item}(?:, {item})*)$", made)
    words = re.findall(rf"(?:^|, )({name})", items[1]) if items else []
    return int(made.split()[0]), {name for word in words for name in places_of(word)}


def luminance(digits):
    """How light a colour is (WCAG 2.2, "relative luminance")."""
    shares = [int(digits[at : at + 2], 16) / 255 for at in (0, 2, 4)]
    red, green, blue = (s / 12.92 if s <= 0.04045 else ((s + 0.055) / 1.055) ** 2.4 for s in shares)
    return 0.2126 * red + 0.7152 * green + 0.0722 * blue


def make(*words):
    """Makes a page or a picture, and answers the status and what is said of faults."""
    done = subprocess.run([MAKE, *words], capture_output=True, text=True)
    return done.returncode, done.stderr


class Looks:
    """Looks at pages in one browser, in a folder."""

    def __init__(self, browser, folder, pictures):
        self.browser, self.folder, self.pictures = browser, folder, pictures
        self.passed, self.faults = 0, []

    def expect(self, what, wanted, got):
        if wanted == got:
            self.passed += 1
        else:
            self.faults.append(f"{what}: it has to be {wanted!r}, and is {got!r}")

    def open(self, name, fragment=""):
        self.browser.open(self.folder / f"{name}.html", fragment)
        self.expect(f"{name}: faults on the console", [], self.browser.faults())

    def value(self, script):
        return self.browser.value(f"page.then((p) => {script})")

    def texts(self, selector):
        """The texts of some elements."""
        return self.value(f"[...document.querySelectorAll('{selector}')].map((e) => e.textContent.replace('\\u00a0', ''))")

    def save_picture(self, name):
        if self.pictures:
            self.browser.picture(self.pictures / f"{name}.png")

    # Of an example.

    def example(self, name):
        example = Example(name, self.folder)
        page = self.folder / f"{name}.html"
        self.expect(f"{name}: made", (0, ""), make(*example.words(), "-o", str(page)))
        self.open(name)
        self.paper(example)
        self.time(example)
        self.storage(example)
        self.source(example)
        self.views(example)
        self.columns(example)
        self.bytes(example)
        self.expect(f"{name}: faults at the end", [], self.browser.faults())
        return example

    def paper(self, example):
        """Pages, lines, cards and blocks are as many as there are, and say what they say."""
        self.value("p.views.paper.openAll()")
        printed = example.printed()
        numbers = range(1, max(printed, default=0) + 1)
        pages = [[text for _, text in sorted(printed.get(page, []), key=lambda one: one[0])] for page in numbers]
        texts = "[...q.querySelectorAll('.printed')].map((e) => e.firstChild?.data ?? '')"
        script = f"[...document.querySelectorAll('.page')].map((q) => {texts})"
        self.expect(f"{example.name}: printed", pages, self.value(script))
        cards = [card for _, card in example.machine.device(0x00D).cards]
        for medium, bytes_ in (("punch", cards), ("reader", example.machine.device(0x00C).cards)):
            self.cards(example, medium, [bytes(card) for card in bytes_])
        console = example.machine.device(0x01F)
        said = [re.sub(r"^(type|return) ?", "", item) for item in console.items()]
        self.expect(f"{example.name}: typed", said, self.texts(".said:not(.enter) pre"))
        entered = ["".join(map(example.sign, line)) for line in console.entered]
        self.expect(f"{example.name}: entered", entered, self.texts(".said.enter pre"))
        for number, unit in enumerate((0x180, 0x181)):
            blocks = len(example.machine.device(unit).recorded)
            shown = len(self.texts(f".tape{number} .block"))
            self.expect(f"{example.name}: blocks of {unit:X}", blocks, shown)

    def cards(self, example, medium, cards):
        holes = f"[...document.querySelectorAll('.{medium} .hole')].map((e) => e.getAttribute('d').split('M').length - 1)"
        counts = self.value(holes)
        self.expect(f"{example.name}: {medium} cards", len(cards), len(counts))
        for card, count in zip(cards, counts):
            text = card.decode("cp037")
            if all(sign in HOLES for sign in text):
                self.expect(f"{example.name}: holes of {text.rstrip()}", sum(map(HOLES.get, text)), count)

    def time(self, example):
        """The lane of each unit has its events, and those of routines all of the CPU."""
        lanes = dict(self.value("p.run.lanes.map((lane, i) => [lane.name, p.run.lane.filter((n) => n === i).length])"))
        wanted = {name: example.events_of(f"channel {name[-3:]}") for name in UNITS}
        shown = {name: lanes.get(name, 0) for name in UNITS}
        self.expect(f"{example.name}: events of units", wanted, shown)
        routines = sum(lanes.values()) - sum(shown.values()) - lanes.get("operator", 0)
        self.expect(f"{example.name}: events of the CPU", example.events_of("cpu"), routines)
        names = self.value("[...document.querySelectorAll('#lanes .name')].length")
        self.expect(f"{example.name}: names of lanes", len(lanes) + 1, names)

    def storage(self, example):
        """The stores of some places."""
        places = sorted({place for change in example.changes for place in change.noted})
        for place in random.Random(example.name).sample(places, min(12, len(places))):
            self.value(f"p.state.choose({{ place: '{place}', moment: p.run.last }})")
            told = self.value("document.querySelector('.cell summary')?.textContent")
            count = len(example.stores(place))
            of = f"{MOST_LISTED} of {count}" if count > MOST_LISTED else count
            self.expect(f"{example.name}: stores of {place}", f"Stores ({of})", told)

    def source(self, example):
        """How often lines ran, all together."""
        trace = (example.folder / "trace").read_text().splitlines()[1:]
        fields = {line.split(",")[0]: line.split(",") for line in trace}
        ran = {}
        for _, _, address, *_ in fields.values():
            if address:
                ran[address] = ran.get(address, 0) + 1
        rows = self.value("[...p.views.source.rows].map(([a, { row }]) => [a, Number(row.cells[1].textContent)])")
        shown = {f"{int(address):06X}": count for address, count in rows if count}
        self.expect(f"{example.name}: lines that ran", {a: n for a, n in ran.items() if a in shown}, shown)
        current = "document.querySelectorAll('#source tr.now').length + (p.run.address[p.state.moment] ? 0 : 1)"
        self.expect(f"{example.name}: the current line", 1, self.value(current))

    def views(self, example):
        """Keys go from event to event, and a chosen event is told in each view."""
        last = len(example.changes)
        self.value("p.state.choose({ moment: 0 })")
        self.browser.press("ArrowRight")
        wanted = min(2, last)
        self.expect(f"{example.name}: the next event", f"goto {wanted}", self.texts(".command")[0])
        (head,) = self.texts("#moment h2")
        self.expect(f"{example.name}: its name", f"{wanted} {example.event(wanted)}", head.partition(" at ")[0])
        self.browser.press("End")
        self.expect(f"{example.name}: the end", f"#{last}", self.browser.value("location.hash.split(',')[0]"))
        self.save_picture(example.name)

    def columns(self, example):
        """Each column of paper comes from a byte that had its sign."""
        script = """(() => {
          const faults = [], run = p.run;
          let looked = 0;
          for (const element of document.querySelectorAll('.printed, .said:not(.enter) pre')) {
            const text = (element.firstChild?.data ?? '').replace('\\u00a0', '').trimEnd();
            if (!element.made) continue;
            for (let column = 0; column < text.length; column++, looked++) {
              const { place, moment } = p.partOf(element.made.parts, column), value = run.valueAt(place, moment - 1);
              if (run.signs[parseInt(value, 16)] !== text[column]) faults.push([text, column, place, value]);
            }
          }
          return [looked, faults];
        })()"""
        looked, faults = self.value(script)
        texts = [text for lines in example.printed().values() for _, text in lines]
        texts += [re.sub(r"^(type|return) ?", "", item) for item in example.machine.device(0x01F).items()]
        self.expect(f"{example.name}: columns", (sum(map(len, texts)), []), (looked, faults))

    def bytes(self, example):
        """Each byte of cards and blocks came from one in storage that had its value, or went to one that has it then."""
        script = """(() => {
          const { run } = p, { paper } = run, faults = [];
          let looked = 0;
          const look = (bytes, made, reads) => {
            for (let at = 0; made && at < bytes.length / 2; at++, looked++) {
              const part = p.partOf(made.parts, at), byte = bytes.slice(2 * at, 2 * at + 2).toUpperCase();
              const value = part ? run.valueAt(part.place, part.moment - (reads ? 0 : 1)) : reads ? byte : '40';
              if (value !== byte) faults.push([at, byte, value, run.number[made.moment]]);
            }
          };
          for (const { bytes, made } of paper.punch ?? []) look(bytes, made, false);
          for (const { bytes, made } of paper.reader ?? []) look(bytes, made, true);
          for (const block of [...(paper.tape0 ?? []), ...(paper.tape1 ?? [])]) {
            for (const made of block.events) look(block.bytes ?? '', made, made.did === 'read');
          }
          return [looked, faults];
        })()"""
        looked, faults = self.value(script)
        self.expect(f"{example.name}: bytes of cards and blocks", [], faults)
        cards = 80 * len(example.machine.device(0x00D).cards)
        self.expect(f"{example.name}: so many were looked at", True, looked >= cards)

    def feeds(self):
        """A card that is fed went nowhere; of one that is read some columns did, and others were skipped."""
        self.open("feeds")
        script = "p.run.paper.reader.map(({ made }) => made && [0, 3, 4].map((at) => p.partOf(made.parts, at)?.place ?? ''))"
        wanted = [["", "", ""], ["s000600", "s000603", ""], None]
        self.expect("feeds: where columns went", wanted, self.value(script))

    # Causes.

    def chains(self, examples):
        """The causes of random places, after random events, are those of the second machine."""
        some = random.Random(1)
        shares = {example: -(-CHAINS // len(examples)) for example in examples}
        for example, count in shares.items():
            example.look_at_all()
            self.open(example.name)
            numbers = some.choices(range(1, len(example.changes) + 1), k=count)
            asked = [[some.choice(list(example.changes[number - 1].noted or ["p"])), number] for number in numbers]
            script = """asked.map(([place, number]) => {
              const chain = new p.Chain(p.run, { place, moment: p.run.momentOf(number) });
              const name = (store) => `${p.run.places[p.run.place[store]]}@${p.run.number[p.run.momentOfStore[store]]}`;
              return [...chain.causes.values()].flatMap((cause) => [...cause.stores].map(name)).sort();
            })"""
            shown = self.value(f"((asked) => {script})({asked})")
            for (place, number), causes in zip(asked, shown):
                wanted = sorted(f"{place}@{at}" for place, at in example.causes(place, number))
                self.expect(f"{example.name}: causes of {place} after {number}", wanted, causes)

    def whys(self, examples, program):
        """What random changes made some place of is what `why` of s360gdb tells."""
        some, count = random.Random(2), -(-CHAINS // len(examples))
        for example in examples:
            numbers = [number for number, change in enumerate(example.changes, 1) if change.places]
            asked = [[some.choice(example.changes[number - 1].places), number] for number in some.choices(numbers, k=count)]
            lines = [line for place, number in asked for line in (f"goto {number}", f"why! {spoken(place)} 1")]
            answers = answers_of(program, example.words_of_program(), [*example.lines(), *lines])[len(example.lines()) + 1 :: 2]
            self.open(example.name)
            script = """asked.map(([place, number]) => {
              const store = p.run.lastStore(place, p.run.momentOf(number));
              return [p.run.number[p.run.momentOfStore[store]], p.run.sources[p.run.source[store]]];
            })"""
            for (place, number), (at, sources), told in zip(asked, self.value(f"((asked) => {script})({asked})"), answers):
                made = {name for word in sources.split() for name in places_of(word)}
                self.expect(f"{example.name}: why {place} after {number}", why_of(told), (at, made))

    def graph(self, example):
        """The graph has the events up to a depth, each once; choosing one leads all views there. A picture has the same."""
        self.open(example.name)
        self.value("p.goTo('2426,r7')")
        nodes = self.value("[...document.querySelectorAll('.cause')].map((e) => e.dataset.moment)")
        self.expect("nodes, each once", len(nodes), len(set(nodes)))
        picture = self.folder / "causes.svg"
        self.expect("picture", (0, ""), make("--svg", "causes", str(picture), "--of", "r7", *example.words()))
        self.expect("nodes of the picture", len(nodes), picture.read_text().count('class="cause"'))
        picture = self.folder / "storage.svg"
        self.expect("picture of storage", (0, ""), make("--svg", "storage", str(picture), *example.words()))
        told = re.findall(r">([^<]+)</text>", picture.read_text())
        self.expect("who stored into storage", ["CPU", "reader 00C", "tape 180"], told[-3:])
        self.browser.value("document.querySelectorAll('.cause')[1].dispatchEvent(new Event('click'))")
        chosen = self.value("p.run.number[p.state.moment]")
        self.expect("the chosen node", (f"goto {chosen}", 1), (self.texts(".command")[0], len(self.texts(".cause.now"))))
        self.value("p.goTo('1548,s000518')")
        self.save_picture("causes")
        self.browser.media("dark")
        self.save_picture("dark")
        self.browser.media("light", "print")
        self.save_picture("print")
        self.browser.media()

    def zoom(self, example):
        """Near one event a lane is filled where its event is, and the stores into the place stand in their lane alone."""
        self.open(example.name)
        self.value("(p.state.choose({ moment: 1801, place: 'r7' }), p.state.zoom(0.02))")
        script = """(() => {
          const { raster } = p.views.time, top = Math.ceil(13 * raster.ratio);
          const chosen = getComputedStyle(document.documentElement).getPropertyValue('--accent').trim();
          const [r, g, b] = [1, 3, 5].map((at) => parseInt(chosen.slice(at, at + 2), 16));
          const value = ((255 << 24) | (b << 16) | (g << 8) | r) >>> 0;
          const at = (pixels) => pixels.filter((one) => one === value).length;
          return [at(raster.pixels.subarray(0, top * raster.width)) > 0, at(raster.pixels.subarray(top * raster.width))];
        })()"""
        self.expect("the lane of stores", [True, 0], self.value(script))
        span = "[Math.round(p.state.to - p.state.from), p.state.from <= p.state.moment && p.state.moment < p.state.to]"
        near = self.value(span)
        self.browser.press("0")
        self.expect("spans", ([49, True], [2426, True]), (near, self.value(span)))

    def part(self, example):
        """A trace may have some changes alone: what was made before it has no cause."""
        (example.folder / "trace").write_text(Trace(example.inquiries).text(1100, 1600))
        page = self.folder / "part.html"
        self.expect("part: made", (0, ""), make(*example.words(), "-o", str(page)))
        self.open("part", "1548,s000518")
        self.expect("part: told", "501 events, 1100 to 1600.", self.texts("#summary")[0])
        self.expect("part: its first cause", "1124", self.texts(".cause .head")[0].split()[0])
        self.expect("part: what is before it", True, any("before 1100" in text for text in self.texts(".cause .notes")))
        made = self.value("[...document.querySelectorAll('.printed')].map((e) => e.made ? p.run.number[e.made.moment] : 0)")
        wanted = [number if 1100 <= number <= 1600 else 0 for number in example.printed_by()]
        self.expect("part: lines with their events", wanted, made)

    # Others.

    def symbols(self):
        """The lines of ELF files are those that binutils find, and labels and lines those of the same program's listing."""
        for source in (TOP / "tests/gdb").glob("*.s"):
            for version in (2, 3, 4, 5):
                file = assembled(source, version, self.folder)
                lines = {(pathlib.Path(name).name, line, at) for name, line, at in elf.lines(file.read_bytes())}
                self.expect(f"{source.name}: lines of DWARF {version}", lines_by_binutils(file), lines)
        linked, listed = (symbols.read(str(TOP / f"examples/inventory/inventory.{kind}")) for kind in ("elf", "listing"))
        names = [[(at, name) for at, name, *_ in some.labels] for some in (linked, listed)]
        self.expect("labels of the listing", names[0], names[1])
        lines = [{(at, line) for at, line, _ in some.statements} for some in (linked, listed)]
        self.expect("lines of the listing", set(), lines[0] - lines[1])

    def contrast(self):
        """Texts stand out from what is behind them, in the light and in the dark (WCAG 2.2, 1.4.3)."""
        light, _, dark = (TOP / "tools/page/page.css").read_text().partition("@media (prefers-color-scheme: dark)")
        for scheme, style in (("light", light), ("dark", dark.partition("\n}\n")[0])):
            colours = dict(re.findall(r"--([\w-]+): #([0-9a-f]{6});", style))
            for text, ground in CONTRASTS:
                low, high = sorted(map(luminance, (colours[text], colours[ground])))
                self.expect(f"{scheme}: {text} on {ground}", True, (high + 0.05) / (low + 0.05) >= 4.5)

    def markup(self):
        """What cards, names and titles have is no markup."""
        deck = b"".join(text.encode("cp037").ljust(80, b"\x40") for text in (MARKUP, "</SCRIPT><IMG SRC=X ONERROR=STOP()>"))
        trace, listing = self.folder / "markup.trace", self.folder / "<img src=x onerror=alert(1)>.listing"
        trace.write_text(HEADER + "1,tick,,,,ext,<b>none</b>,</script><i>,ext\n")
        (self.folder / "markup.deck").write_bytes(deck)
        (self.folder / "markup.pages").write_text(f"{MARKUP}\n<!-- \n")
        (self.folder / "markup.log").write_text(f"return {MARKUP}\n")
        listing.write_text("000200 0700             A<I>  NOPR 0 <script>alert(1)</script>\n")
        words = ["--reader", "markup.deck", "--printer", "markup.pages", "--console", "markup.log", "--symbols", listing.name]
        words = [str(self.folder / word) if not word.startswith("--") else word for word in words]
        self.expect("markup: made", (0, ""), make(*words, "--title", MARKUP, str(trace), "-o", str(self.folder / "markup.html")))
        self.open("markup")
        self.value("p.views.paper.openAll()")
        self.expect("markup: title", MARKUP, self.browser.value("document.title"))
        self.expect("markup: elements", [2, 0, 0], [len(self.texts(tag)) for tag in ("script", "img", "b")])
        self.expect("markup: printed", MARKUP, self.browser.value("document.querySelector('.printed').textContent"))
        self.expect("markup: card", True, MARKUP in self.browser.value("document.querySelector('.card').ariaLabel"))

    def speed(self):
        """Views of many events are drawn in time; more events are summed up, and the page says so."""
        for events, name in ((LONG, "long"), (LONGER, "longer")):
            trace = self.folder / f"{name}.trace"
            trace.write_text(long_trace(events))
            self.expect(f"{name}: made", (0, ""), make(str(trace), "-o", str(self.folder / f"{name}.html")))
            self.open(name, "150000,s000900")
            told = self.browser.value("document.querySelector('#summary').textContent")
            self.expect(f"{name}: told", [events > LONG, True], ["one moment" in told, f"{events:,} events" in told])
            for view in ("time", "storage"):
                least = min(self.value(f"(p.views.{view}.draw(), p.views.{view}.milliseconds)") for _ in range(8))
                within = f"{name}: {view} is drawn within {MOST_MILLISECONDS} ms and not {least:.0f}"
                self.expect(within, True, least < MOST_MILLISECONDS)

    def wrong(self, example):
        """A wrong file or word ends in one line, and no page."""
        (self.folder / "odd").write_bytes(b"odd")
        cases = [([*words, str(example.folder / "trace")], told) for words, told in WRONG_WORDS]
        for name, text, told in WRONG_TRACES:
            file = self.folder / f"{name}.trace"
            file.write_bytes(text.encode("latin-1"))
            cases.append(([str(file)], told))
        how = {"capture_output": True, "text": True, "cwd": self.folder}
        with ThreadPoolExecutor(2) as pool:
            ended = list(pool.map(lambda case: subprocess.run([MAKE, *case[0]], **how), cases))
        for (words, told), done in zip(cases, ended):
            is_told = told in done.stderr and done.stderr.count("\n") == 1 and done.returncode > 0
            self.expect(f"{words}: {done.stderr!r}", (True, False), (is_told, (self.folder / "run.html").exists()))

    def script(self, program):
        """./page makes the same by s360gdb."""
        copy = self.folder / "a clean copy"
        copy.mkdir()
        typed.make_checkout(copy, [program])
        first = (TOP / "examples/inventory/inventory.s360").read_text().partition("\n")[0]
        words = first.removeprefix("* ./run ")
        done = typed.printed(f"./page --unproved --symbols examples/inventory/inventory.listing {words} -o run.html", copy)
        self.expect("./page", 0, done.returncode)
        if done.returncode:
            self.faults.append(done.stderr)
            return
        self.browser.open(copy / "run.html")
        shown = self.value("p.run.moments"), len(self.texts(".printed"))
        self.expect("./page: events and lines", (2426, 15), shown)
        self.browser.open(self.folder / "inventory.html")


def main():
    parser = argparse.ArgumentParser(description=__doc__.partition("\n")[0])
    parser.add_argument("--program", type=pathlib.Path)
    parser.add_argument("--pictures", type=pathlib.Path)
    options = parser.parse_args()
    with tempfile.TemporaryDirectory() as folder, Browser() as browser:
        looks = Looks(browser, pathlib.Path(folder), options.pictures)
        examples = [looks.example(name) for name in NAMES]
        looks.feeds()
        looks.graph(examples[0])
        looks.chains(examples)
        looks.zoom(examples[0])
        looks.part(examples[0])
        looks.symbols()
        looks.contrast()
        looks.markup()
        looks.speed()
        looks.wrong(examples[0])
        if options.program:
            looks.whys(examples, options.program.resolve())
            looks.script(options.program.resolve())
    return tally.end(looks.passed, looks.faults)


if __name__ == "__main__":
    sys.exit(main())
