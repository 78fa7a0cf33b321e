// Paper: pages as they were printed, cards, the console's dialogue, and tapes block by block. Each item knows the event that made
// it, and each of its bytes the place in storage that it came from or went to.

const PAPER_NAMES = {
  printer: "Printer", punch: "Punched cards", console: "Console", tape0: "Tape 180", tape1: "Tape 181", reader: "Deck read",
};
const LINES_OF_PAGE = 66, BLOCK_SHOWN = 256;

class PaperView {
  constructor(run, state) {
    this.run = run;
    this.state = state;
    this.box = $("#paper .content");
    this.sheets = new Map();
    this.elements = new Map(); // of each moment what its event made
    const media = Object.keys(run.paper);
    this.tabs = media.map((medium) => this.tab(medium));
    $("#paper .tabs").append(...this.tabs);
    if (media.length) this.open(media[0]);
    else this.box.append(make("p", { className: "empty" }, "No paper, cards or tapes were saved of this run."));
  }

  tab(medium) {
    const tab = make("button", { role: "tab" }, PAPER_NAMES[medium]);
    tab.dataset.medium = medium;
    tab.onclick = () => this.open(medium);
    return tab;
  }

  open(medium) {
    this.medium = medium;
    if (!this.sheets.has(medium)) {
      const sheet = make("div", { className: `sheets ${medium}` }, ...this.made(medium));
      this.sheets.set(medium, sheet);
      this.box.append(sheet);
    }
    for (const [name, sheet] of this.sheets) sheet.hidden = name !== medium;
    for (const tab of this.tabs) tab.setAttribute("aria-selected", tab.dataset.medium === medium);
    this.mark();
  }

  openAll() {
    const { medium } = this;
    for (const name of Object.keys(this.run.paper)) this.open(name);
    if (medium) this.open(medium);
  }

  made(medium) {
    const items = this.run.paper[medium];
    if (medium === "printer") return items.map((lines, page) => this.page(lines, page + 1));
    if (medium === "console") return [make("ol", { className: "dialogue" }, ...items.map((item) => this.said(item)))];
    if (medium.startsWith("tape")) return items.map((block, number) => this.block(block, number + 1));
    return items.map((card, number) => cardOf(this, card, number + 1, medium));
  }

  // A page has the bars of listing paper; what was printed over a line stands over it.
  page(lines, number) {
    const sheet = make("section", { className: lines.length ? "page" : "page blank", "aria-label": `Page ${number}` });
    sheet.append(make("span", { className: "folio" }, lines.length ? `page ${number}` : `page ${number}: nothing printed`));
    const printed = new Map(lines.map((line) => [line.line, line]));
    const paper = make("div", { className: "lines" });
    for (let at = 1; at <= (lines.length ? LINES_OF_PAGE : 0); at++) {
      const row = make("div", { className: "line" }, make("span", { className: "lineno" }, String(at)));
      printed.get(at)?.texts.forEach((text, over) => row.append(this.printed(text, printed.get(at).made[over], number, at)));
      paper.append(row);
    }
    sheet.append(paper);
    return sheet;
  }

  printed(text, made, page, line) {
    const element = make("pre", { className: "printed", tabIndex: 0 }, text);
    this.columns(element, made, text.length, (column) => `page ${page} line ${line} column ${column}`);
    return element;
  }

  // Lets columns of a text be chosen, by the pointer or by arrows.
  columns(element, made, length, name) {
    this.note(element, made);
    const choose = (column) => this.choose(element, made, Math.max(0, Math.min(column, length - 1)), name);
    element.addEventListener("click", (event) => {
      const { left, width } = element.getBoundingClientRect();
      choose(Math.floor(((event.clientX - left) / width) * length));
    });
    element.addEventListener("keydown", (event) => {
      const step = { ArrowLeft: -1, ArrowRight: 1, Enter: 0 }[event.key];
      if (step === undefined) return;
      event.preventDefault();
      event.stopPropagation();
      choose((this.chosen?.element === element ? this.chosen.column : 0) + step);
    });
  }

  note(element, made) {
    element.made = made;
    if (made) this.elements.set(made.moment, [...(this.elements.get(made.moment) ?? []), element]);
  }

  choose(element, made, column, name) {
    this.chosen = { element, column };
    if (!made) return this.mark();
    const part = partOf(made.parts, column);
    const { moment, reads } = made;
    if (!part) return this.state.choose({ moment });
    const item = reads ? null : { moment, part: part.moment, text: name(column + 1) };
    this.state.choose({ moment, place: part.place, item });
  }

  said({ kind, text, made }) {
    const words = { type: "", return: "", alarm: "alarm", enter: "entered" };
    const line = make("pre", { tabIndex: 0 }, text || "\u00a0");
    const name = (column) => `typed column ${column}`;
    if (kind === "type" || kind === "return") this.columns(line, made, Math.max(text.length, 1), name);
    else if (made) {
      this.note(line, made);
      line.onclick = () => this.state.choose({ moment: made.moment });
    }
    return make("li", { className: `said ${kind}` }, make("span", { className: "quiet" }, words[kind]), line);
  }

  block({ bytes, events }, number) {
    const title = bytes === null ? "mark" : `block of ${bytes.length / 2} bytes`;
    const head = make("h3", {}, `${number} ${title}`);
    for (const made of events) {
      const did = `${made.did} by ${this.run.number[made.moment]}`;
      const button = make("button", { className: "number", title: "Goes to this event" }, did);
      button.onclick = () => this.state.choose({ moment: made.moment });
      head.append(" ", button);
    }
    const section = make("section", { className: bytes === null ? "block mark" : "block" }, head);
    const written = events.findLast((made) => made.did === "written");
    const read = events.find((made) => made.did === "read");
    if (bytes) section.append(this.digits(bytes, written ?? (read && { ...read, reads: true }), number));
    return section;
  }

  digits(bytes, made, number) {
    const shown = bytes.length / 2 > BLOCK_SHOWN ? BLOCK_SHOWN : bytes.length / 2;
    const box = make("div", { className: "dump" });
    const add = (first, last) => {
      for (let row = first; row < last; row += 16) box.append(this.rowOfBlock(bytes, row, made, number));
    };
    add(0, shown);
    if (shown < bytes.length / 2) {
      const more = make("button", {}, `${bytes.length / 2 - shown} bytes more`);
      more.onclick = () => {
        more.remove();
        add(shown, bytes.length / 2);
      };
      box.append(more);
    }
    return box;
  }

  rowOfBlock(bytes, row, made, number) {
    const part = bytes.slice(2 * row, 2 * row + 32).toUpperCase(), codes = codesOf(part);
    const text = make("pre", { className: "signs", tabIndex: 0 }, codes.map((code) => this.run.signs[code]).join(""));
    const name = (column) => `block ${number} byte ${row + column}`;
    this.columns(text, made && { ...made, parts: behind(made.parts, row) }, codes.length, name);
    const address = make("span", { className: "quiet" }, `${hex(row, 6)} `);
    return make("div", {}, address, part.replace(/(.{8})/g, "$1 ").padEnd(37), text);
  }

  follow() {
    this.mark();
  }

  // Shows the chosen column, and which items the moment's event made.
  mark() {
    for (const old of this.box.querySelectorAll(".column")) old.remove();
    for (const old of this.box.querySelectorAll(".here")) old.classList.remove("here");
    const { chosen, state } = this;
    if (chosen && state.root?.item && chosen.element.made?.moment === state.root.item.moment) {
      const length = chosen.element.columnCount ?? chosen.element.textContent.length;
      const style = `left:${(100 * chosen.column) / length}%;width:${100 / length}%`;
      chosen.element.append(make("i", { className: "column", style }));
    }
    for (const element of this.elements.get(state.moment) ?? []) element.classList.add("here");
    const here = $(`.sheets:not([hidden]) .here`, this.box);
    if (here && this.shown !== state.moment) scrollWithin(this.box, here);
    this.shown = state.moment;
  }
}

// The bytes that digits stand for.
const codesOf = (digits) => (digits.match(/../g) ?? []).map((byte) => parseInt(byte, 16));

// Where a byte of an item was in storage, and when, by the item's parts.
function partOf(parts, column) {
  let before = 0;
  for (const [address, count, moment] of parts) {
    if (column < before + count) return address < 0 ? null : { place: byteAt(address + column - before), moment };
    before += count;
  }
  return null;
}

// The parts of an item without so many bytes at its beginning.
function behind(parts, count) {
  const found = [];
  for (const [address, length, moment] of parts) {
    const cut = Math.min(count, length);
    if (length > cut) found.push([address < 0 ? -1 : address + cut, length - cut, moment]);
    count -= cut;
  }
  return found;
}
