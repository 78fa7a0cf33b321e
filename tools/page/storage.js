// Storage over time: a row for each byte into which some event stored, over the events. A byte has the colour of the one who
// stored it, pale as long as it stands. Below it is the chosen cell: its bytes, stores and readers.

const AGAIN = " again";
const MOST_LISTED = 40, DUMPED = 64, ROW = 12, TINT = 0.35;

class StorageView {
  constructor(run, state) {
    this.run = run;
    this.state = state;
    this.plot = $("#storage .canvas");
    this.names = $("#storage .names");
    this.raster = new Raster($("canvas", this.plot));
    this.bytes = run.places.map((place, number) => [place, number]).filter(([place]) => isByte(place)).sort();
    this.momentsAt = (number) => this.moments.subarray(...this.run.spanAt(number));
    this.moments = run.storeOrder.map((store) => run.momentOfStore[store]);
    this.actors = Uint8Array.from(run.kind, (kind) => run.actorOfKind[kind]);
    this.makeAreas();
    this.makeLegend();
    followPointer(state, this.plot, (moment, event) => this.chooseAt(moment, event));
    new ResizeObserver(() => this.draw()).observe(this.plot);
  }

  // All bytes, or those of a label.
  makeAreas() {
    const areas = new Map();
    for (const [place] of this.bytes) {
      const label = this.run.labelOf(addressOf(place)).split("+")[0];
      if (label) areas.set(label, (areas.get(label) || 0) + 1);
    }
    const options = [...areas].map(([label, count]) => make("option", { value: label }, `${label} (${count})`));
    this.area = $("#area");
    this.again = this.bytes.filter(([, number]) => this.run.storesAt(number).length > 1);
    const all = make("option", { value: "" }, `all ${this.bytes.length} bytes stored into`);
    this.area.append(all, make("option", { value: AGAIN }, `stored into again (${this.again.length})`), ...options);
    this.area.onchange = () => this.draw();
  }

  makeLegend() {
    const there = new Set(this.run.lanes.map((lane) => lane.actor));
    const keys = [...there].sort().map((actor) => make("span", { className: `key actor${actor}` }, this.run.actors[actor]));
    $("#storage .legend").append(...keys);
  }

  rows() {
    const { value } = this.area;
    if (value === AGAIN) return this.again;
    return value ? this.bytes.filter(([place]) => this.run.labelOf(addressOf(place)).split("+")[0] === value) : this.bytes;
  }

  chooseAt(moment, event) {
    const box = this.plot.getBoundingClientRect(), rows = this.rows();
    const row = rows[Math.floor(((event.clientY - box.top) / box.height) * rows.length)];
    if (row) this.state.choose({ place: row[0], moment });
  }

  follow() {
    this.followSpan();
    this.showCell();
  }

  followSpan() {
    this.draw();
    placeCursor(this.state, $(".cursor", this.plot));
  }

  draw() {
    const began = performance.now(), rows = this.rows(), { raster, state } = this;
    const width = this.plot.clientWidth, height = Math.max(60, Math.min(rows.length * ROW, 340));
    if (!width) return;
    raster.begin(width, height);
    const scale = raster.width / (state.to - state.from), high = raster.height / rows.length;
    const strong = this.run.actors.map((_, actor) => pixel(colour(`actor${actor}`)));
    const pale = this.run.actors.map((_, actor) => pixel(colour(`actor${actor}`), TINT));
    let top = 0;
    const line = new Uint32Array(raster.width);
    rows.forEach(([, number], row) => {
      this.drawRow(this.momentsAt(number), line, scale, strong, pale);
      // Rows that share a pixel are drawn over one another.
      const bottom = Math.floor((row + 1) * high);
      if (bottom === top && row + 1 < rows.length) return;
      const last = Math.max(top + 1, bottom - (high >= 6 ? 1 : 0));
      for (let y = top; y < Math.min(last, raster.height); y++) raster.pixels.set(line, y * raster.width);
      line.fill(0);
      top = bottom;
    });
    this.markChosen(rows, high);
    raster.end();
    this.nameRows(rows, height);
    this.milliseconds = performance.now() - began;
  }

  // The pixels of a row: each store strong, and pale until the next one.
  drawRow(moments, line, scale, strong, pale) {
    const { state: { from, to }, actors } = this, width = line.length;
    const first = Math.max(0, lowerBound(moments, Math.floor(from)) - 1), end = lowerBound(moments, to);
    const wide = Math.max(1, Math.floor(scale));
    for (let at = first; at < end; at++) {
      const moment = moments[at], x = Math.max(0, Math.floor((moment - from) * scale));
      const next = at + 1 < end ? Math.floor((moments[at + 1] - from) * scale) : width;
      if (next <= x) continue;
      const actor = actors[moment], mark = moment < from ? x : Math.min(next, x + wide);
      for (let i = x; i < mark; i++) line[i] = strong[actor];
      for (let i = mark; i < next; i++) line[i] = pale[actor];
    }
  }

  markChosen(rows, high) {
    const row = rows.findIndex(([place]) => place === this.state.place);
    if (row < 0) return;
    const value = pixel(colour("accent"));
    const top = Math.max(0, Math.floor(row * high) - 1), bottom = Math.max(top + 2, Math.floor((row + 1) * high));
    this.raster.fill(0, this.raster.width, top, top + 1, value);
    this.raster.fill(0, this.raster.width, bottom - 1, bottom, value);
  }

  // Labels, or addresses, as far as they have room.
  nameRows(rows, height) {
    let free = 0, last = "";
    const names = [];
    rows.forEach(([place], row) => {
      const y = (row / rows.length) * height, label = this.run.labelOf(addressOf(place)).split("+")[0];
      const name = label && label !== last ? label : place.slice(1);
      if (y < free || y > height - ROW) return;
      names.push(make("div", { className: "name", title: this.run.placeName(place), style: `top:${y}px` }, name));
      [free, last] = [y + ROW, label];
    });
    this.names.replaceChildren(...names);
    this.names.style.height = `${height}px`;
  }

  showCell() {
    const { run, state } = this, cell = $("#storage .cell");
    const tell = (text) => cell.replaceChildren(make("p", { className: "empty" }, text));
    if (!this.bytes.length) tell("No event stored into storage.");
    else if (!state.place) tell("Choose a byte: its stores, values and readers.");
    else {
      cell.replaceChildren(
        make("h3", {}, `${run.placeName(state.place)} = ${run.valueAt(state.place, state.moment) || "not in the trace"}`),
        ...(isByte(state.place) ? [this.dump()] : []),
        this.list("Stores", run.storesOf(state.place)),
        this.list("Readers", run.readersOf(state.place)),
      );
    }
  }

  // The bytes around the chosen one, as they are at the moment.
  dump() {
    const { run, state } = this, chosen = addressOf(state.place), start = Math.max(0, (chosen & ~15) - 16);
    const box = make("div", { className: "dump" });
    for (let row = start; row < start + DUMPED; row += 16) {
      const line = make("div", {}, make("span", { className: "quiet" }, `${hex(row, 6)} `));
      let signs = "";
      for (let at = row; at < row + 16; at++) {
        const value = run.valueAt(byteAt(at), state.moment);
        const told = { title: run.placeName(byteAt(at)), className: at === chosen ? "now" : "" };
        const button = make("button", told, value || "\u00b7\u00b7");
        button.onclick = () => state.choose({ place: byteAt(at) });
        line.append(button);
        signs += value ? run.signs[parseInt(value, 16)] : " ";
      }
      line.append(make("span", { className: "signs" }, ` ${signs}`));
      box.append(line);
    }
    return box;
  }

  // Stores around the moment, each of which can be chosen.
  list(title, stores) {
    const { run, state } = this, there = lowerBound(stores, state.moment + 1, (store) => run.momentOfStore[store]);
    const first = Math.max(0, Math.min(there - MOST_LISTED / 2, stores.length - MOST_LISTED));
    const told = [...stores.slice(first, first + MOST_LISTED)];
    const rows = told.map((store) => storeRow(run, state, store, title === "Readers"));
    const of = stores.length > told.length ? `${told.length} of ` : "";
    const table = make("table", { className: title.toLowerCase() }, ...rows);
    return make("details", { open: true }, make("summary", {}, `${title} (${of}${stores.length})`), table);
  }
}

// A row of a table: the event of a store, and its value.
function storeRow(run, state, store, isReader) {
  const moment = run.momentOfStore[store], place = run.places[run.place[store]];
  const number = make("button", { className: "number", title: run.where(moment) }, String(run.number[moment]));
  number.onclick = () => state.choose(isReader ? { moment, place } : { moment });
  const value = `${run.values[run.before[store]]} \u2192 ${run.values[run.after[store]]}`;
  const cells = [number, run.where(moment), run.doing(moment), isReader ? `made ${run.placeName(place)}` : value];
  const className = moment === state.moment ? "now" : "";
  return make("tr", { className }, ...cells.map((cell) => make("td", {}, cell)));
}
