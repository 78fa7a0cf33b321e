// The run that the page is of: its columns of numbers and dictionaries of words, and what follows from them.
// A moment is a position in the columns of events, a store one in the columns of stores. A place is named as in gdb (`s000518`).

const ARRAYS = { B: Uint8Array, H: Uint16Array, I: Uint32Array };
const PSW = "p";

async function column({ type, data }) {
  const bytes = Uint8Array.from(atob(data), (sign) => sign.charCodeAt(0));
  const stream = new Blob([bytes]).stream().pipeThrough(new DecompressionStream("deflate"));
  return new ARRAYS[type](await new Response(stream).arrayBuffer());
}

// The first position of a sorted array that is not below a value.
function lowerBound(sorted, value, key = (item) => item) {
  let low = 0, high = sorted.length;
  while (low < high) {
    const middle = (low + high) >> 1;
    if (key(sorted[middle]) < value) low = middle + 1;
    else high = middle;
  }
  return low;
}

// Of each number the positions at which a column has it, in rising order: all of them, and where those of a number begin and end.
function positionsOf(numbers, count) {
  const begins = new Uint32Array(count + 1);
  for (const number of numbers) begins[number + 1]++;
  for (let i = 0; i < count; i++) begins[i + 1] += begins[i];
  const order = new Uint32Array(numbers.length), next = begins.slice();
  for (let i = 0; i < numbers.length; i++) order[next[numbers[i]]++] = i;
  const spanAt = (number) => [begins[number], begins[number + 1]];
  return { order, spanAt, at: (number) => order.subarray(...spanAt(number)) };
}

const byteAt = (address) => `s${hex(address, 6)}`;
const hex = (number, digits) => number.toString(16).toUpperCase().padStart(digits, "0");
const isByte = (place) => place[0] === "s";
const addressOf = (place) => parseInt(place.slice(1, 7), 16);

class Run {
  constructor(told, columns) {
    Object.assign(this, told, columns, told.words);
    this.moments = columns.number.length;
    this.last = this.moments - 1;
    this.start = this.first > 1 ? `before ${this.first}` : "from the start";
    this.placeNumbers = new Map(this.places.map((place, number) => [place, number]));
    this.momentOfStore = new Uint32Array(this.place.length);
    for (let moment = 0; moment < this.moments; moment++) {
      this.momentOfStore.fill(moment, this.begins[moment], this.begins[moment + 1]);
    }
    ({ order: this.storeOrder, spanAt: this.spanAt, at: this.storesAt } = positionsOf(this.place, this.places.length));
    this.parsed = new Map();
    this.statementAt = new Map(this.program.statements.map(([address, line, text]) => [address, { line, text }]));
    this.runsAt = new Map(this.runs);
    this.makeExecutions();
    this.itemAt = itemsOf(this.paper);
  }

  static async read() {
    const told = JSON.parse(document.getElementById("data").textContent);
    const columns = {};
    for (const [name, packed] of Object.entries(told.columns)) columns[name] = await column(packed);
    delete told.columns;
    return new Run(told, columns);
  }

  makeExecutions() {
    const numbers = new Map();
    const numbered = Uint32Array.from(this.address, (address) => {
      if (!numbers.has(address)) numbers.set(address, numbers.size);
      return numbers.get(address);
    });
    const { at } = positionsOf(numbered, numbers.size);
    this.executions = (address) => (numbers.has(address + 1) ? at(numbers.get(address + 1)) : []);
  }

  // Numbers of events.
  momentOf(number) {
    return Math.min(lowerBound(this.number, number), this.last);
  }

  // Of a moment the name of its event, the address, the digits of the instruction and its mnemonic.
  event(moment) {
    const [digits, mnemonic] = this.codes[this.code[moment]].split(",");
    const address = this.address[moment] - 1;
    return { name: this.kinds[this.kind[moment]], address, digits, mnemonic, number: this.number[moment] };
  }

  // The stores of a place, and the last of them at or before a moment, or -1.
  storesOf(place) {
    const number = this.placeNumbers.get(place);
    return number === undefined ? [] : this.storesAt(number);
  }

  lastStore(place, moment) {
    const stores = this.storesOf(place);
    const behind = lowerBound(stores, moment + 1, (store) => this.momentOfStore[store]);
    return behind ? stores[behind - 1] : -1;
  }

  // The value of a place just after a moment: nothing if the trace does not have it.
  valueAt(place, moment) {
    const store = this.lastStore(place, moment);
    if (store >= 0) return this.values[this.after[store]];
    const stores = this.storesOf(place);
    return stores.length ? this.values[this.before[stores[0]]] : "";
  }

  // The places that a store was made of: kinds of places, and of bytes the first and the last address.
  sourcesOf(store) {
    const number = this.source[store];
    if (!this.parsed.has(number)) this.parsed.set(number, extents(this.sources[number]));
    return this.parsed.get(number);
  }

  // The stores that were made of a place.
  readersOf(place) {
    const has = Uint8Array.from(this.sources, (text) => (holds(extents(text), place) ? 1 : 0));
    const found = [];
    for (let store = 0; store < this.source.length; store++) if (has[this.source[store]]) found.push(store);
    return found;
  }

  // Names for a person.
  labelOf(address) {
    const at = lowerBound(this.labels, address + 1, (label) => label[0]) - 1;
    if (at < 0) return "";
    const [start, name, size] = this.labels[at];
    if (address >= start + Math.max(size, 1)) return "";
    return address > start ? `${name}+${address - start}` : name;
  }

  placeName(place) {
    const label = isByte(place) ? this.labelOf(addressOf(place)) : "";
    return label ? `${place} ${label}` : place === PSW ? "PSW" : place;
  }

  // What an event is: its statement, or its instruction or command word.
  doing(moment) {
    const { name, address, digits, mnemonic } = this.event(moment);
    const statement = this.statementAt.get(address);
    if (statement && address >= 0) return statement.text;
    return digits ? `${mnemonic} ${digits}`.trim() : name === "cpu" ? "no instruction" : name;
  }

  where(moment) {
    const { name, address } = this.event(moment);
    const at = address < 0 ? "" : ` at ${hex(address, 6)}${this.labelOf(address) && ` ${this.labelOf(address)}`}`;
    return name + at;
  }
}

function extents(text) {
  return text.split(" ").filter(Boolean).map((word) => {
    const first = isByte(word) ? addressOf(word) : -1;
    return { place: word.slice(0, 7), first, last: word.length > 7 ? parseInt(word.slice(8), 16) : first };
  });
}

function holds(list, place) {
  if (!isByte(place)) return list.some((extent) => extent.place === place);
  const address = addressOf(place);
  return list.some((extent) => extent.first <= address && address <= extent.last);
}

// The items that events made or read, by their moments.
function itemsOf(paper) {
  const found = new Map();
  paper.printer?.forEach((lines, page) => {
    for (const { line, made } of lines) for (const { moment } of made) found.set(moment, `page ${page + 1} line ${line}`);
  });
  for (const medium of ["punch", "reader"]) {
    paper[medium]?.forEach(({ made }, card) => made && found.set(made.moment, `card ${card + 1}`));
  }
  for (const tape of ["tape0", "tape1"]) {
    paper[tape]?.forEach(({ events }, block) => events.forEach(({ moment }) => found.set(moment, `block ${block + 1}`)));
  }
  return found;
}
