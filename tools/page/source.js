// Source: the listing with the current line, how often each line ran, and what it made last by the chosen moment. Without a
// listing it is the instructions that ran, in the order of addresses.

class SourceView {
  constructor(run, state) {
    this.run = run;
    this.state = state;
    this.box = $("#source .content");
    this.rows = new Map(); // by address
    const { file, lines } = run.program;
    $("#file").textContent = file && lines.length ? file.split("/").at(-1) : "no listing: instructions as they ran";
    this.most = Math.max(1, ...run.runsAt.values());
    const rows = lines.length ? this.ofLines() : this.ofInstructions();
    const head = make("thead", {}, headOf(["line", "ran", "at", "", "made last"]));
    this.box.append(make("table", {}, head, make("tbody", {}, ...rows)));
  }

  ofLines() {
    const addresses = new Map();
    for (const [address, line] of this.run.program.statements) addresses.set(line, [...(addresses.get(line) ?? []), address]);
    return this.run.program.lines.map((text, number) => this.row(String(number + 1), text, addresses.get(number + 1) ?? []));
  }

  ofInstructions() {
    const addresses = [...this.run.runsAt.keys()].sort((a, b) => a - b);
    if (!addresses.length) return [make("tr", {}, make("td", { colSpan: 5, className: "empty" }, "No instruction ran."))];
    return addresses.map((address) => {
      const moments = this.run.executions(address);
      return this.row("", moments.length ? this.run.doing(moments[0]) : "", [address]);
    });
  }

  row(number, text, addresses) {
    const ran = Math.max(0, ...addresses.map((address) => this.run.runsAt.get(address) ?? 0));
    const share = ran ? Math.max(3, (100 * Math.log1p(ran)) / Math.log1p(this.most)) : 0;
    const bar = make("i", { className: "bar", style: `width:${share}%` });
    const at = addresses.length ? hex(Math.min(...addresses), 6) : "";
    const cells = [number, ran ? String(ran) : "", at, text, ""].map((cell) => make("td", {}, cell));
    cells[1].append(bar);
    const row = make("tr", { className: addresses.length ? (ran ? "ran" : "idle") : "note" }, ...cells);
    addresses.forEach((address) => this.rows.set(address, { row, made: cells[4], last: -1 }));
    if (ran) row.onclick = () => this.goToNext(addresses[0]);
    return row;
  }

  // Goes to the next event at an address, and from the last one to the first.
  goToNext(address) {
    const moments = this.run.executions(address);
    if (!moments.length) return;
    const at = lowerBound(moments, this.state.moment + 1);
    this.state.choose({ moment: moments[at < moments.length ? at : 0] });
  }

  follow(state) {
    const { run } = this;
    for (const [address, line] of this.rows) {
      const moments = run.executions(address);
      const behind = lowerBound(moments, state.moment + 1), last = behind ? moments[behind - 1] : -1;
      if (last !== line.last) line.made.textContent = last < 0 ? "" : madeBy(run, last);
      line.last = last;
    }
    this.now?.row.classList.remove("now");
    const now = (this.now = this.rows.get(run.address[state.moment] - 1));
    if (!now) return;
    now.row.classList.add("now");
    scrollWithin(this.box, now.row);
  }
}

const headOf = (names) => make("tr", {}, ...names.map((name) => make("th", { scope: "col" }, name)));

// What an event stored, but for the PSW.
function madeBy(run, moment) {
  const stores = [];
  for (let store = run.begins[moment]; store < run.begins[moment + 1] && stores.length < 256; store++) {
    if (run.places[run.place[store]] !== PSW) stores.push(store);
  }
  if (!stores.length) return `${run.number[moment]}`;
  return `${run.number[moment]} ${runsOf(run, stores).map((part) => `${nameOfRun(part)} = ${short(part.value, 24)}`).join(", ")}`;
}

function scrollWithin(box, element) {
  const [inner, outer] = [element.getBoundingClientRect(), box.getBoundingClientRect()];
  if (inner.top < outer.top + 24 || inner.bottom > outer.bottom) box.scrollTop += inner.top - outer.top - box.clientHeight / 2;
}
