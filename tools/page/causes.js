// Causes: the chain of what is chosen as a graph. Each event stands once; what it was made of is below it.

const NODE = { width: 232, height: 66, across: 14, down: 26, margin: 10, most: 150 };
const ACROSS = NODE.width + NODE.across, DOWN = NODE.height + NODE.down;

class CausesView {
  constructor(run, state) {
    this.run = run;
    this.state = state;
    this.box = $("#causes .content");
    this.depth = $("#depth");
    this.depth.oninput = () => this.draw();
    this.root = null;
    this.draw();
  }

  follow(state) {
    if (state.root !== this.root) {
      this.root = state.root;
      this.chain = state.root && new Chain(this.run, state.root);
      this.draw();
    }
    for (const node of this.box.querySelectorAll(".cause")) {
      node.classList.toggle("now", Number(node.dataset.moment) === state.moment);
    }
  }

  draw() {
    const { run, root, chain } = this;
    if (!root) return this.tell("Choose a printed column, a hole, a byte or a register: its causes are drawn here.");
    const name = root.item ? root.item.text : run.placeName(root.place);
    $("#of").textContent = root.item ? `of ${name}` : `of ${name} after ${run.number[root.moment]}`;
    if (!chain.root) return this.tell(`No event of the trace stored into ${name} by then.`);
    const shown = chain.shown(Math.max(1, Number(this.depth.value) || 1)).slice(0, NODE.most);
    this.box.replaceChildren(this.graph(shown), make("p", { className: "count" }, this.count(shown.length)));
  }

  count(shown) {
    const { size } = this.chain.causes, more = this.chain.isCut ? "more than " : "";
    if (more || size > shown) return `${shown} of ${more}${size} events: raise the depth for more`;
    return shown === 1 ? "1 event" : `${shown} events`;
  }

  tell(text) {
    $("#of").textContent = "";
    this.box.replaceChildren(make("p", { className: "empty" }, text));
  }

  graph(shown) {
    const layers = layersOf(shown), at = new Map();
    layers.forEach((causes, layer) => {
      causes.forEach(({ moment }, i) => at.set(moment, { x: NODE.margin + i * ACROSS, y: NODE.margin + layer * DOWN }));
    });
    const width = NODE.margin * 2 + Math.max(...layers.map((causes) => causes.length)) * ACROSS - NODE.across;
    const height = NODE.margin * 2 + layers.length * DOWN - NODE.down;
    const box = { width, height, viewBox: `0 0 ${width} ${height}` };
    const svg = makeSvg("svg", { ...box, role: "group", "aria-label": "Causes" });
    for (const { moment, below } of shown) {
      for (const [made, stores] of below) if (at.has(made)) svg.append(this.edge(at.get(moment), at.get(made), stores));
    }
    for (const cause of shown) {
      const hasMore = [...cause.below.keys()].some((moment) => !at.has(moment));
      svg.append(this.node(cause, at.get(cause.moment), hasMore));
    }
    return svg;
  }

  edge(from, to, stores) {
    const [x1, y1, x2, y2] = [from.x + NODE.width / 2, from.y + NODE.height, to.x + NODE.width / 2, to.y];
    const bend = NODE.down * 0.7;
    const path = makeSvg("path", { class: "edge", d: `M${x1} ${y1}C${x1} ${y1 + bend} ${x2} ${y2 - bend} ${x2} ${y2}` });
    path.append(makeSvg("title", {}, runsOf(this.run, stores).map(nameOfRun).join(" ")));
    return path;
  }

  // Its event and label, its statement, what it made, and what of its sources is not followed.
  node(cause, { x, y }, hasMore) {
    const { run, state } = this, actor = run.actorOfKind[run.kind[cause.moment]];
    const drawn = { class: `cause actor${actor}`, transform: `translate(${x} ${y})` };
    const group = makeSvg("g", { ...drawn, tabindex: 0, role: "button" });
    group.dataset.moment = cause.moment;
    const texts = this.textsOf(cause), { width, height } = NODE;
    group.append(makeSvg("rect", { width, height, rx: 3 }), makeSvg("rect", { class: "actor", width: 4, height }));
    texts.forEach(([kind, text], i) => {
      group.append(makeSvg("text", { class: kind, x: 11, y: 15 + i * 15 }, short(text, 31)));
    });
    if (hasMore) group.append(makeSvg("text", { class: "more", x: NODE.width - 14, y: 15 }, "\u203a"));
    group.append(makeSvg("title", {}, texts.map(([, text]) => text).join("\n")));
    const [store] = cause.stores, place = store === undefined ? state.place : run.places[run.place[store]];
    const choose = () => state.choose({ moment: cause.moment, place, keeps: true });
    group.addEventListener("click", choose);
    group.addEventListener("keydown", (event) => {
      if (event.key !== "Enter" && event.key !== " ") return;
      event.preventDefault();
      event.stopPropagation();
      choose();
    });
    return group;
  }

  textsOf(cause) {
    const { run } = this, { name, number, address } = run.event(cause.moment);
    const statement = run.statementAt.get(address);
    const where = address < 0 ? "" : run.labelOf(address) || hex(address, 6);
    const parts = runsOf(run, cause.stores).map((part) => `${nameOfRun(part)} = ${part.value}`);
    const notes = [];
    if (statement) notes.push(`line ${statement.line}`);
    if (run.itemAt.has(cause.moment)) notes.push(run.itemAt.get(cause.moment));
    if (cause.fromStart.size) notes.push(`${run.start}: ${namesOf([...cause.fromStart])}`);
    if (cause.isOfPsw) notes.push("PSW");
    return [
      ["head", `${number} ${name === "cpu" ? where : `${name} ${where}`}`],
      ["doing", run.doing(cause.moment)],
      ["made", parts.join(", ") || this.root.item.text],
      ["notes", notes.join(", ")],
    ];
  }
}

// The causes of each layer from left to right: each stands as near as it can below what it made, a later event before an earlier.
function layersOf(shown) {
  const layers = [], above = new Map();
  for (const cause of shown) (layers[cause.layer] ??= []).push(cause);
  for (const layer of layers) {
    const middle = ({ moment }) => {
      const columns = above.get(moment) ?? [0];
      return columns.reduce((sum, column) => sum + column, 0) / columns.length;
    };
    layer.sort((a, b) => middle(a) - middle(b) || b.moment - a.moment);
    layer.forEach(({ below }, column) => {
      for (const moment of below.keys()) above.set(moment, [...(above.get(moment) ?? []), column]);
    });
  }
  return layers;
}

// Places with successive bytes as extents.
function namesOf(places) {
  const names = [];
  for (const place of places.sort()) {
    const last = names.at(-1);
    if (last && isByte(place) && isByte(last.place) && addressOf(place) === last.address + last.count) last.count++;
    else names.push({ place, address: isByte(place) ? addressOf(place) : -1, count: 1 });
  }
  return names.map(nameOfRun).join(" ");
}
