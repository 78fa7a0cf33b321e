// The chosen event: what it is, what it stored and what of, and the command that goes there in gdb.

const MOST_STORES = 200;

class MomentView {
  constructor(run, state) {
    this.run = run;
    this.state = state;
    this.box = $("#moment");
  }

  follow(state) {
    const { run } = this, { number } = run.event(state.moment);
    const head = make("h2", {}, `${number} ${run.where(state.moment)}`);
    const doing = make("code", { className: "doing" }, run.doing(state.moment));
    const statement = run.statementAt.get(run.event(state.moment).address);
    const notes = [statement && `line ${statement.line}`, run.itemAt.get(state.moment)].filter(Boolean);
    const line = make("span", { className: "quiet" }, notes.join(" \u00b7 "));
    const before = number > run.first ? copying(`goto ${number - 1}`, "just before it") : "";
    const commands = make("span", { className: "commands" }, copying(state.command()), before);
    this.box.replaceChildren(make("div", { className: "bar" }, head, doing, line, commands), this.stores());
  }

  stores() {
    const { run, state } = this, list = make("ul", { className: "stored" });
    const first = run.begins[state.moment], all = range(first, run.begins[state.moment + 1]);
    const runs = runsOf(run, all.slice(0, MOST_STORES));
    for (const part of runs) {
      const place = make("button", { className: "place", title: "Shows its causes" }, nameOfRun(part));
      place.onclick = () => state.choose({ place: part.place });
      const label = part.address < 0 ? "" : ` ${run.labelOf(part.address)}`;
      const [before, value] = [short(part.before, 40), short(part.value, 40)];
      const change = part.before === part.value ? `= ${value}` : `${before} \u2192 ${value}`;
      list.append(make("li", {}, place, `${label} ${change}`, ...this.sources(part)));
    }
    if (!all.length) list.append(make("li", { className: "quiet" }, "It stored into no place."));
    if (all.length > MOST_STORES) list.append(make("li", { className: "quiet" }, `and ${all.length - MOST_STORES} more bytes`));
    return list;
  }

  sources(part) {
    const { run, state } = this;
    const found = run.sourcesOf(part.store);
    if (!found.length) return [];
    const buttons = found.slice(0, 12).map((extent) => {
      const place = extent.first < 0 ? extent.place : byteAt(extent.first);
      const name = extent.last > extent.first ? `${place}-${hex(extent.last, 6)}` : place;
      const button = make("button", { className: "place", title: run.placeName(place) }, name === PSW ? "PSW" : name);
      button.onclick = () => state.choose({ place, moment: state.moment - 1 });
      return button;
    });
    return [make("span", { className: "quiet" }, part.count > 1 ? " the first of " : " of "), ...buttons];
  }
}

const range = (first, end) => Array.from({ length: end - first }, (_, i) => first + i);

// A command that a click copies.
function copying(command, note = "") {
  const button = make("button", { className: "command", title: `Copies this command of gdb${note && `: ${note}`}` }, command);
  button.onclick = async () => {
    try {
      await navigator.clipboard.writeText(command);
      button.classList.add("copied");
    } catch {
      window.getSelection().selectAllChildren(button);
    }
  };
  return button;
}
