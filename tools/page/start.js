// Starts the page: its views, what is typed, the keyboard, and the address behind `#`, which names the event and the place.

async function start() {
  const run = await Run.read();
  const state = new State(run);
  const kinds = { time: TimeView, moment: MomentView, paper: PaperView };
  Object.assign(kinds, { causes: CausesView, storage: StorageView, source: SourceView });
  const views = Object.fromEntries(Object.entries(kinds).map(([name, View]) => [name, new View(run, state)]));
  state.views.push(...Object.values(views), { follow: () => noteAddress(state) });
  tellSummary(run);
  listenToKeys(state);
  $("#go").onsubmit = (event) => {
    event.preventDefault();
    goTo(state, $("#wanted").value);
  };
  for (const button of document.querySelectorAll(".enlarge")) {
    button.onclick = () => button.closest(".pane").classList.toggle("large");
  }
  matchMedia("(prefers-color-scheme: dark)").addEventListener("change", () => state.tell());
  addEventListener("beforeprint", () => views.paper.openAll());
  if (!goTo(state, decodeURIComponent(location.hash.slice(1)))) state.tell();
  return { run, state, views, Chain, partOf, goTo: (text) => goTo(state, text) };
}

function tellSummary(run) {
  const last = run.first + run.events - 1, count = run.events.toLocaleString("en");
  const summed = ` Up to ${run.step} successive events of the CPU are one moment: its last event and last stores.`;
  $("#summary").textContent = `${count} events, ${run.first} to ${last}.${run.step > 1 ? summed : ""}`;
}

// Goes to a number, a place, a label with or without a distance, or several of them with commas between.
function goTo(state, text) {
  const words = text.split(/[,\s]+/).filter(Boolean), wanted = {};
  for (const word of words) {
    if (/^\d+$/.test(word)) wanted.moment = state.run.momentOf(Number(word));
    else wanted.place = placeOf(state.run, word);
  }
  const input = $("#wanted"), isKnown = words.length > 0 && wanted.place !== null;
  input.setCustomValidity(words.length && !isKnown ? "No event, place or label of this run" : "");
  if (words.length && !isKnown) input.reportValidity();
  if (isKnown) state.choose(wanted);
  return isKnown;
}

function placeOf(run, word) {
  const upper = word.toUpperCase();
  const forms = [word.toLowerCase(), word[0].toLowerCase() + upper.slice(1), `s${upper.padStart(6, "0")}`];
  const found = forms.find((name) => run.placeNumbers.has(name));
  if (found) return found;
  const [name, distance = "0"] = word.split("+");
  const label = run.labels.find(([, label]) => label === name);
  return label ? byteAt(label[0] + Number(distance)) : null;
}

function noteAddress(state) {
  const words = [state.run.number[state.moment], state.place].filter((word) => word !== null);
  history.replaceState(null, "", `#${words.join(",")}`);
}

// The next store into the chosen place, in one direction.
function goToStore(state, isForward) {
  const stores = state.place ? state.run.storesOf(state.place) : [];
  const moments = state.run.momentOfStore;
  const at = lowerBound(stores, state.moment + (isForward ? 1 : 0), (store) => moments[store]);
  const store = stores[isForward ? at : at - 1];
  if (store !== undefined) state.choose({ moment: moments[store] });
}

function listenToKeys(state) {
  const step = (count) => state.choose({ moment: state.moment + count });
  const deeds = {
    ArrowLeft: () => step(-1), ArrowRight: () => step(1), PageUp: () => step(-100), PageDown: () => step(100),
    Home: () => step(-state.run.moments), End: () => step(state.run.moments),
    p: () => goToStore(state, false), n: () => goToStore(state, true),
    "+": () => state.zoom(0.5), "-": () => state.zoom(2), 0: () => state.move(0, state.run.moments),
    Escape: () => $(".large")?.classList.remove("large"),
    Backspace: () => state.goBack(), "/": () => $("#wanted").focus(),
  };
  addEventListener("keydown", (event) => {
    // A pane is scrolled by these.
    const scrolls = event.target.closest(".content") && /^(Page|Home|End)/.test(event.key);
    if (event.target.matches("input, select") || scrolls || event.ctrlKey || event.metaKey || event.altKey) return;
    const deed = deeds[event.key];
    if (!deed) return;
    event.preventDefault();
    deed();
  });
  const buttons = { back: "Backspace", previous: "ArrowLeft", next: "ArrowRight", storeBefore: "p", storeAfter: "n" };
  for (const [id, key] of Object.entries(buttons)) $(`#${id}`).onclick = deeds[key];
}
