// The chain of causes of a place: events, each once, and of each the stores that count and the events that it was made by.
// The cause of a place at a moment is the last store into it by then; what that was made of is caused likewise before it.

const MOST_CAUSES = 1000;

class Cause {
  constructor(moment) {
    this.moment = moment;
    this.stores = new Set();
    this.below = new Map(); // of each event that it was made by the stores
    this.fromStart = new Set(); // places that nothing in the trace stored into before it
    this.isOfPsw = false; // which is told and not followed
    this.depth = Infinity;
  }
}

class Chain {
  // The root is a place after a moment; or an item, which an event made of one byte, as that stood before a moment.
  constructor(run, root) {
    this.run = run;
    this.causes = new Map();
    this.pending = [];
    this.isCut = false;
    const above = root.item ? this.cause(root.item.moment) : null;
    this.root = above;
    const found = this.want(root.place, root.item ? root.item.part - 1 : root.moment, above);
    this.root ??= found;
    this.pending = this.pending.filter((moment) => moment !== above?.moment);
    this.follow();
    if (this.root) this.measure();
  }

  cause(moment) {
    if (!this.causes.has(moment)) {
      this.causes.set(moment, new Cause(moment));
      this.pending.splice(lowerBound(this.pending, moment), 0, moment);
    }
    return this.causes.get(moment);
  }

  want(place, moment, above) {
    if (place === PSW && above) {
      above.isOfPsw = true;
      return null;
    }
    const store = this.run.lastStore(place, moment);
    if (store < 0) {
      above?.fromStart.add(place);
      return null;
    }
    const cause = this.cause(this.run.momentOfStore[store]);
    cause.stores.add(store);
    if (above) {
      if (!above.below.has(cause.moment)) above.below.set(cause.moment, new Set());
      above.below.get(cause.moment).add(store);
    }
    return cause;
  }

  // Goes from later events to earlier ones: those that were made of an event have all been seen before it.
  follow() {
    while (this.pending.length) {
      const cause = this.causes.get(this.pending.pop());
      if (this.causes.size > MOST_CAUSES) {
        this.isCut = true;
        this.causes.delete(cause.moment);
        continue;
      }
      for (const store of cause.stores) {
        for (const { place, first, last } of this.run.sourcesOf(store)) {
          if (first < 0) this.want(place, cause.moment - 1, cause);
          else for (let at = first; at <= last; at++) this.want(byteAt(at), cause.moment - 1, cause);
        }
      }
    }
  }

  // How many events each is away from the root.
  measure() {
    this.root.depth = 0;
    const line = [this.root];
    for (const cause of line) {
      for (const moment of cause.below.keys()) {
        const below = this.causes.get(moment);
        if (!below || below.depth < Infinity) continue;
        below.depth = cause.depth + 1;
        line.push(below);
      }
    }
  }

  // The causes up to a depth, from later to earlier ones, each with the layer in which it is drawn, right of all that it made.
  shown(depth) {
    const found = [...this.causes.values()].filter((cause) => cause.depth <= depth).sort((a, b) => b.moment - a.moment);
    found.forEach((cause) => (cause.layer = 0));
    for (const cause of found) {
      for (const moment of cause.below.keys()) {
        const below = this.causes.get(moment);
        if (below) below.layer = Math.max(below.layer, cause.layer + 1);
      }
    }
    return found;
  }
}

// Stores as runs of places: successive bytes stand together, with their values.
function runsOf(run, stores) {
  const runs = [];
  for (const store of [...stores].sort((a, b) => a - b)) {
    const place = run.places[run.place[store]], value = run.values[run.after[store]];
    const before = run.values[run.before[store]];
    const last = runs.at(-1);
    if (last && isByte(place) && isByte(last.place) && addressOf(place) === last.address + last.count) {
      last.count++;
      last.value += value;
      last.before += before;
    } else runs.push({ place, address: isByte(place) ? addressOf(place) : -1, count: 1, value, before, store });
  }
  return runs;
}

const nameOfRun = ({ place, address, count }) => (count > 1 ? `${place}-${hex(address + count - 1, 6)}` : place);
const short = (text, most) => (text.length > most ? `${text.slice(0, most - 1)}\u2026` : text);
