// Time: a lane for each routine and unit over the events, and one with the stores into the chosen place.

const LANE = 13, AXIS = 18;

class TimeView {
  constructor(run, state) {
    this.run = run;
    this.state = state;
    this.names = $("#lanes .names");
    this.plot = $("#lanes .canvas");
    this.raster = new Raster($("canvas", this.plot));
    this.chosen = make("div", { className: "name chosen" });
    this.names.append(this.chosen, ...run.lanes.map((lane) => this.name(lane)));
    followPointer(state, this.plot, (moment) => state.choose({ moment }));
    new ResizeObserver(() => this.draw()).observe(this.plot);
    $("#zoomIn").onclick = () => state.zoom(0.5);
    $("#zoomOut").onclick = () => state.zoom(2);
    $("#zoomAll").onclick = () => state.move(0, run.moments);
  }

  name(lane) {
    const first = this.run.lane.indexOf(this.run.lanes.indexOf(lane));
    const button = make("button", { className: "name", title: "Goes to its next event" }, lane.name);
    button.onclick = () => this.goToNext(this.run.lanes.indexOf(lane), first);
    return button;
  }

  goToNext(lane, first) {
    const { run, state } = this;
    const behind = run.lane.indexOf(lane, state.moment + 1);
    state.choose({ moment: behind < 0 ? first : behind });
  }

  followSpan() {
    const { run, state } = this;
    this.draw();
    placeCursor(state, $(".cursor", this.plot));
    const [first, last] = [run.number[Math.floor(state.from)], run.number[Math.ceil(state.to) - 1]];
    $("#span").textContent = `events ${first} to ${last}`;
  }

  follow(state) {
    const { run } = this;
    this.followSpan();
    this.chosen.textContent = state.place ? `stores: ${run.placeName(state.place)}` : "no place chosen";
    [...this.names.children].slice(1).forEach((name, lane) => name.classList.toggle("now", run.lane[state.moment] === lane));
    const number = run.number[state.moment];
    const told = { now: number, min: run.first, max: run.number[run.last], text: `event ${number}, ${run.where(state.moment)}` };
    for (const [name, value] of Object.entries(told)) this.plot.setAttribute(`aria-value${name}`, value);
  }

  draw() {
    const began = performance.now();
    const { run, state, raster } = this;
    const width = this.plot.clientWidth, height = (run.lanes.length + 1) * LANE + AXIS;
    if (!width) return;
    raster.begin(width, height);
    this.drawLanes(raster.width / (state.to - state.from));
    this.drawStores(raster.width / (state.to - state.from));
    raster.end();
    this.drawAxis(width, height);
    this.milliseconds = performance.now() - began;
  }

  // Where fewer pixels than moments are, the more events of a lane a pixel has the darker it is.
  drawLanes(scale) {
    const { run, state, raster } = this, { width } = raster;
    const counts = new Uint32Array(run.lanes.length * width);
    const [first, end] = [Math.floor(state.from), Math.min(Math.ceil(state.to), run.moments)];
    const gap = scale >= 6 ? 1 : 0;
    for (let moment = first; moment < end; moment++) {
      const x = Math.floor((moment - state.from) * scale), next = Math.floor((moment + 1 - state.from) * scale);
      const row = run.lane[moment] * width, last = Math.min(Math.max(next - gap, x + 1), width);
      for (let at = Math.max(x, 0); at < last; at++) counts[row + at]++;
    }
    const shades = run.lanes.map((lane) => shadesOf(colour(`actor${lane.actor}`)));
    const high = Math.round((LANE - 2) * raster.ratio), full = Math.max(1, 0.6 / scale);
    for (let lane = 0; lane < run.lanes.length; lane++) {
      const top = Math.round((lane + 1) * LANE * raster.ratio) + 1;
      for (let x = 0; x < width; x++) {
        const count = counts[lane * width + x];
        const shade = Math.min(SHADES, Math.ceil((SHADES * count) / full));
        if (count) raster.fill(x, x + 1, top, top + high, shades[lane][shade]);
      }
    }
  }

  drawStores(scale) {
    const { run, state, raster } = this;
    if (!state.place) return;
    const value = pixel(colour("accent")), wide = Math.max(Math.ceil(raster.ratio), Math.floor(scale));
    for (const store of run.storesOf(state.place)) {
      const x = Math.floor((run.momentOfStore[store] - state.from) * scale);
      raster.fill(x, x + wide, 1, Math.round((LANE - 2) * raster.ratio), value);
    }
  }

  drawAxis(width, height) {
    const { run, state, raster: { context } } = this;
    context.fillStyle = context.strokeStyle = colour("quiet");
    context.font = `11px ${colour("mono")}`;
    const span = state.to - state.from;
    for (const moment of ticks(state.from, state.to - 1, width / 90)) {
      const x = ((moment + 0.5 - state.from) / span) * width;
      context.fillRect(x, height - AXIS, 1, 4);
      context.fillText(run.number[moment], x + 3, height - 5);
    }
  }
}

const SHADES = 8;
const shadesOf = (text) => Array.from({ length: SHADES + 1 }, (_, shade) => pixel(text, 0.3 + (0.7 * shade) / SHADES));
