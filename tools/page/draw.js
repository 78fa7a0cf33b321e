// What views draw with: elements, whose texts are never markup; colours of the style; and a raster of pixels.

function make(tag, properties = {}, ...children) {
  const element = document.createElement(tag);
  for (const [name, value] of Object.entries(properties)) {
    if (name in element) element[name] = value;
    else element.setAttribute(name, value);
  }
  element.append(...children);
  return element;
}

function makeSvg(tag, attributes = {}, ...children) {
  const element = document.createElementNS("http://www.w3.org/2000/svg", tag);
  for (const [name, value] of Object.entries(attributes)) element.setAttribute(name, value);
  element.append(...children);
  return element;
}

const $ = (selector, within = document) => within.querySelector(selector);

// A colour of the style, `--name`, as text and as a pixel.
const colour = (name) => getComputedStyle(document.documentElement).getPropertyValue(`--${name}`).trim();

function pixel(text, opacity = 1) {
  const number = parseInt(text.slice(1), 16);
  const [red, green, blue] = [number >> 16, (number >> 8) & 255, number & 255];
  return ((Math.round(255 * opacity) << 24) | (blue << 16) | (green << 8) | red) >>> 0;
}

// Pixels of a canvas, in those of the screen.
class Raster {
  constructor(canvas) {
    this.canvas = canvas;
    this.context = canvas.getContext("2d");
  }

  begin(width, height) {
    const ratio = window.devicePixelRatio || 1;
    const [wide, high] = [Math.max(1, Math.round(width * ratio)), Math.max(1, Math.round(height * ratio))];
    if (this.width !== wide || this.height !== high) {
      [this.width, this.height] = [this.canvas.width, this.canvas.height] = [wide, high];
      this.canvas.style.width = `${width}px`;
      this.canvas.style.height = `${height}px`;
      this.image = this.context.createImageData(wide, high);
      this.pixels = new Uint32Array(this.image.data.buffer);
    }
    this.ratio = ratio;
    this.pixels.fill(0);
  }

  fill(left, right, top, bottom, value) {
    const first = Math.max(left, 0), last = Math.min(right, this.width);
    if (first >= last) return;
    for (let y = Math.max(top, 0); y < Math.min(bottom, this.height); y++) {
      this.pixels.fill(value, y * this.width + first, y * this.width + last);
    }
  }

  end() {
    this.context.putImageData(this.image, 0, 0);
    this.context.setTransform(this.ratio, 0, 0, this.ratio, 0, 0);
  }
}

// Round numbers, of which at most so many stand in a span.
function ticks(first, last, most) {
  const rough = Math.max((last - first) / Math.max(most, 1), 1);
  const power = 10 ** Math.floor(Math.log10(rough));
  const step = power * [1, 2, 5, 10].find((factor) => factor * power >= rough);
  const found = [];
  for (let at = Math.ceil(first / step) * step; at <= last; at += step) found.push(at);
  return found;
}

// Lets a plot choose, drag and zoom its span of moments.
function followPointer(state, plot, choose) {
  let start = null;
  const momentAt = (event) => {
    const box = plot.getBoundingClientRect();
    return state.from + ((event.clientX - box.left) / box.width) * (state.to - state.from);
  };
  plot.addEventListener("pointerdown", (event) => {
    start = { x: event.clientX, from: state.from, isMoved: false };
    plot.setPointerCapture(event.pointerId);
  });
  plot.addEventListener("pointermove", (event) => {
    if (!start) return;
    const moved = event.clientX - start.x;
    start.isMoved ||= Math.abs(moved) > 3;
    if (start.isMoved) state.move(start.from - (moved / plot.clientWidth) * (state.to - state.from));
  });
  plot.addEventListener("pointerup", (event) => {
    if (start && !start.isMoved) choose(Math.floor(momentAt(event)), event);
    start = null;
  });
  plot.addEventListener("wheel", (event) => {
    event.preventDefault();
    if (event.shiftKey || Math.abs(event.deltaX) > Math.abs(event.deltaY)) {
      state.move(state.from + ((event.deltaX || event.deltaY) / plot.clientWidth) * (state.to - state.from));
    } else state.zoom(event.deltaY > 0 ? 1.25 : 0.8, momentAt(event));
  }, { passive: false });
}

function placeCursor(state, cursor) {
  const share = (state.moment + 0.5 - state.from) / (state.to - state.from);
  cursor.hidden = share < 0 || share > 1;
  cursor.style.left = `${100 * share}%`;
}
