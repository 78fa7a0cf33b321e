// What is chosen: a moment, which is the machine just after an event; a place; the root of the chain of causes; and the span of
// moments that is drawn. Each view follows it.

class State {
  constructor(run) {
    this.run = run;
    this.moment = run.last;
    this.place = null;
    this.root = null;
    this.from = 0;
    this.to = run.moments;
    this.views = [];
    this.past = [];
  }

  // Chooses a moment, a place, an item, or several of them. A place is the root of a new chain, unless `keeps` leaves that.
  choose({ moment = this.moment, place = null, item = null, keeps = false }) {
    this.past.push({ moment: this.moment, place: this.place, root: this.root });
    this.moment = Math.max(0, Math.min(moment, this.run.last));
    if (place && !keeps) this.root = { place, moment: this.moment, item };
    this.place = place ?? this.place;
    this.show();
    this.tell();
  }

  goBack() {
    const before = this.past.pop();
    if (!before) return;
    Object.assign(this, before);
    this.show();
    this.tell();
  }

  // Moves the span so that the moment is within it.
  show() {
    const span = this.to - this.from;
    if (this.moment >= this.from && this.moment + 1 <= this.to) return;
    this.from = Math.max(0, Math.min(this.moment + 0.5 - span / 2, this.run.moments - span));
    this.to = this.from + span;
  }

  zoom(factor, around = this.moment + 0.5) {
    const span = Math.max(1, Math.min((this.to - this.from) * factor, this.run.moments));
    const share = (around - this.from) / (this.to - this.from);
    this.move(around - share * span, span);
  }

  move(from, span = this.to - this.from) {
    this.from = Math.max(0, Math.min(from, this.run.moments - span));
    this.to = this.from + span;
    for (const view of this.views) view.followSpan?.();
  }

  tell() {
    for (const view of this.views) view.follow(this);
  }

  command(moment = this.moment) {
    return `goto ${this.run.number[moment]}`;
  }
}
