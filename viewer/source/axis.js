// Where an entry stands across: by its number, or by its stamp where all stamps rise. A view is what of the axis is
// seen, and it has the cursor. Knows nothing of lanes, and nothing of drawing.
"use strict";
const axis = (() => {
  const LEAST = 8, SECOND = 1000, MINUTE = 60 * SECOND, HOUR = 60 * MINUTE;
  // Steps that are round on a clock.
  const CLOCK = [...[1, 2, 5, 10, 20, 50, 100, 200, 500], ...[1, 2, 5, 10, 15, 30].map(times => times * SECOND),
    ...[1, 2, 5, 10, 15, 30].map(times => times * MINUTE), ...[1, 2, 3, 6, 12, 24].map(times => times * HOUR)];
  function rising(stamps) {
    const count = stamps.length;
    return count > 1 && stamps.every((stamp, k) => stamp >= 0 && (k === 0 || stamp >= stamps[k - 1]))
      && stamps[count - 1] > stamps[0];
  }
  class View {
    constructor(stamps) {
      this.count = stamps.length; this.stamps = stamps; this.rises = rising(stamps);
      this.byStamp = false; this.cursor = Math.max(0, this.count - 1);
      this.whole();
    }
    value(entry) { return this.byStamp ? this.stamps[Math.min(entry, this.count - 1)] - this.stamps[0] : entry; }
    // Where a thing that happens at an entry is marked: by number in its middle.
    middle(entry) { return this.value(entry) + (this.byStamp ? 0 : 0.5); }
    entry(value) {
      if (this.byStamp) return Math.max(0, spans.below(this.stamps, value + this.stamps[0]));
      return Math.max(0, Math.min(this.count - 1, Math.floor(value)));
    }
    // By stamp a little room is left behind the last one, so that what happens there is seen.
    end() { return this.byStamp ? (this.value(this.count - 1) || 1) * 1.01 : this.count; }
    whole() { this.low = 0; this.high = Math.max(1, this.end()); }
    get size() { return this.high - this.low; }
    set(low, high) {
      const size = Math.min(Math.max(high - low, this.byStamp ? this.end() / 1e6 : LEAST), Math.max(1, this.end()));
      this.low = Math.max(0, Math.min(low, this.end() - size));
      this.high = this.low + size;
    }
    zoom(factor, about = this.value(this.cursor)) {
      const held = about < this.low || about > this.high ? (this.low + this.high) / 2 : about,
        left = (held - this.low) * factor;
      this.set(held - left, held - left + this.size * factor);
    }
    move(by) { this.set(this.low + by, this.high + by); }
    go(entry) {
      this.cursor = Math.max(0, Math.min(this.count - 1, entry));
      const value = this.value(this.cursor);
      if (value < this.low || value >= this.high) this.set(value - this.size / 2, value + this.size / 2);
    }
    // The size of a step that gives at most the wanted number of ticks: on a clock, or 1, 2 or 5 times a power of ten.
    step(wanted) {
      const raw = this.size / wanted, ten = 10 ** Math.floor(Math.log10(raw));
      const clock = this.byStamp && words.isTime(this.stamps[0]) && CLOCK.find(size => size >= raw);
      return Math.max(clock || [1, 2, 5, 10].map(times => times * ten).find(size => size >= raw), this.byStamp ? 0 : 1);
    }
    // Entries are counted from 1, stamps from the first one.
    offset() { return this.byStamp ? this.stamps[0] : 1; }
    label(value, step) {
      const shown = Math.round(value + this.offset());
      if (!this.byStamp) return words.tick(shown - 1);
      if (!words.isTime(shown)) return words.number(shown);
      return new Date(shown).toISOString().slice(11, step >= SECOND ? 19 : 23);
    }
  }
  return { View };
})();
