// Spans and marks over the entries of a history, as columns in order, and the halving by which one of them is found.
// Knows nothing of plants and nothing of drawing.
"use strict";
const spans = (() => {
  // The last place whose value isn't above the given one, or -1.
  function below(list, value) {
    let low = 0, high = list.length;
    while (low < high) {
      const middle = (low + high) >> 1;
      if (list[middle] <= value) low = middle + 1; else high = middle;
    }
    return low - 1;
  }
  // Styles that must not be overlooked, however narrow their span is.
  const LOUD = new Set(["abort", "stop", "left", "hold", "away"]);
  // Spans one after another: the k-th goes from the entry from[k] to the entry to[k], which is no longer in it. The
  // last one may be open; its to is -1.
  class Track {
    constructor(form) { Object.assign(this, { form, from: [], to: [], style: [], text: [], loud: [], sums: null }); }
    get length() { return this.from.length; }
    close(at) {
      const last = this.from.length - 1;
      if (last >= 0 && this.to[last] < 0) this.to[last] = at;
    }
    open(at, style, text) {
      this.close(at);
      if (LOUD.has(style)) this.loud.push(this.from.length);
      this.from.push(at); this.to.push(-1); this.style.push(style); this.text.push(text);
    }
    isOpen() { return this.from.length > 0 && this.to[this.to.length - 1] < 0; }
    // The span in which an entry lies, or -1.
    span(at) {
      const k = below(this.from, at);
      return k >= 0 && (this.to[k] < 0 || at < this.to[k]) ? k : -1;
    }
    // The text of the span in which an entry lies.
    textAt(at) { const k = this.span(at); return k < 0 ? null : this.text[k]; }
    // How many entries before the given one lie in spans of Execute: by sums, made when they are first asked for.
    executed(at) {
      if (!this.sums) this.sum();
      const k = below(this.from, at);
      if (k < 0) return 0;
      const end = this.to[k] < 0 ? at : Math.min(at, this.to[k]);
      return this.sums[k] + (this.style[k] === "run" ? end - this.from[k] : 0);
    }
    sum() {
      this.sums = new Float64Array(this.from.length + 1);
      this.from.forEach((from, k) => {
        this.sums[k + 1] = this.sums[k] + (this.style[k] === "run" && this.to[k] >= 0 ? this.to[k] - from : 0);
      });
    }
  }
  // Values over entries: from the entry at[k] on the value is value[k]. NaN where none is known, as after docking.
  class Series {
    constructor() { this.at = []; this.value = []; }
    get last() { return this.value[this.value.length - 1]; }
    put(at, value) { this.at.push(at); this.value.push(value); }
    known(at) { const k = below(this.at, at); return k < 0 ? NaN : this.value[k]; }
  }
  // A row of the drawing: its tracks of spans, and marks at entries. Its label may change over the entries.
  class Lane {
    constructor(kind, label) {
      Object.assign(this, { kind, label, more: new Track("more"), tracks: [], at: [], mark: [], owner: null,
        outcome: null, left: [] });
    }
    track(form) { const made = new Track(form); this.tracks.push(made); return made; }
    note(at, mark) { this.at.push(at); this.mark.push(mark); }
  }
  return { below, Track, Series, Lane };
})();
