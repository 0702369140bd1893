// Keys, pointers and fingers: on a pane a press sets the cursor, a pull sideways moves, two fingers or the wheel with
// Ctrl zoom. Says what is wanted to whoever asks, and knows nothing of what is drawn.
"use strict";
const hands = (() => {
  const STILL = 5;
  // Fingers on a pane, by their number, where they went down and where they are.
  class Fingers {
    constructor(pane, deeds) { Object.assign(this, { pane, deeds, down: new Map(), moved: false, kept: null }); }
    get view() { return this.pane.view; }
    keep() {
      const xs = [...this.down.values()];
      this.kept = { xs, values: xs.map(x => this.pane.valueAt(x)), low: this.view.low, high: this.view.high };
    }
    press(event) {
      if (!this.view || (event.pointerType === "mouse" && event.button !== 0)) return;
      if (this.down.size === 0) this.moved = false;
      this.down.set(event.pointerId, this.at(event));
      this.keep();
      if (this.down.size === 2) this.moved = true;
    }
    at(event) { return event.clientX - this.pane.canvas.getBoundingClientRect().x; }
    pull(event) {
      if (!this.down.has(event.pointerId)) return;
      if (event.pointerType === "mouse" && event.buttons === 0) { this.down.clear(); return; }
      this.down.set(event.pointerId, this.at(event));
      const xs = [...this.down.values()];
      if (Math.abs(xs[0] - this.kept.xs[0]) > STILL) this.moved = true;
      if (xs.length === 1 && this.moved) this.slide(xs[0]);
      if (xs.length === 2) this.pinch(xs);
    }
    slide(x) {
      const by = (this.kept.xs[0] - x) / (this.pane.width - this.pane.edge) * (this.kept.high - this.kept.low);
      this.view.set(this.kept.low + by, this.kept.high + by);
      this.deeds.moved();
    }
    // Two fingers hold the two values on which they were put.
    pinch([one, two]) {
      const [first, second] = this.kept.values, wide = this.pane.width - this.pane.edge;
      if (Math.abs(two - one) < 12 || first === second) return;
      const each = (second - first) / (two - one), low = first - (one - this.pane.edge) * each;
      this.view.set(low, low + each * wide);
      this.deeds.moved();
    }
    lift(event, isPress) {
      if (!this.down.delete(event.pointerId)) return;
      if (isPress && !this.moved && this.down.size === 0) {
        this.deeds.pressed(this.pane, this.at(event), event.clientY - this.pane.canvas.getBoundingClientRect().y);
      }
      if (this.down.size) this.keep();
    }
    wheel(event) {
      if (!this.view) return;
      const { pane, view } = this, isSideways = event.shiftKey || Math.abs(event.deltaX) > Math.abs(event.deltaY);
      if (!event.ctrlKey && !isSideways) return;
      event.preventDefault();
      if (event.ctrlKey) view.zoom(event.deltaY > 0 ? 1.25 : 0.8, pane.valueAt(this.at(event)));
      else view.move((event.deltaX || event.deltaY) / (pane.width - pane.edge) * view.size);
      this.deeds.moved();
    }
  }
  function handle(pane, deeds) {
    const fingers = new Fingers(pane, deeds), { holder } = pane;
    holder.addEventListener("pointerdown", event => fingers.press(event));
    holder.addEventListener("pointermove", event => fingers.pull(event));
    addEventListener("pointerup", event => fingers.lift(event, true));
    addEventListener("pointercancel", event => fingers.lift(event, false));
    holder.addEventListener("wheel", event => fingers.wheel(event), { passive: false });
  }
  // Keys that mean the same wherever the focus is, but for fields and lists of choices.
  function keys(deeds) {
    addEventListener("keydown", event => {
      if (event.ctrlKey || event.metaKey || event.altKey || ["SELECT", "INPUT"].includes(event.target.tagName)) return;
      const isList = event.target.getAttribute?.("role") === "listbox"
        && /^(Arrow(Up|Down)|Page(Up|Down))$/.test(event.key);
      const key = isList ? `list ${event.key}` : event.key;
      if (!Object.hasOwn(deeds, key) || deeds[key](event.shiftKey) === false) return;
      event.preventDefault();
    });
  }
  // Files that are dropped anywhere.
  function drops(open) {
    const { classList } = document.body;
    addEventListener("dragover", event => { event.preventDefault(); classList.add("over"); });
    addEventListener("dragleave", event => { if (!event.relatedTarget) classList.remove("over"); });
    addEventListener("drop", event => {
      event.preventDefault();
      classList.remove("over");
      if (event.dataTransfer.files.length) open(event.dataTransfer.files);
    });
  }
  return { handle, keys, drops };
})();
