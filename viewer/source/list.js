// The list of all entries, of which only the rows that are seen exist. For a screen reader it is a list box whose
// options say their place. Knows nothing of what the entries mean.
"use strict";
const list = (() => {
  const WIDE = 26, NARROW = 58;
  class List {
    constructor(holder, go) {
      Object.assign(this, { holder, go, rows: null, count: 0, texts: null, view: null });
      this.room = holder.appendChild(tables.make("div", { class: "rows", role: "presentation" }));
      holder.setAttribute("role", "listbox");
      holder.addEventListener("scroll", () => this.later(), { passive: true });
    }
    get tall() { return lanes.isNarrow() ? NARROW : WIDE; }
    // Rows are the entries to be shown, or null for all; texts says an entry's event, its answer and if it was refused.
    show(rows, count, texts, view) {
      Object.assign(this, { rows, count: rows ? rows.length : count, texts, view });
      this.room.style.height = `${this.count * this.tall}px`;
      this.later();
    }
    entry(row) { return this.rows ? this.rows[row] : row; }
    // The row of an entry, or the last one before it.
    row(entry) { return this.rows ? spans.below(this.rows, entry) : entry; }
    // The entry so many rows further.
    beside(entry, by) {
      if (!this.rows) return entry + by;
      const row = this.row(entry), isShown = this.rows[row] === entry, from = by > 0 || isShown ? row : row + 1;
      return this.rows[Math.max(0, Math.min(this.count - 1, from + by))] ?? entry;
    }
    later() {
      if (this.waits) return;
      this.waits = true;
      requestAnimationFrame(() => { this.waits = false; this.draw(); });
    }
    follow() {
      const top = Math.max(0, this.row(this.view.cursor)) * this.tall, room = this.holder.clientHeight;
      if (top < this.holder.scrollTop || top > this.holder.scrollTop + room - this.tall) {
        this.holder.scrollTop = top - room / 2;
      }
      this.later();
    }
    draw() {
      if (!this.texts) return;
      const { tall } = this, first = Math.max(0, Math.floor(this.holder.scrollTop / tall) - 2);
      const last = Math.min(this.count, first + Math.ceil(this.holder.clientHeight / tall) + 4), made = [];
      for (let row = first; row < last; row += 1) made.push(this.made(row, tall));
      this.room.replaceChildren(...made);
      const here = this.row(this.view.cursor);
      const isSeen = here >= first && here < last && this.entry(here) === this.view.cursor;
      if (isSeen) this.holder.setAttribute("aria-activedescendant", `row-${here}`);
      else this.holder.removeAttribute("aria-activedescendant");
    }
    made(row, tall) {
      const { make } = tables, entry = this.entry(row), { event, answer, refused } = this.texts(entry);
      const isHere = entry === this.view.cursor, style = `row${isHere ? " here" : ""}${refused ? " no" : ""}`;
      const attributes = { id: `row-${row}`, role: "option", class: style, "aria-selected": String(isHere),
        "aria-setsize": this.count, "aria-posinset": row + 1, style: `top:${row * tall}px;height:${tall}px` };
      return make("div", { ...attributes, click: () => this.go(entry) },
        make("span", { class: "n" }, words.tick(entry) || "–"), make("bdi", { class: "e" }, event),
        make("bdi", { class: "a" }, answer));
    }
  }
  return { List };
})();
